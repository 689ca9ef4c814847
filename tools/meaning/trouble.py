"""What ends a tool, and files that do so where they can't be read."""
import os


class Trouble(Exception):
    """Nothing more can be done; the text is the line for standard error."""

    def __init__(self, text, status=2):
        super().__init__(text)
        self.status = status


class Answered(Exception):
    """The lab has answered that it refuses, and the answer was passed on: its status is ours."""

    def __init__(self, status):
        super().__init__()
        self.status = status


def front_of(path, most):
    """The bytes of a file, and of a longer one the first so many; `-` is standard input."""
    try:
        with open(0 if path == "-" else path, "rb", closefd=path != "-") as file:
            return file.read(most)
    except OSError as error:
        raise Trouble(f"can't read {path}: {error.strerror}") from error


def read_file(path, most):
    """The bytes of a file that has at most so many; `-` is standard input."""
    content = front_of(path, most + 1)
    if len(content) > most:
        raise Trouble(f"{path} has more than {most:,} bytes")
    return content


def shown_path(path):
    """The name of a file as it can be printed, whatever its bytes are."""
    return os.fsencode(path).decode("utf-8", "replace")


def ascii_text(content, path):
    """The text of a file's bytes."""
    try:
        return content.decode("ascii")
    except UnicodeDecodeError as error:
        line = content[:error.start].count(b"\n") + 1
        raise Trouble(f"line {line} of {path}: a byte outside ASCII") from error
