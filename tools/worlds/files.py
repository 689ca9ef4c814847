"""The files that a search writes: schedules, and scenarios without theirs. What is there already stays."""
import os
import re
import shlex
import stat
from pathlib import Path

from meaning.scenario import MOST_BYTES, schedule_text
from meaning.trouble import Trouble

SCHEDULE = re.compile(rb"(?: *[0-9]+ +[0-9]+ *| *|#[^\n]*)")
BESIDE = ".zls"


def is_same(path, other):
    """Whether both are one file."""
    try:
        return os.path.samefile(path, other)
    except OSError:
        return Path(path).resolve() == Path(other).resolve()


def is_schedule(content):
    """Whether a file's bytes are nothing, or lines of turns."""
    lines = content.split(b"\n")
    has_turns = any(line.strip() and not line.startswith(b"#") for line in lines)
    return not content.strip() or (has_turns and all(SCHEDULE.fullmatch(line) for line in lines))


def content_of(path):
    """The bytes of a file, none where it isn't one to be read, as a device or a pipe."""
    try:
        if not stat.S_ISREG(os.stat(path).st_mode):
            return b""
        with open(path, "rb") as file:
            return file.read(MOST_BYTES + 1)
    except FileNotFoundError:
        return b""
    except OSError as fault:
        raise Trouble(f"can't read {path}: {fault.strerror}") from None


class Files:
    """Where schedules go, and beside each the scenario for it, if `text` has one, as `zlab step` wouldn't take that of the
    search."""

    def __init__(self, scenario, text, turns=None, is_forced=False):
        # 0 is standard input, which may be a file too
        self.scenario = 0 if scenario == "-" else scenario
        self.text, self.given, self.is_forced = text, turns, is_forced
        if turns is not None:
            self.check(Path(turns))

    def check(self, turns):
        """Refuses a file that was named, where something else than a schedule would be lost."""
        if turns.is_dir() or not turns.parent.is_dir():
            raise Trouble(f"can't write {turns}: {'it is a folder' if turns.is_dir() else 'its folder is not there'}")
        if self.is_scenario(turns):
            raise Trouble(f"--turns {turns} is the scenario itself: name another file")
        if self.text is not None and turns == turns.with_suffix(BESIDE):
            raise Trouble(f"--turns {turns}: there goes the scenario without its schedule; name another file")
        content = content_of(turns)
        if not self.is_forced and (len(content) > MOST_BYTES or not is_schedule(content)):
            raise Trouble(f"--turns {turns} isn't a schedule, and would be lost: name another file, or --force")

    def is_scenario(self, path):
        return path.exists() and is_same(path, self.scenario)

    def may_write(self, path, content):
        """Whether the file may get the content: it isn't there, or nothing would be lost, or it is to be so."""
        if self.is_scenario(path):
            return False
        if self.is_forced or (self.given is not None and path == Path(self.given)):
            return True
        return not os.path.lexists(path) or content_of(path) == content

    def put(self, path, content):
        """Writes the file if it may: whether it has the content now."""
        if not self.may_write(path, content):
            return False
        try:
            path.write_bytes(content)
        except OSError as fault:
            raise Trouble(f"can't write {path}: {fault.strerror}") from None
        return True

    def write(self, default, turns, comment, text=None):
        """Writes a schedule, and the scenario beside it, or another text of it: the lines that say so."""
        text = self.text if text is None else text
        path = Path(self.given if self.given is not None else default)
        content = (comment + schedule_text(turns)).encode()
        wanted = [(path, content)]
        beside = self.scenario if text is None else path.with_suffix(BESIDE)
        if text is not None:
            wanted.append((beside, text))
        stays = [file for file, content in wanted if not self.put(file, content)]
        lines = [f"{file} is there already and stays: --force writes over it" if not self.is_scenario(file)
                 else f"{file} is the scenario itself and stays: --turns FILE names another file" for file in stays]
        if path not in stays:
            command = shlex.join(["zlab", "step", str(beside), str(path)])
            lines.insert(0, f"written to {path}" + (f": {command}" if not stays else ""))
        return lines
