"""Cases: an input, and what stands beside it; for tests/try-cases, which says what these are, and tests/try-memory."""
import re

from meaning.lab import Lab
from meaning.texts import assembled
from meaning.zlt import taken

STATUSES = {"refused": 1, "mistakes": 1, "wrong_words": 2, "failing_files": 3, "no_memory": 4,
            "status_1": 1, "status_2": 2, "status_3": 3}
BESIDE = [".args", ".stdout", ".stderr", ".scenario", ".last", ".end", ".refused"]


def cases_in(folders):
    """The inputs in the folders and below them, by names that no two of them share."""
    cases = {}
    for folder in folders:
        for path in sorted(folder.rglob("*")):
            if path.is_file() and path.suffix not in BESIDE and path.name != "README.md":
                name = f"{path.parent.name}-{path.name}"
                if name in cases:
                    raise SystemExit(f"cases: {path} and {cases[name]} have one name")
                cases[name] = path
    return cases


def beside(path, ending):
    return path.with_name(path.name + ending)


def content(path, program=None):
    """The bytes of an input, with numbers for its names; of a text that is to be checked, those of its image. What
    stands for a line `rest` is asked of the program."""
    words, given = beside(path, ".args"), path.read_bytes()
    if path.suffix in (".times", ".hex"):
        given = re.sub(rb"<(\d+) TIMES ([^>]*)>", lambda found: int(found[1]) * found[2], given)
    if path.suffix == ".hex":
        return bytes.fromhex(re.sub("#.*", "", given.decode()))
    if path.suffix == ".zlt":
        given, _ = taken(path, given, program and Lab(program))
    if path.suffix in (".zasm", ".zlt") and words.exists() and words.read_text().startswith("check\n"):
        return assembled(given.decode())
    return given


def words_of(path):
    """The words of the command line; `{}` among them stands for the input."""
    words = beside(path, ".args")
    return words.read_text().splitlines() if words.exists() else []


def status_of(path):
    """The status with which the program has to end."""
    return STATUSES.get(path.parent.name, 0)
