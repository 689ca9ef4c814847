"""Wrong bodies, as the tables in edits/ have them, and in the form of the toolchain.

A table is of one file of code, which its first line names, and is called as the file is: that of src/calls/job.rt
in zl_calls is edits/zl_calls/calls/job.edits. Each of its parts is of a function of the file, in their order there.
A part names the function and, where the contract is one clause without a name, says this in words. Then come the
wrong bodies: the name of each says what is wrong, its lines with - the old text, and those with + what stands there
instead.

    file: src/job.rt

    function: job::Job::below
    clause: a new job in this one, whose koid is given

    job_is_made_at_depth_17
    - if self.depth >= Job::MOST_DEPTH {
    + if self.depth > Job::MOST_DEPTH {

Behind a name stand the clauses that the body breaks, as `policy_is_set_relatively: ok`, or words for what has
no name. The old text stands once in its file: a part of a line, or several lines without comments. More lines
with - and + apply to what those before them made. A line `file: ..` below a name is of this body alone. Empty
lines mean nothing, nor do those that begin with #.

What changes a definition stands with the law that refuses it, or in a table edits/CRATE/specs/FILE.edits, which
names no function, but a file of definitions.

A clause that no wrong body can break stands above them with why, as `untried: table, the type has it`. One
without a name is called `its clause`. A part may have nothing else.

The toolchain reads a file for each, in which each text is one line:

    file: src/job.rt
    old: if self.depth >= Job::MOST_DEPTH {
    new: if self.depth > Job::MOST_DEPTH {
"""
import re
from fnmatch import fnmatch
from pathlib import Path

TOP = Path(__file__).resolve().parent.parent
PART = re.compile(r"(?P<key>function|file|clause|untried): (?P<value>.+)\n"
                  r"|(?P<old>(?:-(?: .*)?\n)+)(?P<new>(?:\+(?: .*)?\n)+)"
                  r"|(?P<name>[A-Za-z0-9_]+)(?:: (?P<clause>.+))?\n")
COMMENT = re.compile(r"//|(?<!\S)--(?!\S)")


class Unreadable(Exception):
    """What is wrong with a table or with one of its edits."""


class Untried:
    """A clause of a function that no wrong body can break, and why."""

    def __init__(self, path, function, value):
        self.path, self.function = path, function
        self.clause, _, self.why = value.partition(", ")

    def __str__(self):
        return f"{self.path.relative_to(TOP)}, {self.function}"


class Edit:
    """A wrong body of a crate: what it changes, and the clauses of a function that it has to break."""

    def __init__(self, crate, path, name, function="", file="", clause=""):
        self.crate, self.path, self.name = crate, path, name
        self.function, self.file, self.clause = function, file, clause
        self.is_of_head, self.pairs = True, []

    def __str__(self):
        return f"{self.crate}/{self.name}"

    def is_called(self, word):
        """Whether the word names it: its crate, or behind that and a / its own name or its function's, as Type.name."""
        pattern = word if "/" in word else word + "/*"
        parts = (self.function or self.path.stem).split("::")
        function = ".".join(parts[-1 - word.count("."):])
        return any(fnmatch(f"{self.crate}/{name}", pattern) for name in [self.name, function])

    def is_long(self):
        """Whether one of its texts has several lines, which the toolchain's form can't have."""
        return any("\n" in text for pair in self.pairs for text in pair)

    def changed(self, text):
        """The text of its file with the change."""
        was = text
        for old, new in self.pairs:
            if text.count(old) != 1:
                raise Unreadable(f"{self}: its old text is in {self.file} {text.count(old)} times: {flat(old)}")
            text = text.replace(old, new)
        if text == was:
            raise Unreadable(f"{self}: it changes nothing")
        return text


def table_of(crate, file):
    """The path of the table of a file of code, or of definitions."""
    return (TOP / "edits" / crate / file.removeprefix("src/")).with_suffix(".edits")


def can_stand(part, head, is_of_edit):
    """Whether the part can stand there, by what is above it: this head, and the lines of an edit or none."""
    if part["key"] == "function":
        return "file" in head
    if part["key"] == "file":
        return is_of_edit or "function" not in head
    if part["key"]:
        return "function" in head and not is_of_edit
    return is_of_edit or part["name"]


def in_table(path, crate="tests"):
    """The edits of a table of the crate, and the clauses that none can break."""
    head, edits, untried, is_of_edit, at = {}, [], [], False, 0
    where = str(path.relative_to(TOP))
    lines = [line for line in path.read_text(encoding="utf-8").split("\n") if line.strip() and not line.startswith("#")]
    text = "".join(f"{line}\n" for line in lines)
    while at < len(text):
        part = PART.match(text, at)
        if not part or not can_stand(part, head, is_of_edit):
            line, *_ = text[at:].split("\n")
            raise Unreadable(f"{where}: this can't stand here: {line}")
        if part["old"]:
            edits[-1].pairs.append((text_of(part["old"], where), text_of(part["new"], where)))
        elif part["key"] == "function":
            head, is_of_edit = {"file": head["file"], "function": part["value"]}, False
        elif part["key"] == "untried":
            untried.append(Untried(path, head["function"], part["value"]))
        elif part["key"] and is_of_edit:
            edits[-1].file = part["value"]
        elif part["key"]:
            head[part["key"]] = part["value"]
        else:
            edits.append(Edit(crate, path, part["name"], **head))
            edits[-1].clause = part["clause"] or edits[-1].clause
            edits[-1].is_of_head, is_of_edit = not part["clause"], True
        at = part.end()
    if "file" in head and path != table_of(crate, head["file"]):
        raise Unreadable(f"{where}: it isn't called as its file is, {head['file']}")
    return edits, untried


def text_of(lines, where):
    """The text that lines with a sign say."""
    lines = [line[2:] for line in lines.rstrip("\n").split("\n")]
    if any(COMMENT.search(line) for line in lines[:-1]):
        raise Unreadable(f"{where}: a text of several lines has a comment: {lines[0]}")
    return "\n".join(lines)


def in_file(path, crate):
    """The edit of a file in the toolchain's form."""
    lines = path.read_text(encoding="utf-8").split("\n")
    edit = Edit(crate, path, path.stem, file=next(line[6:] for line in lines if line.startswith("file: ")))
    old = [line[5:] for line in lines if line.startswith("old: ")]
    new = [line[5:] for line in lines if line.startswith("new:")]
    edit.pairs = list(zip(old, new))
    return edit


def tables_of(crate):
    """What each table of the crate has."""
    files = sorted(path for path in (TOP / "edits" / crate).rglob("*") if path.is_file())
    for file in files:
        if file.suffix != ".edits":
            raise Unreadable(f"{file.relative_to(TOP)} is no table")
    return [in_table(file, crate) for file in files]


def edits_of(crate):
    """The edits of the crate that stand outside of the gate."""
    return [edit for edits, _ in tables_of(crate) for edit in edits]


def untried_of(crate):
    """The clauses of the crate that no wrong body can break."""
    return [it for _, untried in tables_of(crate) for it in untried]


def edits_in_gate(crate):
    return [in_file(path, crate) for path in sorted((TOP / "crates" / crate / "must-fail").glob("*.edit"))]


def flat(text):
    """The text on one line."""
    return re.sub(r"\s*\n\s*", " ", text)


def write_file(edit, crate):
    """Writes the edit in the toolchain's form into a copy of its crate, where its old texts become one line."""
    path = crate / edit.file
    text = path.read_text(encoding="utf-8")
    lines = [f"file: {edit.file}"]
    for old, new in edit.pairs:
        text = text.replace(old, flat(old))
        lines += [f"old: {flat(old)}", f"new: {flat(new)}"]
    if edit.is_long():
        path.write_text(text, encoding="utf-8")
    folder = crate / "must-fail"
    folder.mkdir(exist_ok=True)
    (folder / f"{edit.name}.edit").write_text("".join(f"{line}\n" for line in lines), encoding="utf-8")
