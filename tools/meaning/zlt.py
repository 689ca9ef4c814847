"""Files with names, *.zlt: the scenario or the text that the lab takes in place of one."""
import re
from dataclasses import dataclass, replace

from meaning.expanding import expanded
from meaning.naming import Names, defined, parts_of, scenario_numbered, text_numbered
from meaning.resting import Rest
from meaning.scenario import BEGINS, MOST_BYTES, words_of
from meaning.trouble import Trouble

ENDING = ".zlt"
MARK = b"#zlt"


def is_named(path, content):
    """Whether a file has names: its ending says so, or of standard input its first line or first statement."""
    if str(path) != "-":
        return str(path).endswith(ENDING)
    first = next((line for line in content.split(b"\n", 1000)[:1000] if line.strip(b" ") and not line.startswith(b"#")), b"")
    return content.split(b"\n", 1)[0].split(b" ")[0] == MARK or first.lstrip(b" ").startswith(b"@")


@dataclass
class Numbered:
    """A file with numbers for its names: its lines, the table of the names of objects, what its author may have meant
    otherwise, the place of a line `rest` among the lines, and the names."""

    path: str
    lines: list
    table: list
    warnings: list
    rest: int | None
    names: Names

    def content(self, has_table=True):
        """The bytes for the lab."""
        text = "\n".join(line.text for line in self.lines)
        if has_table and self.table:
            text += ("" if text.endswith("\n") or not text else "\n") + "".join(f"{line}\n" for line in self.table)
        if len(text) > MOST_BYTES:
            raise Trouble(f"{self.path} comes to more than {MOST_BYTES:,} bytes")
        return text.encode("latin-1")

    @property
    def programs(self):
        """The names of programs by their numbers."""
        return {self.names.own[name]: name[1:] for name in sorted(self.names.programs, reverse=True)}

    def map(self):
        """For each line that is written its line in the file, and the rounds in which it stands."""
        # behind the last end of a line no line stands
        lines = self.lines if self.lines[-1].text else self.lines[:-1]
        return "".join(f"{at} {line.place} {line.told_rounds}".rstrip() + "\n" for at, line in enumerate(lines, 1))

    def told(self, text):
        """What the lab says of a line, with its place in the file."""
        def origin(found):
            at = int(found[1]) - 1
            return f"line {self.lines[at].origin if at < len(self.lines) else found[1]}"

        text = re.sub(r"\bline ([0-9]{1,7})\b(?! of )", origin, text)
        return re.sub(r"^zlab: line ", f"{self.path}:", text) if self.path != "-" else text

    def with_rest(self, turns):
        """The same with these turns in place of the line `rest`."""
        if self.rest is None:
            return self
        line = self.lines[self.rest]
        lines = self.lines[:self.rest] + [replace(line, text=turn) for turn in turns] + self.lines[self.rest + 1:]
        return replace(self, lines=lines, rest=None)


def is_text_of(lines):
    """Whether the lines are a program's text, and no scenario."""
    for line in lines:
        words = words_of(line)
        if words and not line.startswith("#") and words[0] not in ("let", "param"):
            return not (words[0] in (*BEGINS, "for", "rest") or words[0].startswith("@"))
    return False


def check_bytes(content):
    """Bytes that no line has."""
    for byte, name in ((b"\r", "a carriage return; lines end with a line feed alone"), (b"\0", "a NUL")):
        if byte in content:
            line = content[:content.index(byte)].count(b"\n") + 1
            raise Trouble(f"line {line}: there is {name}")


def numbered(path, content, given=()):
    """The file with numbers for its names, and `given` for its parameters."""
    check_bytes(content)
    lines = content.decode("latin-1").split("\n")
    is_text = is_text_of(lines)
    expander = expanded(lines, given, is_text)
    if expander.rest is not None and not any(line.text.strip(" ") == "--" for line in expander.lines[:expander.rest]):
        raise Trouble(f"line {expander.lines[expander.rest].origin}: rest stands below the line --")
    names = Names() if is_text else defined(expander.lines)
    texts = (text_numbered if is_text else scenario_numbered)(expander.lines, names)
    written = [replace(line, text=text) for line, text in zip(expander.lines, texts)]
    table = [f"#@ {koid} {name[1:]}" for koid, name in sorted(names.objects.items())]
    warnings = expander.warnings + list(handle_warnings(expander.lets, handles_of(written, is_text)))
    return Numbered(str(path), written, table, warnings, expander.rest, names)


def handle_warnings(lets, counts):
    """The names of registers that hold a handle at the start, and aren't said to be handles, by how many handles
    each program starts with."""
    for let in lets:
        programs = counts if let.program is None else [let.program]
        count = max((counts.get(program, 0) for program in programs), default=0)
        number = 1 if let.register == "r0" else int(let.register[1:])
        if let.register != "r1" and number <= count:
            yield (f"line {let.line.origin}: {let.register} has handle {number} at the start: "
                   f"let {let.name} = handle {number} says so")


def handles_of(lines, is_text):
    """How many handles the processes of each program start with, by its number; that of a text is -1."""
    counts, program = {}, -1
    if is_text:
        return {program: sum(words_of(line.text)[:1] == [".start"] for line in lines)}
    for line, what in parts_of(lines):
        words = words_of(line.text)
        if what == "statement" and words[0] == "program":
            program += 1
        elif what == "statement" and words[0] == "process" and words[2:] and words[2].isdigit():
            counts[int(words[2])] = max(counts.get(int(words[2]), 0), len(words) - 4)
        elif what == "text" and words[0] == ".start":
            counts[program] = counts.get(program, 0) + 1
    return counts


def taken(path, content, lab=None):
    """A file as the lab takes it, and the one with numbers, if it has names. Without a lab, for what needs no turns, rest
    has none."""
    if not is_named(path, content):
        return content, None
    file = numbered(path, content)
    if lab and file.rest is not None:
        file = file.with_rest(Rest(lab, file).turns())
    return file.content(), file


def names_in(text):
    """The names of objects by their numbers, as the lines of a table have them."""
    return {int(koid): name for koid, name in re.findall(r"^#@ ([0-9]{1,7}) ([a-z][a-z0-9_]*(?:\[[0-9]+\])?)$", text, re.M)}
