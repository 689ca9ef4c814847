"""The functions of a crate as the checker names them, each with the clauses that its contract promises.

The files have the layout of `rt fmt`, so that indents say what stands in what.
"""
import re
from pathlib import Path

FUNCTION = re.compile(r"( *)(pub(?:\([^)]*\))? )?(?:(?:const|final) )*fn (\w+)")
OWNER = re.compile(r"(?:pub )?(?:impl|trait)(?:<[^>]*>)? (?:([\w:]+)(?:<([\w:]+).*?>+)? for )?(\w+(?:::\w+)*)")
TYPE = re.compile(r"^(?:pub(?:\([^)]*\))? )?(?:struct|enum|trait) (\w+)", re.MULTILINE)
CLAUSE = re.compile(r" *ensures (?:(\w+) )?\{(.*)")


class Function:
    """A function of a file: the lines of its head, its contract and its body, counted from 0."""

    def __init__(self, file, lines, first):
        indent, is_open, self.own = FUNCTION.match(lines[first]).groups()
        self.file, self.first = file, first
        self.is_public = is_open == "pub "
        self.body = next((at for at in range(first, len(lines)) if opens(lines, first, at, indent)), None)
        end = len(lines) if self.body is None else self.body
        self.last = next((at for at in range(end, len(lines)) if closes(lines, at, end, indent)), end)
        self.clauses = list(clauses_in(lines[first:end]))
        self.does_nothing = self.body is not None and lines[self.body].endswith("{}")

    def has(self, line):
        """Whether the line of this number stands in its body."""
        return self.body is not None and self.body < line <= self.last


def opens(lines, first, at, indent):
    """Whether the line at this number opens the body of the function whose head begins at the first one."""
    line = lines[at]
    is_first = at == first or line.startswith(indent) and line[len(indent):len(indent) + 1] in ["{", ")"]
    return is_first and line.endswith(("{", "{}"))


def closes(lines, at, body, indent):
    return lines[at] == indent + "}" or at == body and lines[at].endswith("{}")


def clauses_in(lines):
    """The name of each clause, if it has one, and its statement."""
    for number, line in enumerate(lines):
        found = CLAUSE.match(line)
        if found:
            text, at = found[2], number
            while text.count("{") + 1 > text.count("}") and at + 1 < len(lines):
                at += 1
                text += " " + lines[at].strip()
            yield found[1], text.strip().removesuffix("}").strip()


def module_of(crate, file):
    """The module of the crate that the file is."""
    names = list(Path(file).with_suffix("").parts[1:])
    return "::".join([crate.name, *(names[:-1] if names[-1] in ["lib", "main"] else names)])


def functions_of(crate):
    """The functions of the crate by their names. A method stands in the module of its type, but for one of a trait."""
    files = {str(path.relative_to(crate)): path.read_text(encoding="utf-8") for path in crate.glob("src/**/*.rt")}
    homes = {name: module_of(crate, file) for file, text in files.items() for name in TYPE.findall(text)}
    found = {}
    for file, text in sorted(files.items()):
        here, lines, owner = module_of(crate, file), text.splitlines(), None
        own = {name: here for name in TYPE.findall(text)}
        for number, line in enumerate(lines):
            if line[:1] not in ["", " "]:
                owner = OWNER.match(line) if line.endswith("{") else None
            if FUNCTION.match(line):
                function = Function(file, lines, number)
                home = here if owner is None or owner[1] else {**homes, **own}.get(last(owner[3]), here)
                found["::".join([home, *([named(owner)] if owner else []), function.own])] = function
    return found


def last(path):
    return path.split("::")[-1]


def named(owner):
    """What the checker calls an `impl` or a `trait`: WordFaultFromClapError for `From<clap::Error> for WordFault`."""
    of, given, name = owner.groups()
    words = [word[:1].upper() + word[1:] for word in (given or "").split("::")]
    return last(name) + (last(of) + "".join(words) if of else "")
