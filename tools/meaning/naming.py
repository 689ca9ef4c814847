"""Names in scenarios and texts to their numbers. Lines keep their places, and what has no name is as it was.

A line has its text, and an origin: its place in the file, as it is told.
"""
import difflib
import re

from meaning.instructions import BY_NAME
from meaning.numbers import (
    ACTIONS, CONDITIONS, KINDS, KNOWN_RIGHTS, MODES, RIGHTS, SAME_RIGHTS, SIGNALS, STATUSES, USER_SIGNALS,
)
from meaning.scenario import is_skipped, words_of
from meaning.texts import number
from meaning.trouble import Trouble

# What Zircon's names of signals begin with, of some there are two.
OWNERS = {"READABLE": ("CHANNEL",), "WRITABLE": ("CHANNEL",), "PEER_CLOSED": ("CHANNEL", "EVENTPAIR"),
          "SIGNALED": ("EVENT", "EVENTPAIR"), "TERMINATED": ("TASK",), "NO_JOBS": ("JOB",), "NO_PROCESSES": ("JOB",)}
# Each family of names: its numbers, and the front of Zircon's names.
FAMILIES = {
    "right": (RIGHTS | {"KNOWN_RIGHTS": KNOWN_RIGHTS, "SAME_RIGHTS": SAME_RIGHTS}, "ZX_RIGHT_"),
    "signal": (SIGNALS | {"USER_SIGNALS": USER_SIGNALS}, "ZX_"),
    "kind": (KINDS, "ZX_OBJ_TYPE_"),
    "condition": (CONDITIONS, "ZX_POL_"),
    "action": (ACTIONS, "ZX_POL_ACTION_"),
    "mode": (MODES, "ZX_JOB_POL_"),
    "status": (STATUSES, "ZX_ERR_"),
}
IN_ZIRCON = {"USER_SIGNALS": "ZX_USER_SIGNAL_ALL", "OK": "ZX_OK"}
NUMBER = re.compile(r"[0-9]{1,20}|0x[0-9a-fA-F]{1,16}")
DEFINITION = re.compile(r"( *)(@\S+(?:, *@\S+)*) *= *(\S.*?)( *)")
LABEL = re.compile(r"@[a-z][a-z0-9_]*(?:\[[0-9]+\])?")
OBJECTS = {"job": 1, "event": 1, "eventpair": 2, "port": 1, "channel": 2, "process": 1}


def zircon_names(family, name):
    """Zircon's names of it; of a signal that objects of two kinds have, the one of either."""
    if name in IN_ZIRCON:
        return [IN_ZIRCON[name]]
    if name.startswith("USER_"):
        return ["ZX_USER_SIGNAL_" + name[5:]]
    front = FAMILIES[family][1]
    owners = [f"{owner}_" for owner in OWNERS[name]] if family == "signal" else [""]
    return [front + owner + name.upper() for owner in owners]


def all_names():
    """Each name, ours and Zircon's, to the families that have it, and its number there."""
    names = {}
    for family, (numbers, _) in FAMILIES.items():
        for name, given in numbers.items():
            for one in (name, *zircon_names(family, name)):
                names.setdefault(one, {})[family] = given
    return names


NAMES = all_names()
# A line of a policy has names of conditions and actions, which may be Zircon's.
IN_POLICIES = [{zircon_names(family, name)[0]: name for name in FAMILIES[family][0]} for family in ("condition", "action")]


class Names:
    """The names of a file: those that everybody has, and its own, which begin with @."""

    def __init__(self):
        self.own = {"@root": 1}
        # those of objects, by their koids, and which of its own are those of programs
        self.objects, self.programs = {}, set()
        self.line = None

    def fail(self, text):
        raise Trouble(f"line {self.line.origin}: {text}")

    def define(self, name, given):
        if not LABEL.fullmatch(name):
            self.fail(f"{name} is no name: @, a small letter, then small letters, digits or _, and perhaps an index as [2]")
        if name in self.own:
            self.fail(f"{name} is {self.own[name]} already")
        self.own[name] = given

    def own_number(self, word):
        """The number of a name of the file."""
        if word not in self.own:
            self.fail(f"nothing is called {word}" + meant(word, self.own))
        return str(self.own[word])

    def value(self, word, families=tuple(FAMILIES)):
        """The number of a word where a number may stand; a word without a name stays as it is."""
        if word.startswith("@"):
            return self.own_number(word)
        if word[:1].isdigit() and "|" not in word:
            return word
        parts = word.split("|")
        known = [self.families_of(part) for part in parts if not NUMBER.fullmatch(part)]
        fitting = set(families).intersection(*known)
        if not fitting:
            self.refuse(parts, families)
        if len(fitting) > 1:
            self.refuse_both(word, sorted(fitting))
        family = fitting.pop()
        bits = 0
        for part in parts:
            bits |= number(part) if NUMBER.fullmatch(part) else NAMES[part][family]
        return str(bits)

    def families_of(self, name):
        if name not in NAMES:
            self.fail(f"no right, signal, kind, condition or status is called {name or 'nothing'}{meant(name, NAMES)}")
        return NAMES[name]

    def refuse(self, parts, families):
        told = ", ".join(f"{part} is a {' or a '.join(NAMES[part])}" for part in parts if part in NAMES)
        wanted = f", and here stands a {' or a '.join(families)}" if len(families) < len(FAMILIES) else ""
        self.fail(told + wanted)

    def refuse_both(self, word, families):
        told = " and ".join(f"a {family} ({NAMES[word][family]})" for family in families if word in NAMES)
        better = " or ".join(zircon_names(family, word)[0] for family in families if word in NAMES)
        self.fail(f"{word} is {told}: write {better}")


def meant(name, names):
    near = difflib.get_close_matches(name, names, 1)
    return f"; did you mean {near[0]}?" if near else ""


def replaced(line, find):
    """The line with other words: `find` has for the words before a comment the new ones by their place."""
    text, mark, comment = line.partition(";")
    words = list(re.finditer(r"[^\s,]+", text))
    changes = find([word[0] for word in words])
    for place in sorted(changes, reverse=True):
        text = text[:words[place].start()] + changes[place] + text[words[place].end():]
    return text + mark + comment


def in_text(names, line):
    """A line of a text with its numbers."""
    def find(words):
        if not words or words[0].endswith(":") or words[0] == ".bytes":
            return {}
        if any(word.startswith("|") or word.endswith("|") for word in words):
            names.fail("no space stands beside |")
        row = BY_NAME.get(words[0])
        if words[0] in (".start", ".slots"):
            place, families = len(words) - 1, ("right",)
        elif row and row.has_number:
            place, families = 1 + len(row.fields), in_numbers(row.name)
        else:
            return {}
        if not 2 <= place < len(words):
            return {}
        return {place: names.value(words[place], families)}
    return replaced(line, find)


def in_numbers(name):
    """The families of which a number of the instruction may be."""
    if name in ("dup", "replace"):
        return ("right",)
    if name in ("jhas", "jnhas"):
        return ("right", "signal")
    return tuple(FAMILIES)


def in_statement(names, line):
    """A line of a scenario, outside of blocks, with its numbers."""
    definition = DEFINITION.fullmatch(line)
    if definition and NUMBER.fullmatch(definition[3]):
        return f"# {line}"
    if definition:
        line = definition[1] + definition[3] + definition[4]

    def find(words):
        return {place: in_word(names, word, words[0], place) for place, word in enumerate(words) if "@" in word or place}
    return replaced(line, find)


def in_word(names, word, statement, place):
    """A word of a statement with its number."""
    if statement == "process" and place > 3 and ":" in word:
        koid, rights = word.split(":", 1)
        koid = names.own_number(koid) if koid.startswith("@") else koid
        return f"{koid}:{rights if rights == '*' or not rights else names.value(rights, ('right',))}"
    if word.startswith("@"):
        return names.own_number(word)
    if statement == "process" and place == 3:
        return names.value(word)
    if statement == "policy" and place > 1:
        return IN_POLICIES[place == 3].get(word, word)
    return word


def parts_of(lines):
    """Each line with what it is: `statement`, `text` of a block, or `other`."""
    inside = None
    for line in lines:
        words = words_of(line.text)
        if is_skipped(line.text):
            yield line, "other"
        elif inside and words == ["end"]:
            inside = None
            yield line, "other"
        elif inside:
            yield line, "text" if inside == "asm" else "other"
        else:
            if "program" in words:
                inside = words[-1]
            yield line, "statement"


def defined(lines):
    """The names that the lines define."""
    names, koid, program = Names(), 2, 0
    for line, what in parts_of(lines):
        if what != "statement":
            continue
        names.line = line
        definition = DEFINITION.fullmatch(line.text)
        words = words_of(definition[3] if definition else line.text)
        given = re.findall(r"@[^\s,]+", definition[2]) if definition else []
        makes = OBJECTS.get(words[0], 0)
        if NUMBER.fullmatch(words[0]) and given:
            numbers = [number(words[0])]
        elif words[0] == "program":
            numbers, program = [program], program + 1
        else:
            numbers, koid = list(range(koid, koid + makes)), koid + makes
        if len(given) > len(numbers):
            names.fail(f"{given[len(numbers)]} has nothing to name")
        for name, value in zip(given, numbers):
            names.define(name, value)
            if words[0] == "program":
                names.programs.add(name)
            else:
                names.objects.setdefault(value, name)
    return names


def scenario_numbered(lines, names):
    """The lines of a scenario with numbers for names."""
    ways = {"statement": in_statement, "text": in_text, "other": lambda _, text: text}
    for line, what in parts_of(lines):
        names.line = line
        yield ways[what](names, line.text)


def text_numbered(lines, names):
    """The lines of a text with numbers for names."""
    for line in lines:
        names.line = line
        yield in_text(names, line.text)
