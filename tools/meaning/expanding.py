"""Parameters, loops and `let` lines of a file with names: its lines without them.

A line keeps its place until a loop parts lines; each line that is written knows its line in the file, and the
rounds of the loops in which it stands.
"""
import re
from dataclasses import dataclass, field

from meaning.instructions import BY_NAME
from meaning.naming import NAMES, NUMBER, meant, replaced
from meaning.scenario import BEGINS, MOST_BYTES, is_skipped, words_of
from meaning.texts import REGISTER, bare
from meaning.trouble import Trouble

MOST_LINES = 100_000
MOST_DEPTH = 16
MOST_LETTERS = 32
NAME = re.compile(r"[A-Za-z][A-Za-z0-9_]*")
LET = re.compile(r"let +(\S+) *= *(.*)")
PARAM = re.compile(r"param +(\S+) *= *(\S+)")
FOR = re.compile(r"for +(\S+) +in +([^\s.]+) *\.\. *([^\s.]+)")
REPEAT = re.compile(r"repeat +(\S+)")
# Assertions are lines that are skipped, and have names.
ASSERTION = "#?"
INDEX = re.compile(r"@([a-z][a-z0-9_]*)\[([^\]\s]*)\]")
TAKEN = {*BEGINS, "raw", "checked", "asm", "hex", "end", "let", "param", "for", "repeat", "done", "rest", "handle", "any"}


@dataclass
class Line:
    """A line as it is written, and where it comes from."""

    text: str
    place: int
    rounds: tuple = ()

    @property
    def told_rounds(self):
        return ", ".join(f"{name} = {value}" for name, value in self.rounds)

    @property
    def origin(self):
        return f"{self.place}" + (f" ({self.told_rounds})" if self.rounds else "")


@dataclass
class Loop:
    """A loop, or the whole file: its lines, as pairs of a place and a text, and the loops among them."""

    place: int
    text: str
    is_inside: bool
    body: list = field(default_factory=list)


@dataclass
class Let:
    """A register that got a name, in the program of this number, or above the blocks."""

    line: Line
    name: str
    register: str
    program: int | None


def fail(origin, text):
    raise Trouble(f"line {origin}: {text}")


def tree_of(lines, is_text):
    """The lines, with those of each loop in it."""
    stack = [Loop(0, "", is_text)]
    block = "asm" if is_text else ""
    for place, text in enumerate(lines, 1):
        words = words_of(bare(text)) if block == "asm" else words_of(text)
        if is_skipped(text) or not words or (block == "hex" and words != ["end"]):
            words = [""]
        if words[0] in ("for", "repeat"):
            stack.append(opened(place, words, text, block, stack))
        elif words == ["done"]:
            if len(stack) == 1 or stack[-1].is_inside != bool(block):
                fail(place, "done ends no loop here")
            stack.pop()
        else:
            block = block_behind(place, words, block, is_text, stack)
            stack[-1].body.append((place, text))
    if len(stack) > 1:
        fail(stack[-1].place, "this loop has no line done")
    return stack[0]


def opened(place, words, text, block, stack):
    """A loop that begins here."""
    if (words[0] == "repeat") != bool(block):
        fail(place, "in a block lines are repeated by repeat N" if block else "outside of blocks it is for i in 1..N")
    if len(stack) > MOST_DEPTH:
        fail(place, f"more than {MOST_DEPTH} loops stand in each other")
    loop = Loop(place, bare(text) if block else text.strip(" "), bool(block))
    stack[-1].body.append(loop)
    return loop


def block_behind(place, words, block, is_text, stack):
    """The kind of the block in which the next line stands."""
    is_in_loop = len(stack) > 1 and stack[-1].is_inside == bool(block)
    if not block and "program" in words:
        return words[-1]
    if block and not is_text and words == ["end"]:
        if is_in_loop:
            fail(stack[-1].place, "this loop has no line done in its block")
        return ""
    if words == ["--"] and not block and is_in_loop:
        fail(place, "-- stands in a loop")
    return block


class Expander:
    """Goes through the lines, and writes them."""

    def __init__(self, given, is_text):
        self.given = dict(given)
        self.is_text = is_text
        self.block = "asm" if is_text else ""
        # names to what they stand for, and the line of that, in each scope
        self.scopes = [{}]
        self.rounds = ()
        self.loops = []
        self.labels = {}
        self.suffix = ""
        self.programs = 0
        self.lines, self.lets, self.warnings = [], [], []
        self.bytes = self.steps = 0
        self.rest = None
        self.place = 0

    def fail(self, text):
        fail(Line("", self.place, self.rounds).origin, text)

    # ---- names

    def visible(self, name):
        return next((scope[name][0] for scope in reversed(self.scopes) if name in scope), None)

    def define(self, name, text):
        if not NAME.fullmatch(name):
            self.fail(f"{name} is no name: letters, digits and _, a letter first")
        if name in NAMES or name in TAKEN or name in BY_NAME or REGISTER.fullmatch(name):
            self.fail(f"{name} has a meaning already: {what(name)}")
        for scope in self.scopes:
            if name in scope:
                self.fail(f"{name} is {scope[name][0]} already, by line {scope[name][1]}")
        self.scopes[-1][name] = text, self.place

    def number(self, word):
        """The number that a word says, or stands for."""
        text = self.visible(word) or word
        if not NUMBER.fullmatch(text):
            known = {name for scope in self.scopes for name in scope}
            self.fail(f"{word} is no number" + meant(word, known))
        return int(text, 0) if text.startswith("0x") else int(text)

    def indexed(self, found):
        """A name with its index worked out."""
        parts = re.fullmatch(r"([A-Za-z0-9_]+)(?:([+-])([0-9]{1,6}))?", found[2])
        if not parts:
            self.fail(f"{found[2] or 'nothing'} is no index: a number, a name, or one with + or - a number behind it")
        number = self.number(parts[1]) + int((parts[2] or "") + (parts[3] or "0"))
        if number < 0:
            self.fail(f"the index {found[2]} is {number}")
        return f"@{found[1]}[{number}]"

    def indexed_if_known(self, found):
        """The same in a line that is skipped, of which nothing is refused."""
        try:
            return self.indexed(found)
        except Trouble:
            return found[0]

    def meaning(self, word, is_statement):
        """What the parts of a word stand for."""
        parts = [self.visible(part) or part for part in word.split("|")]
        if is_statement and any(REGISTER.fullmatch(text) and text != part for text, part in zip(parts, word.split("|"))):
            self.fail(f"{word} is a register, and here stands a number")
        return "|".join(parts)

    # ---- lines

    def write(self, text):
        self.lines.append(Line(text, self.place, self.rounds))
        self.bytes += len(text) + 1
        if self.bytes > MOST_BYTES:
            self.fail(f"this comes to more than {MOST_BYTES:,} bytes")
        if self.loops:
            self.step()

    def step(self):
        """A line of a loop, or a round of one without lines."""
        self.steps += 1
        if self.steps > MOST_LINES:
            fail(self.loops[0], f"this loop comes to more than {MOST_LINES:,} lines")

    def walk(self, body):
        for one in body:
            if isinstance(one, Loop):
                self.repeat(one)
            else:
                self.place, text = one
                self.line(text)

    def line(self, text):
        words = words_of(bare(text)) if self.block == "asm" else words_of(text)
        if text.startswith(ASSERTION):
            text = INDEX.sub(self.indexed_if_known, text)
        if self.rest is not None and words and not is_skipped(text):
            self.fail("behind rest no turns stand")
        if is_skipped(text) or not words or self.block == "hex" and words != ["end"]:
            self.write(text)
        elif words[0] == "let":
            self.let(text)
        elif self.block:
            self.text(text, words)
        elif words[0] == "param":
            self.param(text)
        elif words == ["rest"]:
            self.rest = len(self.lines)
            self.write("# rest")
        else:
            self.statement(text, words)

    def param(self, text):
        found = PARAM.fullmatch(text.strip(" "))
        if not found:
            self.fail("a parameter is written param NAME = NUMBER")
        given = self.given.pop(found[1], None)
        self.define(found[1], str(self.number(found[2]) if given is None else given))
        self.write(f"# {text}")

    def let(self, text):
        found = LET.fullmatch(bare(text))
        if not found:
            self.fail("a name is given as let NAME = r5, let NAME = 41 or let NAME = handle 2")
        handle = re.fullmatch(r"handle +([0-9]{1,3})", found[2])
        if handle and not 1 <= int(handle[1]) <= 7:
            self.fail("a process starts with handles 1 to 7")
        value = f"r{0 if handle[1] == '1' else handle[1]}" if handle else self.meaning(found[2], False)
        self.check_value(value)
        if REGISTER.fullmatch(value):
            self.warn_of(value)
            if not handle:
                program = self.programs - 1 if self.block else None
                self.lets.append(Let(Line(text, self.place, self.rounds), found[1], value, program))
        self.define(found[1], value)
        self.write(f"{'; ' if self.block else '# '}{text}")

    def check_value(self, value):
        """A name stands for a register, or for numbers with names or without."""
        parts = value.split("|")
        if not REGISTER.fullmatch(value) and any(not NUMBER.fullmatch(one) and one not in NAMES and not one.startswith("@")
                                                 for one in parts):
            self.fail(f"{value or 'nothing'} is neither a register nor a number" + meant(value, NAMES))

    def warn_of(self, register):
        for scope in self.scopes:
            for name, (text, place) in scope.items():
                if text == register:
                    self.warnings.append(f"line {self.place}: {register} has the name {name} already, by line {place}")

    def statement(self, text, words):
        text = INDEX.sub(self.indexed, text)
        if "program" in words:
            self.block = words[-1]
            self.programs += 1
            self.scopes.append({})
            self.write(text)
            return

        def find(words):
            return {place: ":".join(self.meaning(part, True) for part in word.split(":"))
                    for place, word in enumerate(words) if place and not word.startswith("@") or ":" in word}
        self.write(replaced(text, find))

    def text(self, text, words):
        """A line of a block, or of a text."""
        if words == ["end"] and not self.is_text:
            self.block = ""
            self.scopes.pop()
            self.write(text)
        elif words[0] in ("param", "rest"):
            self.fail(f"{words[0]} stands outside of blocks")
        elif words[0].startswith("@"):
            self.fail("objects get names outside of blocks; let NAME = r5 names a register")
        elif words[0].endswith(":"):
            self.label(text, words[0][:-1])
        else:
            row = BY_NAME.get(words[0])

            def find(words):
                target = len(words) - 1 if row and row.is_jump else None
                return {place: self.labels.get(word, word) if place == target else self.meaning(word, False)
                        for place, word in enumerate(words) if place and words[0] != ".bytes"}
            self.write(self.said(replaced(INDEX.sub(self.indexed, text), find)))

    def said(self, text):
        """Behind ;! a name of a register stands as NAME=r5, which says by what name it is told."""
        code, mark, said = text.partition(";!")

        def named(found):
            register = self.visible(found[0]) or ""
            return f"{found[0]}={register}" if REGISTER.fullmatch(register) else found[0]
        return code + mark + NAME.sub(named, said)

    def label(self, text, name):
        if self.visible(name):
            self.fail(f"the label {name} is {self.visible(name)} already, by a line let, param or for")
        new = self.labels.get(name, name)
        if new != name and len(new) > MOST_LETTERS:
            self.fail(f"the label {new} has more than {MOST_LETTERS} letters")
        self.write(text.replace(f"{name}:", f"{new}:", 1))

    # ---- loops

    def repeat(self, loop):
        self.place = loop.place
        form = (REPEAT if loop.is_inside else FOR).fullmatch(loop.text)
        if not form:
            self.fail("lines are repeated by repeat N" if loop.is_inside else "a loop is written for i in 1..N")
        first, last = (1, self.number(form[1])) if loop.is_inside else (self.number(form[2]), self.number(form[3]))
        kept = self.rounds, self.labels, self.suffix
        self.loops.append(loop.place)
        for number in range(first, last + 1):
            steps = self.steps
            self.scopes.append({})
            self.place = loop.place
            if loop.is_inside:
                self.rounds = (*kept[0], ("round", number))
                self.suffix = f"{kept[2]}_{number}"
                self.labels = kept[1] | {name: name + self.suffix for name in labels_in(loop.body)}
            else:
                self.rounds = kept[0]
                self.define(form[1], str(number))
                self.rounds = (*kept[0], (form[1], number))
            self.walk(loop.body)
            self.scopes.pop()
            self.rounds, self.labels, self.suffix = kept
            if self.steps == steps:
                self.step()
        self.loops.pop()


def labels_in(body):
    """The labels among the lines of a loop."""
    texts = [bare(one[1]) for one in body if not isinstance(one, Loop) and not is_skipped(one[1])]
    return [text[:-1] for text in texts if text.endswith(":")]


def what(name):
    """What a name means that has a meaning for all."""
    if name in NAMES:
        return "a " + " and a ".join(NAMES[name])
    return "a register" if REGISTER.fullmatch(name) else "an instruction" if name in BY_NAME else "a word of scenarios"


def expanded(lines, given, is_text):
    """The expander that has written all lines."""
    tree = tree_of(lines, is_text)
    expander = Expander(given, is_text)
    expander.walk(tree.body)
    if expander.given:
        name = next(iter(expander.given))
        raise Trouble(f"no line param has the name {name}")
    return expander
