"""Assertions, the lines `#?` of a scenario: what has to hold in all orders, or in some.

    line   = "#?" ( "never" C | "sometimes" C | "always" S | "at end:" S )
    C      = one of ITEM, S, CAUSE; several behind commas are as many assertions
    ITEM   = WHO CALL ANSWER
    S      = FACT { "and" FACT }
    FACT   = WHO "ended" [ ["other than"] CODE { "|" CODE } ] | WHO "blocked" | WHO "stuck" | "stuck"
           | HOLDER "has" OBJECT [ "with" RIGHT { "|" RIGHT } ]
"""
import re
from pathlib import Path
from typing import NamedTuple

from meaning.cpu import signed
from meaning.naming import NAMES, OBJECTS, meant
from meaning.numbers import DEFAULT_RIGHTS, KINDS, KNOWN_RIGHTS, RIGHTS, STATUSES, USERS
from meaning.scenario import words_of
from meaning.trouble import Trouble
from meaning.zlt import names_in

MARK = "#?"
MODES = ("never", "sometimes", "always", "at end:")
CAUSES = ("deadlock", "blocked for good", "no end", "goes round")
STATES = ("ended", "blocked", "stuck", "has")
ANSWERS = {line.split(":")[0]: line.split(":")[1].split()
           for line in Path(__file__).with_name("answers.txt").read_text().splitlines() if not line.startswith("#")}
# An object whose kind isn't known is told so.
OBJECT = "object"
CODES = range(-2**31, 2**31)
MOST = 1000
# All processes, no process, and the messages in queues, where one is named who has a handle.
ANY, NOBODY, MESSAGE = "any", "nobody", "a message"


class Item(NamedTuple):
    """A call with one of these answers, or with any. `who` is a number or ANY, `call` a name or ANY."""
    who: object
    call: str
    answers: tuple

    def __str__(self):
        return f"{self.who} {self.call} {'|'.join(self.answers) or ANY}"


class Ended(NamedTuple):
    """A process has ended, with one of these codes, or with another one; with no codes it is any. `is_by_line` says whether a
    line makes the process."""
    who: object
    codes: tuple
    is_other: bool
    is_by_line: bool

    def __str__(self):
        codes = "|".join(map(str, self.codes))
        return f"{self.who} ended{' other than' * self.is_other}{' ' * bool(codes)}{codes}"


class In(NamedTuple):
    """A process is blocked or stuck."""
    who: object
    state: str

    def __str__(self):
        return f"{self.who} {self.state}"


class Has(NamedTuple):
    """Somebody has a handle of an object with all of these rights. `kind` is None where it isn't known, and `is_by_number`
    says whether the number alone tells the object: a line makes it, or it may be of any kind."""
    holder: object
    kind: str | None
    koid: int
    rights: int
    is_by_number: bool

    def __str__(self):
        names = "|".join(name for name, bit in RIGHTS.items() if self.rights & bit)
        return f"{self.holder} has {self.kind or OBJECT} {self.koid}{' with ' * bool(names)}{names}"


class Facts(NamedTuple):
    """Facts of one world."""
    facts: tuple

    def __str__(self):
        return " and ".join(map(str, self.facts))


class Cause(NamedTuple):
    """Why nobody goes on at an end."""
    name: str

    def __str__(self):
        return self.name


class Assertion(NamedTuple):
    """An assertion: the line where it stands, the how-manieth of that line it is, and what it says, with its text."""
    line: str
    place: int
    mode: str
    claim: object
    text: str

    @property
    def numbered(self):
        """Its text with numbers for names."""
        return f"{self.mode} {self.claim}"

    def named_objects(self):
        """The processes and objects of which it speaks: pairs of a kind, or None, and a number."""
        for part in self.claim.facts if isinstance(self.claim, Facts) else [self.claim]:
            who = getattr(part, "who", getattr(part, "holder", None))
            if isinstance(who, int):
                yield "process", who
            if isinstance(part, Has):
                yield part.kind, part.koid


class Known(NamedTuple):
    """What a scenario knows: the numbers of names of objects, the names of programs, and the kinds of the objects that
    its lines make, by their numbers."""
    names: dict
    programs: set
    kinds: dict


def a(kind):
    return f"{'an' if kind[0] == 'e' else 'a'} {kind}"


def has_assertions(content):
    """Whether some line of a file is an assertion."""
    return content.startswith(MARK.encode()) or b"\n" + MARK.encode() in content


def read_assertions(path, content, scenario, file):
    """The assertions of a file, whose scenario the lab doesn't refuse; `file` is the one with numbers, if it has names."""
    if not has_assertions(content):
        return []
    if file:
        lines = [(line.origin, line.text) for line in file.lines]
        programs = file.names.programs
        names = {name: koid for name, koid in file.names.own.items() if name not in programs}
    else:
        text = content.decode("ascii")
        lines = [(str(place), line) for place, line in enumerate(text.split("\n"), 1)]
        programs, names = set(), {"@root": 1, **{f"@{name}": koid for koid, name in names_in(text).items()}}
    try:
        return assertions_in(lines, Known(names, programs, kinds_of(scenario)))
    except Trouble as trouble:
        raise Trouble(f"{trouble}" if str(path) == "-" else f"{path}: {trouble}") from None


def kinds_of(scenario):
    """The kinds of the objects that the lines of a scenario make, by their numbers."""
    kinds = ["job"]
    for _, words in scenario.statements:
        kinds += [words[0]] * OBJECTS.get(words[0], 0)
    return dict(enumerate(kinds, 1))


def assertions_in(lines, known):
    """The assertions of lines, which are pairs of what is told of a line's place and its text."""
    found = []
    for line, text in lines:
        if text.startswith(MARK):
            found += Reader(line, text, known).assertions()
            if len(found) > MOST:
                raise Trouble(f"line {line}: there are more than {MOST:,} assertions")
    return found


class Reader:
    """The words of a line."""

    def __init__(self, line, text, known):
        self.line, self.known = line, known
        for letter, name in (("\r", "a carriage return; lines end with a line feed alone"), ("\0", "a NUL"),
                             ("\t", "a tab; spaces part words")):
            if letter in text:
                self.fail(f"there is {name}")
        self.text = text.removeprefix(MARK)

    def fail(self, text):
        raise Trouble(f"line {self.line}: {text}")

    def refuse(self, word, what, names):
        """The word isn't what is wanted, and may be meant for one of the names."""
        self.fail(f"{word or 'nothing'} {what}{meant(word, list(names))}")

    def assertions(self):
        words = words_of(self.text)
        if not words:
            self.fail(f"an assertion is wanted behind {MARK}: never, sometimes, always or at end:")
        mode = next((mode for mode in MODES if words[:len(mode.split())] == mode.split()), None)
        if mode is None:
            self.refuse(" ".join(words[:2]) if words[0] == "at" else words[0],
                        "begins no assertion, as never, sometimes, always and at end: do", MODES)
        rest = self.text.split(mode.split()[-1], 1)[1]
        if mode not in ("never", "sometimes"):
            if "," in rest:
                self.fail(f"commas part what is never or sometimes; {mode} takes facts with and between them")
            return [self.assertion(1, mode, words_of(rest))]
        return [self.assertion(place, mode, words_of(part)) for place, part in enumerate(rest.split(","), 1)]

    def assertion(self, place, mode, words):
        if not words:
            self.fail(f"something is wanted behind {mode}" if place == 1 else "something is wanted behind the comma")
        claim = self.claim(words) if mode in ("never", "sometimes") else self.facts(words)
        return Assertion(self.line, place, mode, claim, f"{mode} {' '.join(words)}")

    def claim(self, words):
        """What may be never, or sometimes."""
        text = " ".join(words)
        if text in CAUSES:
            return Cause(text)
        who, rest = self.front(words)
        if who is not None and rest and rest[0] not in STATES and "and" not in words:
            return self.item(who, rest)
        return self.facts(words)

    def front(self, words):
        """Who stands first, and the words behind; nobody if it is no process."""
        if words[0] == "process":
            return (self.process(words[1]), words[2:]) if words[1:] else (None, words)
        if words[0] == ANY:
            return ANY, words[1:]
        if words[0].startswith("@") or words[0].isdigit():
            return self.process(words[0]), words[1:]
        return None, words

    # ---- names and numbers

    def number(self, word):
        """The number of an object."""
        if word.startswith("@"):
            if word in self.known.programs:
                self.fail(f"{word} is a program, and here stands a process or another object")
            if word not in self.known.names:
                self.refuse(word, "isn't the name of an object", self.known.names)
            return self.known.names[word]
        if not re.fullmatch(r"[1-9][0-9]{0,18}", word):
            self.fail(f"{word} is no number of an object")
        return int(word)

    def process(self, word):
        """The number of a process."""
        koid = self.number(word)
        kind = self.known.kinds.get(koid, "process")
        if kind != "process":
            self.fail(f"{word} is {a(kind)}, and here stands a process")
        return koid

    # ---- answers

    def item(self, who, words):
        call = words[0]
        if call != ANY and call not in ANSWERS:
            self.refuse(call, "is no call, and none of ended, blocked, stuck and has", (*ANSWERS, *STATES))
        if len(words) == 1:
            self.fail(f"an answer is wanted behind {call}: a status, blocked or any")
        if len(words) > 2:
            self.fail(f"{words[2]} stands behind an answer; no space stands beside |, and and joins facts, which calls "
                      "aren't")
        if words[1] == ANY:
            return Item(who, call, ())
        return Item(who, call, tuple(self.answer(call, word) for word in words[1].split("|")))

    def answer(self, call, word):
        """An answer of the call."""
        name = "blocked" if word == "blocked" else self.status(word)
        known = [*dict.fromkeys(name for names in ANSWERS.values() for name in names)]
        answers = known if call == ANY else ANSWERS[call]
        if name is None:
            self.refuse(word, "is no status", answers or known)
        if not answers:
            self.fail(f"{call} isn't answered: {call} any")
        if name not in answers:
            whose = "any call" if call == ANY else call
            self.refuse(word, f"is no answer of {whose}, which answers {', '.join(answers)}", ())
        return name

    def status(self, word):
        """Our name of a status, which may be said by Zircon's."""
        number = NAMES.get(word, {}).get("status")
        return next((name for name, one in STATUSES.items() if one == number), None)

    # ---- facts

    def facts(self, words):
        """Facts with `and` between them."""
        parts = [[]]
        for word in words:
            if word == "and":
                parts.append([])
            else:
                parts[-1].append(word)
        if not all(parts):
            self.fail("a fact is wanted on both sides of and")
        return Facts(tuple(self.fact(part) for part in parts))

    def fact(self, words):
        if words == ["stuck"]:
            return In(ANY, "stuck")
        if words[:2] == ["a", "message"] or words[0] == NOBODY:
            holder, rest = (MESSAGE, words[2:]) if words[0] == "a" else (NOBODY, words[1:])
            if rest[:1] != ["has"]:
                self.fail(f"has is wanted behind {holder}")
            return self.has(holder, rest[1:])
        if " ".join(words) in CAUSES:
            self.fail(f"{' '.join(words)} is a cause of an end, which is never or sometimes, alone")
        who, rest = self.front(words)
        if who is None:
            self.refuse(" ".join(words), "is no cause of an end, and begins with nobody: @NAME, a number, any, nobody or "
                        "a message", (*CAUSES, "stuck", *self.known.names, ANY, NOBODY, MESSAGE))
        if not rest:
            self.fail(f"behind {words[-1]} ended, blocked, stuck or has is wanted")
        if rest[0] in ANSWERS:
            self.fail("a call and its answer are never or sometimes, alone; facts are ended, blocked, stuck and has")
        if rest[0] not in STATES:
            self.refuse(rest[0], "is none of ended, blocked, stuck and has", STATES)
        if rest[0] == "has":
            return self.has(who, rest[1:])
        return self.ended(who, rest[1:]) if rest[0] == "ended" else self.state(who, rest)

    def state(self, who, words):
        if len(words) > 1:
            self.fail(f"{words[1]} stands behind {words[0]}; several facts have and between them")
        return In(who, words[0])

    def ended(self, who, words):
        is_other = words[:2] == ["other", "than"]
        rest = words[2:] if is_other else words
        if len(rest) > 1 or is_other and not rest:
            self.fail("behind ended one word has the codes, with | between them and no space" if rest else
                      "a code is wanted")
        codes = tuple(self.code(word) for word in rest[0].split("|")) if rest else ()
        return Ended(who, codes, is_other, self.known.kinds.get(who) == "process")

    def code(self, word):
        """The code of an end, as traces have it."""
        if re.fullmatch(r"-?[0-9]{1,20}", word):
            if int(word) not in CODES:
                self.fail(f"{word} is no code: they go from {CODES[0]} to {CODES[-1]}")
            return int(word)
        if re.fullmatch(r"0x[0-9a-fA-F]{1,16}", word):
            if int(word, 16) > 0xFFFFFFFF:
                self.fail(f"{word} is no code: it has more than 32 bits")
            return signed(int(word, 16))
        if word in USERS:
            return signed(USERS[word])
        if self.status(word) is None:
            self.refuse(word, "is no code", (*STATUSES, *USERS))
        return STATUSES[self.status(word)]

    def has(self, holder, words):
        if words[:1] and words[0].startswith("@"):
            koid, rest = self.number(words[0]), words[1:]
            kind = self.known.kinds.get(koid)
        else:
            kind, koid, rest = self.object(words)
        rights = 0
        if rest:
            if rest[0] != "with" or len(rest) != 2:
                self.fail("behind the object stands with and rights, with | between them and no space; not "
                          f"{' '.join(rest)}")
            for word in rest[1].split("|"):
                rights |= self.right(word, kind)
        return Has(holder, kind, koid, rights, kind in (None, self.known.kinds.get(koid)))

    def object(self, words):
        """An object by its kind and its number."""
        if not words:
            self.fail("an object is wanted behind has: @NAME, or a kind and a number")
        if len(words) < 2 or words[0] not in (*KINDS, OBJECT):
            self.refuse(words[0], "is no object: @NAME, or a kind and a number", (*KINDS, *self.known.names))
        koid = self.number(words[1])
        known = self.known.kinds.get(koid)
        if words[0] not in (OBJECT, known or words[0]):
            self.fail(f"{words[1]} is {a(known)}, not {a(words[0])}")
        return known if words[0] == OBJECT else words[0], koid, words[2:]

    def right(self, word, kind):
        """The bit of a right, which the kind has."""
        bit = NAMES.get(word, {}).get("right")
        if bit is None or bit & ~KNOWN_RIGHTS or bit == KNOWN_RIGHTS:
            self.refuse(word, "is no right", RIGHTS)
        if kind and not DEFAULT_RIGHTS[kind] & bit:
            names = ", ".join(name for name, one in RIGHTS.items() if DEFAULT_RIGHTS[kind] & one)
            self.fail(f"no {kind} has the right {word}; it may have {names}")
        return bit
