"""What the parts of a search have written, added up."""
import re
from collections import Counter

from meaning.telling import counted
from meaning.trouble import Trouble

from .deciding import BROKEN, HOLDS, UNDECIDED
from .report import INDENT, add_up, print_ends, read_ends
from .verdicts import IN_NONE, NOT_SEEN, NOT_TOLD, summary_of

# How the lines begin that say of a part that it hasn't tried all.
NOT_ALL = ("There are more than ", "Some orders end where ", "Interrupted: ", "Memory was refused to ")
HEAD = re.compile(r"[\d,]+ ends?(?: so far)? in (.*) \(")
PART = re.compile(r", part (\d+) of (\d+)\b")
BAD = "bad: "
ASSERTION = re.compile(rf"(.+:\d+(?: \([^)]*\))?): ({BROKEN}|{HOLDS}|{UNDECIDED}): (.+)")
SUMMARY = re.compile(rf"\d+ {BROKEN}, \d+ holds?, \d+ {UNDECIDED}; (?:part (\d+) of (\d+), )?(.*)")


class Parts:
    """The lines of all parts."""

    def __init__(self, lines):
        self.lines = [line.rstrip("\n") for line in lines]
        heads = [found[1] for found in map(HEAD.match, self.lines) if found]
        self.is_by_chance = any(" by chance" in head for head in heads)
        self.say_all = bool(heads) and not self.is_by_chance and not any(line.startswith(NOT_ALL) for line in self.lines)
        self.there = {(int(found[1]), int(found[2])) for found in map(PART.search, heads) if found}

    def missing(self):
        """The parts that aren't there, where some are."""
        return missing_of(self.there)

    def bad(self):
        """What parts have found that is bad, each with the lines below it."""
        found, is_below = [], False
        for line in self.lines:
            is_below = line.startswith(BAD) or (is_below and line.startswith(INDENT))
            if is_below:
                found.append(line)
        return found


class Assertions:
    """The assertions in the lines of all parts. Of each the line, the text and, where the same stands there twice, the
    how-manieth it is; and the first part that has found something about it."""

    def __init__(self, lines):
        self.found, self.here, self.there, self.parts = {}, Counter(), set(), 0
        self.not_seen, self.is_all, below = Counter(), True, None
        for line in lines:
            assertion, summary = ASSERTION.fullmatch(line), SUMMARY.fullmatch(line)
            if assertion:
                below = self.read(*assertion.groups())
            elif summary:
                self.close(*summary.groups())
                below = None
            elif below is not None and line.startswith(INDENT):
                below.append(line)
                self.not_seen[below[0]] += line.startswith(INDENT + NOT_SEEN)

    def read(self, at, verdict, text):
        """Takes a verdict; the lines of it, to which those below come."""
        key = at, text, self.here[at, text]
        self.here[at, text] += 1
        lines = [key, verdict]
        if key not in self.found or self.found[key][1] == UNDECIDED:
            self.found[key] = lines
        return lines

    def close(self, part, parts, tried):
        """The end of a part."""
        self.here.clear()
        self.parts += 1
        if part:
            self.there.add((int(part), int(parts)))
        self.is_all = self.is_all and (tried.startswith("all ") or tried.startswith("the only "))

    def decided(self):
        """What is known of each when all parts are added up: its line, and those below."""
        is_all = self.is_all and not missing_of(self.there)
        for (at, text, _), (key, verdict, *below) in zip(self.found, self.found.values()):
            if is_all and self.not_seen[key] == self.parts:
                raise Trouble(f"{at}: no order has {below[0].removeprefix(INDENT + NOT_SEEN)}")
            below = [line for line in below if not line.startswith(INDENT + NOT_SEEN)]
            is_told = not any(line.startswith(INDENT + NOT_TOLD) for line in below)
            if verdict == UNDECIDED and is_all and is_told:
                verdict = BROKEN if text.startswith("sometimes ") else HOLDS
                below = [INDENT + IN_NONE] if verdict == BROKEN else []
            yield verdict, [f"{at}: {verdict}: {text}", *below]

    def print(self):
        """Tells what is known; the status."""
        verdicts = list(self.decided())
        for _, lines in verdicts:
            print("\n".join(lines))
        counts = Counter(verdict for verdict, _ in verdicts)
        missing = missing_of(self.there)
        if missing:
            tried = f"not all orders: {missing_text(missing)}"
        else:
            all_orders = f"all orders by the model, in {counted(self.parts, 'part')}"
            tried = all_orders if self.is_all else "not all orders, as some of the parts say"
        print(f"{summary_of(counts)}; {tried}")
        return 1 if counts[BROKEN] else 5 if counts[UNDECIDED] else 0


def missing_of(there):
    """The parts that aren't there, of pairs of a part and how many there are."""
    most = max((parts for _, parts in there), default=0)
    return [part for part in range(1, most + 1) if (part, most) not in there]


def missing_text(missing):
    numbers = ", ".join(map(str, missing[:20]))
    return f"{counted(len(missing), 'part')} of the search {'is' if len(missing) == 1 else 'are'} missing, {numbers}"


def print_sum(outputs):
    """Adds up what the parts of a search have written; the status."""
    parts = Parts(outputs)
    if any(SUMMARY.fullmatch(line) for line in parts.lines):
        return Assertions(parts.lines).print()
    ends, bad = add_up(read_ends(parts.lines)), parts.bad()
    if not ends and not bad:
        raise Trouble("standard input has no ends of orders, as the parts of a search write them")
    goes_round = any(told.count is None for told in ends)
    orders = "orders, some of which go round" if goes_round else counted(sum(told.count for told in ends), "order")
    print(f"{counted(len(ends), 'end')} in {orders}")
    print_ends(ends)
    if bad:
        print("\n" + "\n".join(bad))
        return 1
    return print_rest(parts)


def print_rest(parts):
    """Says what wasn't tried; the status."""
    missing = parts.missing()
    if parts.is_by_chance:
        print("\nNot all orders were tried: they are some by chance.")
    elif not parts.say_all:
        print("\nNot all orders were tried, as some of the parts say.")
    elif missing:
        print(f"\nNot all orders were tried: {missing_text(missing)}.")
    return 0 if parts.say_all and not missing else 5
