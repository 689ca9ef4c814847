"""Traces: their items, what is said of processes, and the end."""
import re
from typing import NamedTuple

from meaning.instructions import BY_NAME
from meaning.numbers import STATUSES
from meaning.scenario import words_of
from meaning.trouble import Trouble

MOST_BYTES = 134217728
MOST_ITEMS = 1000000
NUMBER = r"(?:0|[1-9][0-9]{0,19})"
RUN = re.compile(rf"({NUMBER}) +run +([1-9][0-9]{{0,9}})")
STUCK = re.compile(rf"({NUMBER}) +stuck")
MOST_PID = 2**64 - 1
MOST_COUNT = 2**32 - 1
CODES = range(-2**31, 2**31)
STATE = re.compile(r"process ([0-9]{1,20}) (.*)")
CALL = re.compile(rf"({NUMBER}) +([a-z_]+) +([A-Z_]+|blocked|ended +(?:0|-?[1-9][0-9]*))")


class Item(NamedTuple):
    """One item: what a process did. `outcome` is the name of a status, `blocked`, or `ended CODE`."""

    line: int
    pid: int
    name: str
    count: int = 0
    outcome: str = ""

    @property
    def text(self):
        return " ".join(str(part) for part in (self.pid, self.name, self.count, self.outcome) if part)


class Trace(NamedTuple):
    """A trace: its items, and the lines behind them with their numbers."""

    items: list
    rest: list

    @property
    def states(self):
        """The state of each process in a line behind the items, by its number."""
        found = (STATE.fullmatch(line) for _, line in self.rest)
        return {int(one[1]): one[2] for one in found if one}

    @property
    def texts(self):
        """The lines of the items, as the lab writes them."""
        return [item.text for item in self.items]

    @property
    def last(self):
        """The lines behind the items."""
        return [line for _, line in self.rest]

    @property
    def end(self):
        """How it ended, by its last line: `schedule`, `quiet`, `limit` or `memory`."""
        return self.last[-1].removeprefix("end ")

    @property
    def lines(self):
        """All lines."""
        return [*self.texts, *self.last]


def is_end(outcome):
    """Whether it is the end of a process, with a code of 32 bits."""
    return outcome.startswith("ended ") and int(outcome.split()[1]) in CODES


def item_in(line, place):
    """The item of a line."""
    text = line.strip(" ")
    if (found := RUN.fullmatch(text)) and int(found[1]) <= MOST_PID and int(found[2]) <= MOST_COUNT:
        return Item(place, int(found[1]), "run", int(found[2]))
    if (found := STUCK.fullmatch(text)) and int(found[1]) <= MOST_PID:
        return Item(place, int(found[1]), "stuck")
    found = CALL.fullmatch(text)
    if found and int(found[1]) <= MOST_PID and found[2] in BY_NAME and BY_NAME[found[2]].is_call:
        outcome = " ".join(found[3].split())
        if outcome == "blocked" or outcome in STATUSES or is_end(outcome):
            return Item(place, int(found[1]), found[2], outcome=outcome)
    shown = text if len(text) <= 60 else text[:60] + " .."
    raise Trouble(f"line {place} of the trace isn't an item's: {shown!r}")


def read_trace(text):
    """The trace of a text; Trouble where a line is none of one."""
    items, rest = [], []
    for place, line in enumerate(text.split("\n"), 1):
        words = words_of(line)
        if not words or line.startswith("#"):
            continue
        if rest or words[0] in ("process", "end"):
            rest.append((place, " ".join(words)))
        else:
            items.append(item_in(line, place))
            if len(items) > MOST_ITEMS:
                raise Trouble(f"line {place} of the trace is behind {MOST_ITEMS:,} items, the most that there are")
    return Trace(items, rest)
