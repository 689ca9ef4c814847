"""How ends of orders are told, and what several parts of a search have told, added up."""
import re
from typing import NamedTuple

from meaning.codes import told_ends
from meaning.telling import counted

from .orders import End

INDENT = "    "
# What is said of an end where a search was interrupted.
CONFIRMED, NOT_YET = "confirmed by the lab", "not yet confirmed by the lab"


class Told(NamedTuple):
    """An end, how many orders came to it (None where some go round, so that there is no number), a schedule, and
    perhaps whether the lab has come to it."""
    end: End
    count: int | None
    turns: str
    more: str = ""


def turns_text(turns, telling=None):
    who = telling.who if telling else str
    return " / ".join(f"{who(pid)} {count}" for pid, count in turns) or "no turns"


def room_text(items, limit):
    """What is told of a schedule for which the trace has no room."""
    return f"{items:,} items: a line `limit {items}` lets the trace have them" if items > limit else ""


def print_ends(ends):
    """Prints the ends, those to which the most orders came first."""
    total = sum(told.count or 0 for told in ends)
    for told in sorted(ends, key=lambda told: -(told.count or 0)):
        often = "some orders" if told.count is None else f"{told.count:,} of {counted(total, 'order')}"
        print(f"\n{often}: {told.end.name or 'no processes'}")
        for line in [*told.end.reasons, told.turns, told.more]:
            if line:
                print(INDENT + line)


def read_ends(lines):
    """The ends in lines that were printed so."""
    head, below = None, []
    for line in [*lines, ""]:
        if head and line.startswith(INDENT):
            below += [line.strip()] if line.strip() not in (CONFIRMED, NOT_YET) else []
            continue
        if head and below:
            count = None if head[1] == "some" else int(head[2].replace(",", ""))
            yield Told(End(told_ends(head[3]), tuple(below[:-1])), count, below[-1])
        head, below = re.fullmatch(r"(some|([\d,]+) of [\d,]+) orders?: (.*)", line.rstrip("\n")), []


def add_up(ends):
    """The ends of several parts, each once, with the schedule that has the fewest lines."""
    whole = {}
    for told in ends:
        before = whole.setdefault(told.end, told)
        if before is not told:
            count = None if None in (before.count, told.count) else before.count + told.count
            turns = min(before.turns, told.turns, key=lambda turns: turns.count("/"))
            whole[told.end] = Told(told.end, count, turns)
    return list(whole.values())
