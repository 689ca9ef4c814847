"""How many instructions may follow one another without a wait or an exit, along turns of counted blocks too."""
from itertools import product
from math import inf
from typing import NamedTuple

from meaning.blocks import blocks_of, end_of


class Turns(NamedTuple):
    """A block on a way: its first and its last place, how often it is gone through, and all instructions of that."""

    first: int
    last: int
    times: int
    count: int


class Longest:
    """Of each place the longest way that stays in its block, and the longest to its endrep, None where none leads there.
    Places from which ways have no end have neither."""

    def __init__(self, image, leads):
        self.image, self.leads = image, leads
        self.blocks = blocks_of(image.code)
        self.ways = {}
        self.find()

    def after(self, place):
        """The places to which a way goes on from this one."""
        one = self.image.code[place]
        return [] if one.is_pause or one.name == "endrep" else self.leads[place]

    def behind(self, rep):
        """Where it goes on behind the block, if it does."""
        end = end_of(self.image, rep)
        return end + 1 if end + 1 in self.leads.get(end, ()) else None

    def find(self):
        """Places in an order in which the ways of each come behind those on which they depend."""
        before, left = {}, {place: 0 for place in self.leads}

        def wait(place, targets):
            left[place] = len(targets)
            for target in targets:
                before.setdefault(target, []).append(place)
        for place in self.leads:
            wait(place, self.after(place))
        ready = [place for place, count in left.items() if count == 0]
        while ready:
            place = ready.pop()
            if (behind := self.missing(place)) is not None:
                wait(place, [behind])
                continue
            self.ways[place] = self.ways_at(place)
            for one in before.get(place, ()):
                left[one] -= 1
                if left[one] == 0:
                    ready.append(one)

    def missing(self, place):
        """The place behind the block of a rep, where a way leads through it and those from there aren't known yet."""
        if self.image.code[place].name != "rep" or not self.after(place) or self.ways[place + 1][1] is None:
            return None
        return None if self.behind(place) in self.ways else self.behind(place)

    def ways_at(self, place):
        """The two longest ways of a place, by those of the places behind it."""
        one, after = self.image.code[place], self.after(place)
        if one.name == "endrep":
            return 0, 0
        ends = [self.ways[target][1] + 1 for target in after if self.ways[target][1] is not None]
        if one.name == "rep" and ends:
            return self.turned(one.number, self.ways[place + 1], self.behind(place))
        return max((self.ways[target][0] + 1 for target in after), default=0), max(ends, default=None)

    def turned(self, turns, first, behind):
        """Those of a rep whose block is gone through so often, by those of its first place and of that behind it."""
        within, turn = first[0], first[1] + 1
        longest = (turns - 1) * turn + within + 1
        if behind is None:
            return longest, None
        out, end = self.ways[behind]
        return max(longest, turns * turn + out + 1), None if end is None else turns * turn + end + 1

    # ---- numbers of places with counters

    def number(self, place, counters):
        """The longest way from a place on, with these counters."""
        if place not in self.ways:
            return inf
        within, end = self.ways[place]
        return within if end is None else max(within, end + self.at_end(self.blocks[place][0], counters))

    def at_end(self, rep, counters):
        """The longest way from the endrep of this rep on."""
        left, *others = counters
        behind = self.behind(rep)
        last = 0 if behind is None else 1 + self.number(behind, others)
        if left == 1:
            return last
        if rep + 1 not in self.ways:
            return inf
        within, end = self.ways[rep + 1]
        if end is None:
            return 1 + within
        return max(1 + within + (left - 2) * (end + 1), (left - 1) * (end + 1) + last)

    def peak(self, place):
        """The longest way from a place on with any counters, and the counters. Those at both ends tell it."""
        turns = [sorted({1, self.image.code[rep].number}) for rep in self.blocks[place]]
        return max(((self.number(place, counters), counters) for counters in product(*turns)), key=lambda one: one[0])

    # ---- the longest way itself

    def steps(self, place, counters):
        """Where a place leads, with the counters there."""
        one = self.image.code[place]
        for target in self.leads.get(place, ()):
            if one.name == "rep":
                yield target, (one.number, *counters)
            elif one.name != "endrep":
                yield target, counters
            elif (target == one.target + 1) == (counters[0] > 1):
                yield target, (counters[0] - 1, *counters[1:]) if counters[0] > 1 else counters[1:]

    def turns_at(self, place, counters):
        """The whole turns of a block that the longest way makes from its first place on, and where it is then; nothing
        where it isn't there, or they are fewer than two."""
        rep = place - 1
        if rep not in self.blocks[place][:1] or place not in self.ways or self.ways[place][1] is None:
            return None
        (within, end), left, behind = self.ways[place], counters[0], self.behind(rep)
        last = 0 if behind is None else 1 + self.number(behind, counters[1:])
        goes_on = behind is not None and end + last >= within
        times = left if goes_on else left - 1
        if times < 2:
            return None
        turns = Turns(place, end_of(self.image, rep), times, times * (end + 1))
        return turns, (behind, counters[1:]) if goes_on else (place, (1, *counters[1:]))

    def way(self, place):
        """The longest way from a place on: places, and blocks that are gone through several times; and the place that
        comes again if it has no end."""
        spot, found, seen = (place, self.peak(place)[1]), [], set()
        while not self.image.code[spot[0]].is_pause:
            if spot in seen:
                return found, spot[0]
            seen.add(spot)
            if turned := self.turns_at(*spot):
                found.append(turned[0])
                spot = turned[1]
                continue
            found.append(spot[0])
            after = list(self.steps(*spot))
            if not after:
                break
            spot = max(after, key=lambda one: self.number(*one))
        return found, None


def steps_of(image, leads):
    """How many instructions may follow one another from each place on, with the counters with which these are the most;
    nothing where there is no end of them."""
    longest = Longest(image, leads)
    return {place: steps for place in leads if (steps := longest.peak(place)[0]) < inf}


def count_of(way):
    """How many instructions a way has."""
    return sum(one.count if isinstance(one, Turns) else 1 for one in way)
