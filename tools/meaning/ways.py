"""Ways through a program, for a person: to where it is refused, and along which a budget counts."""
from collections import deque

from meaning.rules import Refused, edges
from meaning.steps import Longest
from meaning.values import bounds_of, join, start_state

MOST_STATES = 20000


class Walk:
    """All ways from the start, the shortest first, each with just what it leaves in the registers."""

    def __init__(self, image):
        self.image = image
        self.bounds = bounds_of(image)
        # pairs of a place and a state, with the number of the one before
        self.met = [(0, start_state(image), None)]
        self.seen = {self.met[0][:2]}

    def arrivals(self):
        """Each place with its state and its number, and the refusal if its rule doesn't hold."""
        waiting = deque([0])
        while waiting and len(self.met) < MOST_STATES:
            number = waiting.popleft()
            place, state, _ = self.met[number]
            try:
                led, refused = edges(self.image, self.bounds, place, state), None
            except Refused as fault:
                led, refused = [], fault
            yield number, place, state, refused
            for target, after in led:
                if (target, after) not in self.seen:
                    self.seen.add((target, after))
                    self.met.append((target, after, number))
                    waiting.append(len(self.met) - 1)

    def way(self, number):
        """The places up to this one."""
        places = []
        while number is not None:
            place, _, number = self.met[number]
            places.append(place)
        return places[::-1]


def ways_to(image, refusal):
    """The ways to where a program is refused: one along which it is, two that can't meet, none, or None
    where there are too many to go along all."""
    walk, arrived = Walk(image), []
    for number, place, state, refused in walk.arrivals():
        if place != refusal.at:
            continue
        if refused and refused.cause == refusal.cause:
            return [walk.way(number)]
        if refusal.cause == "JoinConflict":
            for other, known in arrived:
                if join(known, state)[0] is None:
                    return [walk.way(other), walk.way(number)]
            arrived.append((number, state))
    return [] if len(walk.met) < MOST_STATES else None


def shortest_way(found, at):
    """The fewest instructions to a place, by what is known where ways have met."""
    before, waiting = {0: None}, deque([0])
    while waiting and at not in before:
        place = waiting.popleft()
        for target in found.leads.get(place, ()):
            if target not in before:
                before[target] = place
                waiting.append(target)
    places, place = [], at if at in before else None
    while place is not None:
        places.append(place)
        place = before[place]
    return places[::-1]


def counted_way(found, first):
    """The longest way from an instruction on, and the place that comes again if it has no end."""
    return Longest(found.image, found.leads).way(first)
