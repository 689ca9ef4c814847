"""Whether assertions hold: what a search looks for, and what is known when it is over."""
from typing import NamedTuple

from meaning.asserting import ANY, MESSAGE, NOBODY, Cause, Ended, Facts, Has, In, Item
from meaning.numbers import STUCK

from .ends import CAUSES, end_reasons, is_cut
from .orders import Nothing
from .turns import choices

BROKEN, HOLDS, UNDECIDED = "broken", "holds", "not decided"
ENDLESS = "no end"


# ---- facts of a world


def processes(world, who):
    """The processes that are named."""
    if who == ANY:
        return world.processes.values()
    return [world.processes[who]] if who in world.processes else []


def has_ended(fact, world):
    ended = [process for process in processes(world, fact.who) if process.state == "ended"]
    return any(not fact.codes or (process.code in fact.codes) != fact.is_other for process in ended)


def is_in(fact, world):
    """Whether a process is blocked or stuck. The end of one that is stuck has a code of its own."""
    if fact.state == "stuck":
        return any(process.state == "ended" and process.code == STUCK for process in processes(world, fact.who))
    return any(process.state == fact.state for process in processes(world, fact.who))


def entries_in_messages(world):
    return (entry for thing in world.objects.values() for message in thing.queue for entry in message.entries)


def has_handle(fact, world):
    """Whether somebody has a handle of the object with all the rights."""
    if fact.holder == MESSAGE:
        entries = entries_in_messages(world)
    else:
        who = ANY if fact.holder == NOBODY else fact.holder
        entries = (entry for process in processes(world, who) for entry in process.handles.values())
    found = any(entry.koid == fact.koid and fact.kind in (None, entry.kind) and entry.rights & fact.rights == fact.rights
                for entry in entries)
    return found != (fact.holder == NOBODY)


WAYS = {Ended: has_ended, In: is_in, Has: has_handle}


def hold(facts, world):
    """Whether all facts hold in the world."""
    return all(WAYS[type(fact)](fact, world) for fact in facts.facts)


def is_answer(item, said):
    """Whether what a trace says of a step is the answer."""
    pid, _, rest = said.partition(" ")
    call, _, outcome = rest.partition(" ")
    return (item.who in (ANY, int(pid)) and item.call in (ANY, call) and call != "stuck"
            and (not item.answers or outcome in item.answers))


def has_cause(cause, world):
    return any(line.startswith(CAUSES[cause.name]) for line in end_reasons(world))


def names_object(thing, world):
    """Whether the world has the object; a process stays known when its object is gone."""
    kind, koid = thing
    if kind == "process" and koid in world.processes:
        return True
    return koid in world.objects and kind in (None, world.objects[koid].kind)


# ---- what a search sees


class Sight:
    """An assertion, and where it was seen that it is broken or, of `sometimes`, that it holds."""

    def __init__(self, assertion):
        self.assertion = assertion
        self.is_sometimes = assertion.mode == "sometimes"
        claim = assertion.claim
        is_of_ends = assertion.mode in ("always", "at end:")
        self.item = claim if isinstance(claim, Item) else None
        self.cause = claim if isinstance(claim, Cause) and claim.name != ENDLESS else None
        self.in_worlds = claim if isinstance(claim, Facts) and not is_of_ends else None
        self.at_ends = claim if is_of_ends else None
        # Whether it is about orders that go on for ever too.
        self.is_of_endless = assertion.mode == "always" or isinstance(claim, Cause) and claim.name == ENDLESS
        self.worlds, self.steps, self.way = set(), set(), None

    @property
    def is_seen(self):
        return bool(self.worlds or self.steps or self.way is not None)

    def see(self, place):
        """It is seen at this place of a search."""
        if place.number is None:
            self.way = place.way if self.way is None else self.way
        elif place.pid is None:
            self.worlds.add(place.number)
        else:
            self.steps.add((place.number, place.pid))

    def is_at_end(self, world):
        """Whether it is seen at an end."""
        return bool(self.cause and has_cause(self.cause, world) or self.at_ends and not hold(self.at_ends, world))

    def is_in_trace(self, items, world):
        """Whether it is seen where a trace of these items has come to: in its last item, or in its last world."""
        if self.item:
            return bool(items) and " run " not in items[-1] and is_answer(self.item, items[-1])
        if self.in_worlds:
            return hold(self.in_worlds, world)
        return not choices(world) and not is_cut(world) and self.is_at_end(world)


class Asserted(Nothing):
    """All assertions of a scenario, looked at while a search goes on."""

    def __init__(self, assertions):
        self.sights = [Sight(assertion) for assertion in assertions]
        self.of_items = [sight for sight in self.sights if sight.item]
        self.of_worlds = [sight for sight in self.sights if sight.in_worlds]
        self.of_ends = [sight for sight in self.sights if sight.cause or sight.at_ends]
        self.missing = {thing for assertion in assertions for thing in assertion.named_objects()}

    def step(self, place, said):
        for sight in self.of_items:
            if is_answer(sight.item, said):
                sight.see(place)

    def world(self, place, world):
        if self.missing:
            self.missing = {thing for thing in self.missing if not names_object(thing, world)}
        for sight in self.of_worlds:
            if hold(sight.in_worlds, world):
                sight.see(place)

    def end(self, place, world):
        for sight in self.of_ends:
            if sight.is_at_end(world):
                sight.see(place)

    def endless(self, numbers):
        """The worlds from which no order comes to an end."""
        for sight in self.sights:
            if sight.is_of_endless:
                sight.worlds.update(numbers)

    def verdicts(self, is_whole, by_model=(), untold=None):
        """What is known of each, once all orders were tried or some: of the sights in `by_model` by the model alone, if it is
        known, and of those in `untold` nothing, each with why."""
        whys = [untold.get(sight, "") if is_whole and untold else "" for sight in self.sights]
        return [Verdict(sight, found_of(sight, is_whole and not why), is_whole and sight in by_model, why)
                for sight, why in zip(self.sights, whys)]


def found_of(sight, is_whole):
    if sight.is_seen:
        return HOLDS if sight.is_sometimes else BROKEN
    if not is_whole:
        return UNDECIDED
    return BROKEN if sight.is_sometimes else HOLDS


class Verdict(NamedTuple):
    """What is known of an assertion, whether that it is in no order rests on the model, and why nothing is known where all
    orders were tried."""
    sight: Sight
    found: str
    is_by_model: bool
    why: str
