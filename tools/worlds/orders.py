"""All orders of calls: the graph of the worlds that they lead to, each gone on from once."""
from collections import deque
from typing import NamedTuple

from .ends import CAUSES, NO_NAMES, end_name, end_reasons, is_cut
from .turns import choices, go, turns_to_call
from .world import outgrows

# How many calls are the same in all parts of a search at most.
MOST_SHARED = 24


def may_go(world, pid):
    """Whether the trace has room for the process up to its next call."""
    return world.items + turns_to_call(world, pid) <= world.limit


class End(NamedTuple):
    """An end of orders: the states of its processes, and why nobody goes on."""
    name: str
    reasons: tuple

    @property
    def is_round(self):
        """Whether somebody goes round for ever, so that it is none to the lab's own search."""
        return any(line.startswith(CAUSES["goes round"]) for line in self.reasons)

    @property
    def is_blocked(self):
        """Whether somebody waits."""
        return any(line.startswith((CAUSES["deadlock"], CAUSES["blocked for good"])) for line in self.reasons)


def end_of(world, telling):
    """The end that the world is."""
    return End(end_name(world, telling), tuple(end_reasons(world, telling)))


class Run:
    """One order, as far as it was gone: its world, its schedule, and what the trace has of it."""

    def __init__(self, first):
        self.world = first.copy()
        self.order, self.turns, self.lines = [], [], []

    def go(self, pid):
        count = turns_to_call(self.world, pid)
        self.order.append(pid)
        self.turns.append((pid, count))
        said = go(self.world, pid)
        self.lines += [f"{pid} run 1"] * (count - 1) + [said]
        return said

    def trace(self):
        """All lines of the trace of its schedule."""
        return [*self.lines, *self.world.last_lines(), "end schedule"]

    def end(self, telling=NO_NAMES):
        """The end that it has come to, if it is one."""
        return None if choices(self.world) or is_cut(self.world) else end_of(self.world, telling)


def run_of(first, order):
    run = Run(first)
    for pid in order:
        run.go(pid)
    return run


class Place(NamedTuple):
    """Where a search has come to: a world by its number or, with a process, the step of that one from it. On the way
    to where a part of a search begins there are no numbers, and it is the order so far."""
    number: int | None
    pid: int | None = None
    way: tuple = ()


class Nothing:
    """What looks at a search, and looks for nothing. Each thing is seen once, as the search comes to it."""
    is_found = False

    def step(self, place, said):
        """A process was answered, as the trace says it."""

    def world(self, place, world):
        """A world that wasn't there before."""

    def end(self, place, world):
        """The world is an end of all orders that lead to it."""


class Graph:
    """The worlds by number, and the steps between them. A step is a process that goes on through a call. `watch` is
    told of all of them, and ends the search when it has found what it looks for. `telling` has the names in ends."""

    def __init__(self, first, watch, telling=NO_NAMES):
        self.first, self.watch, self.telling = first, watch, telling
        # Parts of worlds by number, so that a world is known by a short tuple, and worlds by number.
        self.parts, self.numbers = {}, {}
        # By world: the world and the process that led to it first; of a root, None and the order to it.
        self.came = []
        self.steps = []
        # How many orders lead to each root.
        self.roots = {}
        self.ends = {}
        # Some worlds weren't gone on from, as there are too many, or as traces have no room; and somebody may go on and on
        # without a call.
        self.has_too_many = self.is_cut = self.outgrows = False
        self.looked_at = {}

    def key(self, world):
        return tuple(self.parts.setdefault(part, len(self.parts)) for part in world.parts())

    def number(self, world, came):
        """The number of the world, and whether it is new."""
        key = self.key(world)
        new = key not in self.numbers
        if new:
            self.numbers[key] = len(self.came)
            self.came.append(came)
            self.steps.append([])
        return self.numbers[key], new

    def order_to(self, world):
        """The first order that led to the world."""
        order = []
        while self.came[world][0] is not None:
            world, pid = self.came[world]
            order.append(pid)
        return [*self.came[world][1], *reversed(order)]

    def order_of(self, place):
        """The first order that led to a place."""
        if place.number is None:
            return list(place.way)
        return self.order_to(place.number) + ([] if place.pid is None else [place.pid])

    def search(self, roots, most, progress):
        """Goes on from each world once, in rising numbers of calls, up to so many worlds or what is looked for."""
        queue = deque()
        for world, order, count in roots:
            number, new = self.number(world, (None, order))
            self.roots[number] = self.roots.get(number, 0) + count
            if new:
                queue.append((number, world))
                self.watch.world(Place(number), world)
        while queue and not self.watch.is_found:
            progress.say(f"{len(self.came):,} worlds, {len(queue):,} to go on from, {len(self.ends):,} at their end")
            if len(self.came) >= most:
                self.has_too_many = True
                return
            self.go_on(*queue.popleft(), queue)

    def go_on(self, number, world, queue):
        pids = choices(world)
        if is_cut(world):
            self.is_cut, self.outgrows = True, self.outgrows or outgrows(world, self.looked_at)
        elif not pids:
            self.come_to_end(number, world)
        for pid in pids:
            if not may_go(world, pid):
                self.is_cut = True
                continue
            after = world.copy()
            said = go(after, pid)
            target, new = self.number(after, (number, pid))
            self.steps[number].append((pid, target))
            self.watch.step(Place(number, pid), said)
            if new:
                queue.append((target, after))
                self.watch.world(Place(target), after)

    def come_to_end(self, number, world):
        self.ends[number] = end_of(world, self.telling)
        self.watch.end(Place(number), world)


def roots_of(graph, part, parts):
    """Where a part of the search begins, and the orders that it alone has to try of the way there.

    A root is a world with an order to it and the number of orders. All parts take the same first calls, until
    there are some worlds for each, and share these worlds out. An end on the way is the first part's, and so
    are orders that lead to a world to which another one led before. What is bad on the way is found by each.
    """
    ends, others, level = [], [], [(graph.first, (), 1)]
    if parts == 1:
        return level, others
    for _ in range(MOST_SHARED):
        if len(level) >= 4 * parts or not all(may_go(world, pid) for world, _, _ in level for pid in choices(world)):
            break
        ends += [root for root in level if not choices(root[0])]
        level, merged = next_level(graph, level)
        others += merged
    mine = [*(ends if part == 1 else []), *level[part - 1::parts]]
    return mine, [*(others if part == 1 else []), *(order for _, order, _ in mine)]


def next_level(graph, level):
    """The worlds one call further, and the orders that led to one to which another order led before."""
    after, merged, numbers = [], [], Graph(graph.first, graph.watch)
    for world, order, count in level:
        graph.watch.world(Place(None, way=order), world)
        for pid in choices(world):
            next_world, longer = world.copy(), (*order, pid)
            graph.watch.step(Place(None, way=longer), go(next_world, pid))
            number, new = numbers.number(next_world, None)
            if new:
                after.append((next_world, longer, count))
            else:
                same, to_it, so_far = after[number]
                after[number] = (same, to_it, so_far + count)
                merged.append(longer)
    return after, merged
