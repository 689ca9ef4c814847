"""The worlds of a scenario: each can be copied, and compared with others."""
from meaning.booting import boot
from meaning.cpu import Stuck
from meaning.world import World

# How a burst of local instructions ends: at a call; at what can't be done; where it goes round for ever,
# back in a state that it had before; and after as many as it may do.
AT_CALL, AT_STUCK, ROUND, FAR = "call", "stuck", "round", "far"
# After so many of them in a row a turn of the lab's own search is done.
TURN = 10_000
# From here on a burst looks whether it goes round.
LONG = 64


def burst(cpu, most, note=None):
    """Does local instructions up to what isn't one, at most so many: how many, and how it ended. `note` is told of each,
    and where it has led."""
    before, next_look = None, LONG
    for count in range(most):
        try:
            one = cpu.next()
            if one.is_call:
                return count, AT_CALL
            if count == next_look:
                before, next_look = cpu.parts(), 2 * next_look
            elif before and cpu.place == before[0] and cpu.parts() == before:
                return count, ROUND
            place = cpu.place
            cpu.local(one)
            if note:
                note(place, one, cpu.place)
        except Stuck:
            return count, AT_STUCK
    return most, FAR


def places_round(cpu):
    """The places to which one comes that goes round."""
    cpu, places = cpu.copy(), set()
    start = cpu.parts()
    while not places or cpu.parts() != start:
        places.add(cpu.place)
        cpu.local(cpu.next())
    return places


class SearchedWorld(World):
    """A world in which each ready process stands at its next call, as local instructions touch nobody else. `cover`, if
    there is one, is told which instructions are done."""

    def __init__(self, programs, limit, cover=None):
        super().__init__(programs)
        self.limit, self.cover = limit, cover
        # How many items the trace has so far.
        self.items = 0
        # Of ready processes how many local instructions are done ahead of their turns, and how these ended.
        self.ahead = {}

    def copy(self):
        new = object.__new__(SearchedWorld)
        new.programs, new.limit, new.place, new.actor = self.programs, self.limit, self.place, self.actor
        new.processes = {pid: process.copy() for pid, process in self.processes.items()}
        new.objects, new.ahead = self.objects.copy(), self.ahead.copy()
        new.waits, new.blocked, new.came = self.waits[:], self.blocked[:], []
        new.next_koid, new.items, new.has_dropped, new.cover = self.next_koid, self.items, False, self.cover
        return new

    def parts(self):
        """All that counts for what comes, in parts that can be compared."""
        for pid, process in self.processes.items():
            yield pid, process.parts()
        yield from self.objects.items()
        yield tuple(self.waits), tuple(self.blocked), self.next_koid

    def follow(self):
        """All that follows a step, up to the next call of each process."""
        for came in self.settle():
            if self.cover and came.kind == "woken":
                self.cover.woken(self.processes[came.koid])
        for pid, process in self.processes.items():
            if process.state == "ready" and pid not in self.ahead:
                note = self.cover.notes[process.program] if self.cover else None
                self.ahead[pid] = burst(process.cpu, self.limit, note)

    def ready(self):
        """The ready processes, each with how its local instructions ended."""
        return [(pid, self.ahead[pid][1]) for pid, process in self.processes.items() if process.state == "ready"]


def outgrows(world, known):
    """Whether somebody does as many local instructions in a row as the lab's own search does in a turn, and comes to no
    call, so that these make worlds. `known` has what was found of those who were looked at."""
    for pid, stop in world.ready():
        if stop == FAR:
            cpu = world.processes[pid].cpu
            key = pid, cpu.parts()
            if key not in known:
                known[key] = burst(cpu.copy(), TURN)[1] == FAR
            if known[key]:
                return True
    return False


def first_world(scenario, cover=None, limit=None):
    """The world in which no turn was taken yet, where the trace may have as many items as it says, or as are named."""
    world = boot(scenario, SearchedWorld(scenario.programs, scenario.limit if limit is None else limit, cover))
    world.follow()
    return world
