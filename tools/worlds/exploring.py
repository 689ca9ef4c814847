"""A scenario whose orders are tried: by the model, and by the lab."""
import random
from contextlib import contextmanager

from meaning.saying import Origins
from meaning.scenario import joined, read_scenario, schedule_text, without_turns
from meaning.telling import Telling, counted
from meaning.trouble import Trouble
from meaning.zlt import names_in

from .ends import NO_END, is_cut
from .orders import Graph, Place, Run, may_go, roots_of, run_of
from .paths import covering_runs, endless_worlds, going_round, orders_to_ends
from .turns import choices, played
from .world import first_world

# The most items of a trace.
MOST_ITEMS = 1_000_000


class Exploring:
    """A scenario, as the lab and as the model have it."""

    def __init__(self, tool, lab, data, progress, cover_of=None):
        """`data` has numbers for names; `cover_of` makes of the scenario what is told of the instructions that are done."""
        self.tool, self.lab, self.progress = tool, lab, progress
        # Where the lab refuses it, that is all.
        lab.written([], data)
        text = data.decode("ascii")
        scenario = read_scenario(text)
        self.has_schedule = scenario.turns_from is not None
        self.text = without_turns(text).encode()
        # The same without what the lab skips.
        lines = self.text.split(b"\n")
        self.short_text = b"".join(line + b"\n" for line in lines if line and not line.startswith(b"#"))
        self.cover = cover_of and cover_of(scenario)
        self.scenario, self.first = scenario, first_world(scenario, self.cover)
        # The same, where the trace has room for the schedules to which the lab's own search has come.
        self.roomy = self.first
        self.telling = Telling(names_in(text), lab.file and lab.file.programs, Origins(scenario.programs, lab.told))
        self.runs_before = lab.runs
        # The ends to which runs have come that the lab has taken too, each with the schedule of the one with the fewest
        # lines, and the orders of those that take each step.
        self.confirmed, self.taken = {}, []

    @property
    def runs(self):
        """How often the lab has run it."""
        return self.lab.runs - self.runs_before

    def turns_comment(self):
        """The line of a schedule that says who is who."""
        names = [f"{pid} {self.telling.names[pid]}" for pid in self.first.processes if pid in self.telling.names]
        return f"# {', '.join(names)}\n" if names else ""

    def confirm(self, turns, trace):
        """The lab runs the schedule, and has to write this trace."""
        seen = self.lab.trace(self.short_text + self.room_for(turns), schedule_text(turns).encode())
        if seen != trace:
            at = next((n for n, pair in enumerate(zip(seen, trace)) if pair[0] != pair[1]), min(len(seen), len(trace)))
            told = [lines[at] if at < len(lines) else "nothing" for lines in (seen, trace)]
            raise Trouble(f"the model of {self.tool} is wrong about this scenario: line {at + 1} of the trace is {told[0]}, "
                          f"and by the model {told[1]}; the schedule is {' / '.join(f'{pid} {n}' for pid, n in turns)}")

    def room_for(self, turns):
        """The line by which the trace has room for a schedule, if it has none without."""
        items = sum(count for _, count in turns)
        return b"limit %d\n" % items if items > self.first.limit else b""

    def text_for(self, turns):
        """The scenario with that line, if a schedule wants it."""
        room = self.room_for(turns)
        return self.text + b"\n" * (not self.text.endswith(b"\n")) + room if room else None

    def run_along(self, turns):
        """A run of the order of calls along a schedule to which the lab's own search has come, and which the lab takes."""
        items = sum(count for _, count in turns)
        if items > MOST_ITEMS:
            raise Trouble(f"zlab explore has a schedule of {items:,} items, and a trace may have {MOST_ITEMS:,}")
        if items > self.roomy.limit:
            self.roomy = first_world(self.scenario, limit=items)
        trace = played(self.roomy.copy(), turns)
        self.confirm(turns, trace)
        order = [int(line.split(" ")[0]) for line in trace if line[0].isdigit() and " run " not in line]
        return run_of(self.roomy, order)

    def confirm_run(self, run):
        """The schedule of a run, once the lab has taken it."""
        turns = joined(run.turns)
        self.confirm(turns, run.trace())
        end = run.end(self.telling)
        if end is not None:
            self.confirmed[end] = min(self.confirmed.get(end, turns), turns, key=len)
        return turns

    def has_taken(self, order):
        """Whether the lab has gone along the order."""
        return any(taken[:len(order)] == list(order) for taken in self.taken)

    def confirm_order(self, order):
        return self.confirm_run(run_of(self.roomy, order))

    # ---- all orders

    def search(self, watch, most, part=(1, 1)):
        """All orders, or a part of them, by the model. With what was so far where it is interrupted."""
        found = Searched(self, watch, part)
        try:
            with self.progress:
                roots, found.to_roots = roots_of(found.graph, *part)
                found.graph.search(roots, most, self.progress)
        except KeyboardInterrupt:
            if self.progress.is_urgent:
                raise
            raise Interrupted(found) from None
        return found

    def confirm_steps(self, found):
        """The lab takes each step of the search, and the orders that lead to where it begins."""
        graph = found.graph
        with so_far(found):
            for order in found.to_roots:
                self.confirm_order(order)
            all_steps = sum(len(steps) for steps in graph.steps)
            for run, left in covering_runs(graph):
                self.progress.say(f"{counted(len(graph.came), 'world')}; the lab has taken {all_steps - left:,} of "
                                  f"{counted(all_steps, 'step')} in {counted(self.runs, 'run')}")
                self.confirm_run(run)
                self.taken.append(run.order)

    # ---- orders by chance

    def random_run(self, seed, number, watch):
        """The order of this number; whether it came to an end."""
        chance = random.Random(f"{seed}:{number}")
        run = Run(self.first)
        watch.world(Place(None), run.world)
        while pids := choices(run.world):
            pid = chance.choice(pids)
            if not may_go(run.world, pid):
                return run, False
            said, place = run.go(pid), Place(None, way=tuple(run.order))
            watch.step(place, said)
            watch.world(place, run.world)
        if is_cut(run.world):
            return run, False
        watch.end(Place(None, way=tuple(run.order)), run.world)
        return run, True


class Interrupted(BaseException):
    """Somebody has ended a search; what it has found so far."""

    def __init__(self, found):
        super().__init__()
        self.found = found


@contextmanager
def so_far(found):
    """What is done with what a search has found, so that an interrupt leaves that."""
    try:
        yield
    except KeyboardInterrupt:
        raise Interrupted(found) from None


class Searched:
    """What a search of all orders, or of a part of them, has found."""

    def __init__(self, exploring, watch, part):
        self.exploring, self.part = exploring, part
        self.graph = Graph(exploring.first, watch, exploring.telling)
        self.to_roots = []

    @property
    def is_whole(self):
        """Whether all worlds were gone on from, to which the orders of this part lead."""
        return not self.graph.has_too_many and not self.graph.is_cut

    @property
    def is_all(self):
        """The same, where these are all worlds that there are."""
        return self.is_whole and self.part[1] == 1

    @property
    def is_for_lab(self):
        """Whether the lab's own search is asked of all orders: it has no limit of a trace."""
        return not self.graph.has_too_many and not self.graph.outgrows and self.part[1] == 1

    def counts(self):
        return orders_to_ends(self.graph)

    def endless(self):
        """The worlds from which no order comes to an end; none are known where not all were gone on from."""
        return endless_worlds(self.graph) if self.is_whole else []

    def no_end(self, number):
        """What is told of a world from which no order comes to an end: who goes round, and where."""
        telling, told = self.exploring.telling, []
        for pid, place in sorted(going_round(self.graph, number).items()):
            process = run_of(self.graph.first, self.graph.order_to(place)).world.processes[pid]
            told.append(telling.who(pid) + telling.where(process.program, [process.cpu.place]))
        return f"{NO_END}: {', '.join(told)}"
