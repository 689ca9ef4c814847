"""A scenario by hand: turns that are given one by one, and taken back."""
from meaning.about import entry_text
from meaning.booting import boot
from meaning.codes import told_ends
from meaning.cpu import Stuck
from meaning.following import Follower
from meaning.holding import awaited_text
from meaning.scenario import joined, schedule_text
from meaning.trace import Item


def name_of_next(process):
    """What an item of a process calls its next turn: the name of the call, `run` or `stuck`."""
    try:
        one = process.cpu.next()
        if not one.is_call:
            process.cpu.copy().local(one)
        return one.name if one.is_call else "run"
    except Stuck:
        return "stuck"


class Walk:
    """The turns that were given, and the world behind them, by the model of the tools."""

    def __init__(self, scenario):
        self.scenario = scenario
        # pairs of a process and how many turns it took
        self.turns = []
        self.begin()

    def begin(self):
        self.follower = Follower(boot(self.scenario))
        self.items = []

    @property
    def world(self):
        return self.follower.world

    @property
    def is_full(self):
        return len(self.items) >= self.scenario.limit

    def is_ready(self, pid):
        return pid in self.world.processes and self.world.processes[pid].state == "ready"

    def take(self, pid, count):
        """Gives a process so many turns; each that isn't skipped, with what it was about."""
        taken = 0
        for _ in range(count):
            if self.is_full or not self.is_ready(pid):
                break
            process, number = self.world.processes[pid], len(self.items) + 1
            name = name_of_next(process)
            followed = self.follower.follow(Item(number, pid, name, int(name == "run")))
            # how a call ends is what the model says
            outcome = "" if name in ("run", "stuck") else followed.done.outcome
            followed.item = followed.item._replace(outcome=outcome)
            self.items.append(followed.item.text)
            taken += 1
            yield followed
        if taken:
            self.turns.append((pid, taken))

    def undo(self):
        """Takes the turns back that were given last: all others are taken once more."""
        kept = self.turns[:-1]
        self.turns = []
        self.begin()
        for pid, count in kept:
            for _ in self.take(pid, count):
                pass

    def schedule(self):
        """The lines of the schedule, those of one process in a row as one."""
        return schedule_text(joined(self.turns))

    def trace(self):
        """The lines that the lab has to write of this schedule."""
        return [*self.items, *self.world.last_lines(), "end schedule"]


# ---- how it stands


def next_text(world, pid):
    """The instruction at which a process stands, and what its handles name."""
    process = world.processes[pid]
    texts, place = world.programs[process.program].texts, process.cpu.place
    if place >= len(texts):
        return f"{place}: no instruction"
    told = f"{place}: {texts[place]}"
    objects = list(named_by(process, process.cpu.image.code[place]))
    return told + (" | " + "; ".join(objects) if objects else "")


def named_by(process, one):
    """What the handles of an instruction name, in its registers and in the slots from which it gives them."""
    if one.row is None:
        return
    for at, _, _ in one.handle_places:
        yield f"r{one.operands[at]} has {handle_text(process, process.cpu.registers[one.operands[at]])}"
    if one.row.is_from_slots:
        try:
            for place, value in enumerate(process.cpu.front(one)):
                if value:
                    yield f"place {place} of slot array {one.number} has {handle_text(process, value)}"
        except Stuck as stuck:
            yield str(stuck)


def handle_text(process, value):
    entry = process.handles.get(value)
    return f"handle {value}: {entry_text(entry)}" if entry else f"{value}: no handle"


def lines_of(world, telling):
    """A line for each process: its state, and what it does next or waits for."""
    rows = []
    for pid, process in world.processes.items():
        told = ""
        if process.state == "ready":
            told = next_text(world, pid)
        elif process.state == "blocked":
            told = f"{process.cpu.place}: {world.programs[process.program].texts[process.cpu.place]}" \
                   f" | for {awaited_text(world, process.awaits)}"
        rows.append((telling.who(pid), told_ends(process.state_text()), telling.told(told)))
    widths = [max((len(row[column]) for row in rows), default=0) for column in (0, 1)]
    return [f"{who:{widths[0]}}  {state:{widths[1]}}  {told}".rstrip() for who, state, told in rows]
