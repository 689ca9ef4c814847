"""Goes along with a trace: each item with what it was about, as long as the model has the same items."""
from dataclasses import dataclass, field

from meaning.calls import perform
from meaning.carrying import Carrying
from meaning.cpu import Stuck
from meaning.numbers import STUCK
from meaning.about import Done, done_by, local_text, settled
from meaning.trace import STATE
from meaning.trouble import Trouble


@dataclass
class Followed:
    """An item with the instruction at which its process stood, what it was about, and what came of it."""

    item: object
    place: int
    text: str
    done: Done = field(default_factory=lambda: Done(""))


class Follower:
    """A world that does what a trace says. Each watcher hears of each instruction that is done."""

    def __init__(self, world, watchers=()):
        self.world = world
        self.carrying = Carrying(world)
        self.watchers = watchers

    def follow(self, item):
        """The item's meaning, or Trouble where the model parts from it."""
        process = self.world.processes.get(item.pid)
        if process is None or process.state != "ready":
            what = "there is none" if process is None else f"it is {process.state_text()}"
            raise Trouble(f"{parting(item)}; here its process isn't ready: {what}")
        self.world.place, self.world.actor = item.line, item.pid
        place = process.cpu.place
        try:
            one = process.cpu.next()
        except Stuck as stuck:
            return Followed(item, place, self.text(process, place), self.stuck(process, item, stuck))
        followed = Followed(item, place, self.text(process, place))
        if one.is_call:
            followed.done = self.call(process, one, item)
        else:
            followed.done = self.run(process, item)
        return followed

    def text(self, process, place):
        """The line of the instruction at which the process stands."""
        texts = self.world.programs[process.program].texts
        return texts[place] if place < len(texts) else "no instruction"

    def stuck(self, process, item, stuck):
        if item.name != "stuck":
            raise Trouble(f"{parting(item)}; here it is stuck: {stuck}")
        self.world.end(item.pid, STUCK)
        return Done("stuck", about=[str(stuck)], came=self.settled())

    def call(self, process, one, item):
        if item.name != one.name:
            raise Trouble(f"{parting(item)}; here {item.pid} stands at {one.name}")
        place = process.cpu.place
        call = perform(self.world, item.pid, one, item.outcome == "NO_MEMORY")
        done = done_by(call)
        # no outcome is said of a turn by the model alone
        if item.outcome and done.outcome != item.outcome:
            raise Trouble(f"{parting(item)}; here it is {item.pid} {one.name} {done.outcome}")
        self.carrying.called(call)
        if done.outcome != "blocked":
            self.tell(item.pid, item.pid, place)
        if one.name == "process_start" and done.outcome == "OK":
            self.tell(call.koid, item.pid, place)
        done.came = self.settled()
        return done

    def settled(self):
        """What came of the step. Who goes on has done the call at which it waited."""
        told = settled(self.world)
        for woken in (came.pid for came in told if came.kind == "woken"):
            self.carrying.answered(woken)
            self.tell(woken, woken, self.world.processes[woken].cpu.place - 1)
        return told

    def tell(self, pid, by, place):
        """The registers of the process have what the instruction at this place of the other one, or its own, gave."""
        for watcher in self.watchers:
            watcher.done(pid, by, place)

    def run(self, process, item):
        """Local instructions in a row; of several the last one is told."""
        told, cpu = "", process.cpu
        for n in range(item.count or 1):
            try:
                one, before = cpu.next(), cpu.registers[:]
                if one.is_call or item.name not in ("run", "stuck"):
                    raise Trouble(f"{parting(item)}; here {item.pid} stands at {one.name}")
                place = cpu.place
                self.carrying.local(item.pid, one, cpu)
                cpu.local(one)
                self.tell(item.pid, item.pid, place)
                if n + 1 == (item.count or 1):
                    told = local_text(one, before, cpu)
            except Stuck as stuck:
                if item.name == "stuck":
                    return self.stuck(process, item, stuck)
                which = f"instruction {n + 1} of these" if item.count > 1 else "it"
                raise Trouble(f"{parting(item)}; here {which} is stuck: {stuck}") from stuck
        if item.name == "stuck":
            raise Trouble(f"{parting(item)}; here it isn't stuck: {told}")
        several = [f"{item.count} instructions up to {process.cpu.place}"] if item.count > 1 else []
        return Done("run", about=several + [told])

    def compare_end(self, rest):
        """The lines behind the items say of each process what the model has."""
        told = {int(found[1]): (place, found[2]) for place, line in rest if (found := STATE.fullmatch(line))}
        for pid, (place, text) in told.items():
            process = self.world.processes.get(pid)
            here = process.state_text() if process else "no process"
            if here != text:
                raise Trouble(f"line {place} of the trace is process {pid} {text}; here it is {here}")
        missing = sorted(set(self.world.processes) - set(told))
        if told and missing:
            raise Trouble(f"the trace says nothing of process {missing[0]} at its end")


def parting(item):
    return f"this model parts from line {item.line} of the trace: {item.text}"
