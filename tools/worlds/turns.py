"""Turns taken in a world, and what the trace has of them."""
from meaning.calls import perform
from meaning.numbers import STUCK

from .world import AT_CALL, AT_STUCK, ROUND


def choices(world):
    """The processes that come to another call, or to their end, by turns of their own."""
    return [pid for pid, stop in world.ready() if stop in (AT_CALL, AT_STUCK)]


def turns_to_call(world, pid):
    """How many turns take the process through its next call."""
    return world.ahead[pid][0] + 1


def go(world, pid):
    """Takes the process through its next call: what the trace says of it."""
    world.items += turns_to_call(world, pid)
    _, stop = world.ahead.pop(pid)
    process = world.processes[pid]
    place = process.cpu.place
    if stop == AT_STUCK:
        world.end(pid, STUCK)
        said = f"{pid} stuck"
    else:
        one = process.cpu.next()
        said = f"{pid} {one.name} {perform(world, pid, one).outcome}"
    if world.cover:
        world.cover.done(process.program, place, said)
    world.follow()
    return said


def take_turns(world, pid, count):
    """Takes so many turns, as the lab does: yields what the trace says of each that isn't skipped."""
    for _ in range(count):
        process = world.processes.get(pid)
        if process is None or process.state != "ready" or world.items >= world.limit:
            return
        ahead, stop = world.ahead[pid]
        if ahead == 0 and stop in (AT_CALL, AT_STUCK):
            yield go(world, pid)
        else:
            world.ahead[pid] = ahead - (stop != ROUND), stop
            world.items += 1
            yield f"{pid} run 1"


def is_over(world, schedule):
    """Whether a turn of the schedule would add an item where the trace has as many as it may have."""
    return world.items >= world.limit and any(
        count and pid in world.processes and world.processes[pid].state == "ready" for pid, count in schedule)


def played(world, schedule):
    """The lines of the trace of a schedule from this world, which goes on to its end."""
    lines = []
    for place, (pid, count) in enumerate(schedule):
        before = world.items
        lines += take_turns(world, pid, count)
        rest = [(pid, count - (world.items - before)), *schedule[place + 1:]]
        if is_over(world, rest):
            return [*lines, *world.last_lines(), "end limit"]
    return [*lines, *world.last_lines(), "end schedule"]
