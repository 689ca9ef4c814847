"""What an end of all orders is: the state of each process, who waits for what, and who could bring it."""
from meaning.calls import SIGNALED_KINDS
from meaning.codes import told_ends
from meaning.numbers import (
    NO_JOBS, NO_PROCESSES, PEER_CLOSED, READABLE, RIGHTS, SIGNALED, SIGNALS, SIGNALS_OF, TERMINATED, USER_SIGNALS,
    USERS)
from meaning.objects import PAIRS
from meaning.telling import Telling

from .world import FAR, ROUND, places_round

# Where objects are told by their numbers.
NO_NAMES = Telling({})
# How the lines begin that say why nobody goes on.
CAUSES = {"deadlock": "deadlock: ", "blocked for good": "blocked for good: ", "goes round": "goes round for ever"}
NO_END = "no end: after these turns all orders go round for ever"


def end_name(world, telling=NO_NAMES):
    """The states of all processes."""
    return states_name([(pid, process.state_text()) for pid, process in sorted(world.processes.items())], telling)


def states_name(states, telling):
    """The same of pairs of a process and its state."""
    return told_ends(", ".join(f"{telling.who(pid)} {state}" for pid, state in states))


def is_cut(world):
    """Whether a process has more local instructions ahead than the trace may have items."""
    return any(stop == FAR for _, stop in world.ready())


def holders(world, koid, right=None):
    """The living processes that have a handle to the object, with the right of this name if there is one."""
    bit = RIGHTS[right] if right else 0
    return {pid for pid, process in world.processes.items() for entry in process.handles.values()
            if entry.koid == koid and entry.rights & bit == bit}


def killers(world, koid):
    """Those that could kill the process or the job."""
    pids = set()
    while koid in world.objects:
        pids |= holders(world, koid, "DESTROY")
        koid = world.objects[koid].job
    return pids


def changers(world, koid, mask):
    """Those that could make a signal of the mask active at the object."""
    thing = world.objects.get(koid)
    if thing is None:
        return set()
    pids = set()
    by_calls = mask & (USER_SIGNALS | (SIGNALED if thing.kind in SIGNALED_KINDS else 0))
    if by_calls:
        pids |= holders(world, koid, "SIGNAL")
    if thing.kind in PAIRS:
        pids |= holders(world, thing.peer) if mask & PEER_CLOSED else set()
        pids |= holders(world, thing.peer, "SIGNAL_PEER") if by_calls else set()
    if thing.kind == "channel":
        pids |= holders(world, thing.peer, "WRITE") if mask & READABLE else set()
    elif thing.kind in ("process", "job"):
        pids |= killers(world, koid) if mask & (TERMINATED | NO_JOBS | NO_PROCESSES) else set()
        pids |= {pid for pid in world.processes if pid in world.objects and world.is_within(koid, pid)}
    return pids


def bringers(world, pid):
    """The other living processes that could end the wait of a blocked one."""
    koid, mask, _ = world.processes[pid].awaits
    if mask is not None:
        pids = changers(world, koid, mask)
    else:
        pids = holders(world, koid, "WRITE")
        for wait in world.waits:
            if wait.port == koid:
                pids |= changers(world, wait.koid, wait.mask)
    return {other for other in pids if other != pid and world.processes[other].lives}


def signals_named(signals, kind):
    """The names of these signals of an object of the kind."""
    known = [name for name in (*SIGNALS_OF[kind], *USERS) if signals & SIGNALS[name]]
    return " or ".join(known) if known else f"signals {signals}"


def wait_text(world, pid, others, telling):
    """What a blocked process waits for, and who could bring it."""
    koid, mask, _ = world.processes[pid].awaits
    if mask is None:
        what = f"in port_wait for a packet at {telling.told(f'port {koid}')}"
    elif mask == 0:
        what = "in wait_one for no signal at all"
    else:
        kind = world.objects[koid].kind
        what = f"in wait_one for {signals_named(mask, kind)} at {telling.told(f'{kind} {koid}')}"
    who = " or ".join(telling.who(other) for other in sorted(others)) if others else "nobody else"
    return f"{telling.who(pid)} waits {what}, which {who} could bring"


def round_text(process, pid, telling):
    """Who goes round without a call, and where."""
    return telling.who(pid) + (telling.where(process.program, places_round(process.cpu)) if telling.origins else "")


def reached_from(start, edges):
    """What is reached by one edge or more."""
    reached, left = set(), [start]
    while left:
        for target in edges.get(left.pop(), ()):
            if target not in reached:
                reached.add(target)
                left.append(target)
    return reached


def end_reasons(world, telling=NO_NAMES):
    """Why nobody goes on where some haven't ended, in lines."""
    edges = {pid: bringers(world, pid) for pid in world.blocked}
    in_circle = [pid for pid in world.blocked if pid in reached_from(pid, edges)]
    waits = [wait_text(world, pid, edges[pid], telling) for pid in sorted(world.blocked)]
    lines = []
    if waits:
        lines.append(CAUSES["deadlock" if in_circle else "blocked for good"] + "; ".join(waits))
    rounds = [round_text(world.processes[pid], pid, telling) for pid, stop in world.ready() if stop == ROUND]
    if rounds:
        lines.append(f"{CAUSES['goes round']} without a call: {', '.join(rounds)}")
    return lines
