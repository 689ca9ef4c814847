"""Scenarios in which a round may go by many things of one kind, for bench/growth.

A function for each kind takes how many of these things there are, and gives the scenario, the turns in which they are
made, and those of the rounds. So a run with the rounds and one without them differ in the rounds alone.
"""

from collections import Counter
from collections.abc import Callable
from dataclasses import dataclass

# How many things there are, and how much a round among the last may take of one among the first. Where a round goes
# over all of them it is nearly 4 times; where it looks up its own in a map, 1.2 times.
SIZES, MOST = (1_000, 4_000), 2
# Fewer of those for which a run takes long where its rounds go over all.
FEW = (250, 1_000)
# The rounds of a run, where each isn't one of a thing of its own.
ROUNDS = 100


@dataclass(frozen=True)
class Crowd:
    """A scenario with the turns that make the things, and those of the rounds; how many rounds these are; and how often
    the trace has each line for the things, and for the rounds."""

    text: str
    before: str
    turns: str
    rounds: int
    made: dict
    lines: dict


@dataclass(frozen=True)
class Kind:
    """What a round does among what things, and why it may take more than MOST, where it may."""

    of: Callable
    a_round: str
    unit: str
    sizes: tuple = SIZES
    most: float = MOST
    why: str = ""

    @property
    def name(self):
        return self.of.__name__.replace("_", "-")


# A process of the second program is made, and started with an event.
START = """    process_create r8, {job}, r20, r10
    event_create r8, r11
    process_start r8, r10, r11, r1
"""
MAKE = START.format(job="r0")
KILL = "    task_kill r8, r10\n"
CLOSE = "    close r8, r10\n"
AGAIN = "    jmp again\n"
# It is started with a handle of the event in r2.
MAKE_WAITING = """    process_create r8, r0, r20, r10
    dup r8, r2, r11, 0x80000000
    process_start r8, r10, r11, r1
    close r8, r10
"""
SPINNING = "again:\n    jmp again\n"
WAITING = """    const r4, 8
again:
    wait_one r8, r0, r4, r5
    jmp again
"""
HEAD = "    const r20, 1\n    const r5, 8\n"
SIGNALS = """again:
    signal r8, {event}, r1, r5
    signal r8, {event}, r5, r1
    jmp again
"""
# The job in r14 has a wait for a signal that nobody sets.
WATCHED_JOB = """    const r20, 1
    const r5, 0x1000000
    job_create r8, r0, r14
    wait_async r8, r14, r2, r5, r5
"""
# The event in r0 is SIGNALED. Waits at it and their packets have the keys from 0 on, and r15 that in the middle.
WAITS = """    const r5, 0x2000000
    const r6, {mask}
    const r7, 8
    const r15, {middle}
    signal r8, r0, r1, r7
"""
REGISTER = "    wait_async r8, r0, r2, r13, r6\n"
HOLDING, NOT_HOLDING = 8, 0x1000000


def scenario(statements, *programs):
    texts = "".join(f"program raw asm\n{text}end\n" for text in programs)
    return f"{texts}{statements}limit 1000000\n--\n"


def repeated(count, text):
    """The instructions so often, with two more each time, that count in r13 from 0 on."""
    return f"more:\n{text}    addi r13, r13, 1\n    jne r13, {count}, more\n"


# ---- tasks of a job


def ended(count, make, turns):
    """Each round makes a task in a watched job, sends a handle of it into a channel, and kills it."""
    text = f"""{WATCHED_JOB}again:
{make}    dup r8, r10, r12, 0x80000000
    task_kill r8, r10
    close r8, r10
    chan_write r8, r3, r15, r15, r12
    jmp again
"""
    statements = "port\nchannel\nprocess 1 0 0 1:* 2:* 3:* 4:*\n"
    return Crowd(scenario(statements, text, SPINNING), "5 4\n", f"5 {turns * count}\n", count, {"5 wait_async OK": 1},
                 {"5 task_kill OK": count, "5 chan_write OK": count})


def dead_children(count):
    return ended(count, START.format(job="r14"), 8)


def dead_jobs(count):
    return ended(count, "    job_create r8, r14, r10\n", 6)


def living_children(count):
    start = START.format(job="r14")
    text = f"{WATCHED_JOB}{repeated(count, start + CLOSE)}again:\n{start}{KILL}{CLOSE}{AGAIN}"
    return Crowd(scenario("port\nprocess 1 0 0 1:* 2:*\n", text, SPINNING), f"3 {4 + 6 * count}\n", f"3 {6 * ROUNDS}\n",
                 ROUNDS, {"3 process_start OK": count}, {"3 process_start OK": ROUNDS, "3 task_kill OK": ROUNDS})


# ---- waits at an event, and their packets


def waits(count, mask, loop, turns, rounds, lines):
    """Rounds of so many turns where as many waits were registered; there is a second event, in r3."""
    head = WAITS.format(mask=mask, middle=count // 2)
    text = head + repeated(count, REGISTER) + loop
    return Crowd(scenario("event\nport\nevent\nprocess 1 0 0 2:* 3:* 4:*\n", text), f"5 {5 + 3 * count}\n",
                 f"5 {turns * rounds}\n", rounds, {"5 wait_async OK": count, "5 signal OK": 1}, lines)


def waits_close(count):
    loop = f"again:\n    dup r8, r0, r9, 0x80000000\n    close r8, r9\n{AGAIN}"
    return waits(count, NOT_HOLDING, loop, 3, ROUNDS, {"5 close OK": ROUNDS})


def waits_signal(count):
    loop = SIGNALS.format(event="r0")
    return waits(count, NOT_HOLDING, loop, 3, ROUNDS, {"5 signal OK": 2 * ROUNDS})


def waits_register(count):
    loop = f"again:\n    wait_async r8, r0, r2, r5, r6\n{AGAIN}"
    return waits(count, NOT_HOLDING, loop, 2, ROUNDS, {"5 wait_async OK": ROUNDS})


def finding(count, mask):
    """Each round takes back one wait or packet behind half of them."""
    loop = f"again:\n    port_cancel r8, r2, r0, r15\n    addi r15, r15, 1\n{AGAIN}"
    return waits(count, mask, loop, 3, ROUNDS, {"5 port_cancel OK": ROUNDS})


def missing(count, mask, handle):
    """Each round looks in vain for one by this handle, by a key that none has."""
    loop = f"again:\n    port_cancel r8, r2, {handle}, r5\n{AGAIN}"
    return waits(count, mask, loop, 2, ROUNDS, {"5 port_cancel NOT_FOUND": ROUNDS})


def waits_cancel(count):
    loop = f"    const r15, 0\nagain:\n    port_cancel r8, r2, r0, r15\n    addi r15, r15, 1\n{AGAIN}"
    return waits(count, NOT_HOLDING, loop, 3, count, {"5 port_cancel OK": count})


def waits_find(count):
    return finding(count, NOT_HOLDING)


def waits_miss(count):
    return missing(count, NOT_HOLDING, "r0")


def packets_find(count):
    return finding(count, HOLDING)


def packets_miss(count):
    return missing(count, HOLDING, "r0")


def packets_cancel(count):
    return missing(count, HOLDING, "r3")


def waits_fire(count):
    """Behind as many waits that don't hold these fire in one step, and their packets are taken."""
    others = repeated(count, REGISTER).replace("more", "others")
    loop = f"""    const r13, 0
    const r6, {HOLDING}
    signal r8, r0, r6, r1
{others}    signal r8, r0, r1, r6
again:
    port_poll r8, r2, r9, r10, r11, r12
    jmp again
"""
    made = waits(count, NOT_HOLDING, loop, 0, count, {"5 signal OK": 1, "5 port_poll OK": count})
    return Crowd(made.text, f"5 {8 + 6 * count}\n", f"5 {1 + 2 * count}\n", count,
                 {"5 wait_async OK": 2 * count, "5 signal OK": 2}, made.lines)


# ---- processes that are blocked, ready or over


def blocked(count, loop, turns, rounds, lines):
    """Rounds of process 3 where as many processes are blocked at the event in r2, from number 4 on."""
    text = HEAD + repeated(count, MAKE_WAITING) + loop
    pids = range(4, 4 + count)
    begun = f"3 {2 + 6 * count}\n" + "".join(f"{pid} 2\n" for pid in pids)
    return Crowd(scenario("event\nprocess 1 0 0 1:* 2:*\n", text, WAITING), begun, f"3 {turns}\n", rounds,
                 {f"{pid} wait_one blocked": 1 for pid in pids}, lines)


def blocked_signal(count):
    loop = "    const r5, 0x1000000\n" + SIGNALS.format(event="r2")
    return blocked(count, loop, 1 + 3 * ROUNDS, ROUNDS, {"3 signal OK": 2 * ROUNDS})


def woken(count):
    """One signal wakes all; each is a round."""
    lines = {f"process {pid} ready": 1 for pid in range(4, 4 + count)}
    return blocked(count, SIGNALS.format(event="r2"), 1, count, {"3 signal OK": 1, **lines})


def ready_turns(count, first=0):
    """Turns of one process after another, of which the first one stands behind so many."""
    text = HEAD + repeated(count, MAKE + CLOSE) + "    process_exit r1\n"
    pids = [3 + 2 * ((first + n) % count) for n in range(4 * ROUNDS)]
    turns = "".join(f"{pid} 1\n" for pid in pids)
    return Crowd(scenario("process 1 0 0 1:*\n", text, SPINNING), f"2 {3 + 6 * count}\n", turns, len(pids),
                 {"2 process_exit ended 0": 1}, {f"{pid} run 1": often for pid, often in Counter(pids).items()})


def ready_middle(count):
    return ready_turns(count, count // 2)


def wakes(count, make, turns):
    """In each round process 3 wakes the processes 4 and 5, which block again."""
    text = HEAD + repeated(count, make) + SIGNALS.format(event="r2")
    statements = "event\nprocess 1 0 0 1:* 2:*\nprocess 1 2 0 2:*\nprocess 1 2 0 2:*\n"
    blocks = {"4 wait_one blocked": 1, "5 wait_one blocked": 1}
    lines = {"3 signal OK": 2 * ROUNDS, **dict.fromkeys(blocks, ROUNDS)}
    return Crowd(scenario(statements, text, SPINNING, WAITING), f"3 {2 + turns * count}\n4 2\n5 2\n",
                 "3 3\n4 2\n5 2\n" * ROUNDS, ROUNDS, blocks, lines)


def ready_wakes(count):
    return wakes(count, MAKE + CLOSE, 6)


def over_wakes(count):
    return wakes(count, MAKE + KILL + CLOSE, 7)


def ready_kills(count):
    text = f"{HEAD}{repeated(count, MAKE + CLOSE)}again:\n{MAKE}{KILL}{CLOSE}{AGAIN}"
    return Crowd(scenario("process 1 0 0 1:*\n", text, SPINNING), f"2 {2 + 6 * count}\n", f"2 {6 * ROUNDS}\n", ROUNDS,
                 {"2 process_start OK": count}, {"2 process_start OK": ROUNDS, "2 task_kill OK": ROUNDS})


def unstarted_closes(count):
    create = "    process_create r8, r0, r20, r9\n"
    loop = f"again:\n    event_create r8, r11\n    close r8, r11\n{AGAIN}"
    text = HEAD + create + repeated(count, MAKE + KILL + CLOSE) + loop
    return Crowd(scenario("process 1 0 0 1:*\n", text, SPINNING), f"2 {3 + 7 * count}\n", f"2 {3 * ROUNDS}\n", ROUNDS,
                 {"2 task_kill OK": count, "2 close OK": count}, {"2 close OK": ROUNDS})


# A turn moves those that stand in the list behind its process.
MOVED = {"most": 4, "why": "the list of those that are ready is moved"}
KINDS = (
    Kind(dead_children, "a process of a watched job killed, while a handle to each is kept", "processes", FEW),
    Kind(dead_jobs, "a job of a watched job killed, while a handle to each is kept", "jobs", FEW),
    Kind(living_children, "a process of a watched job made, started and killed", "others that live", FEW),
    Kind(waits_fire, "a wait fired with all others by one signal, its packet taken", "behind as many that don't hold"),
    Kind(waits_register, "a wait registered at an event, and a jump", "waits there"),
    Kind(waits_close, "a handle of an event copied and closed, and a jump", "waits there"),
    Kind(waits_signal, "another signal of an event set and cleared, and a jump", "waits there"),
    Kind(waits_cancel, "a wait taken back by its key, the oldest first, and two steps", "waits by its handle"),
    Kind(waits_find, "a wait in the middle taken back by its key, and two steps", "waits by its handle"),
    Kind(waits_miss, "a wait looked for by a key that none has, and a jump", "waits by the handle"),
    Kind(packets_find, "a packet in the middle taken back by its key, and two steps", "packets of its handle"),
    Kind(packets_miss, "a packet looked for by a key that none has, and a jump", "packets of the handle"),
    Kind(packets_cancel, "a packet looked for by a handle that has none, and a jump", "packets of another one"),
    Kind(blocked_signal, "another signal of an event set and cleared, and a jump", "processes blocked there"),
    Kind(woken, "a process woken with all others by one signal", "processes", most=4, why="each leaves the list of the blocked"),
    Kind(ready_turns, "a turn of the one that is ready longest", "ready processes", **MOVED),
    Kind(ready_middle, "a turn of the one in the middle", "ready processes", **MOVED),
    Kind(ready_wakes, "two processes woken by a signal, which block again", "others that are ready", FEW),
    Kind(over_wakes, "two processes woken by a signal, which block again", "others that have ended"),
    Kind(ready_kills, "a process made, started and killed", "others that are ready", **MOVED),
    Kind(unstarted_closes, "an event made and closed, and a jump", "that have ended behind one never started"),
)
