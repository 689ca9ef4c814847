"""The calls: why each is refused, in the order in which that is looked for, and what it does."""
from itertools import takewhile

from meaning.cpu import signed
from meaning.instructions import handle_places
from meaning.numbers import (
    ACTION_NAMES, BY_POLICY, CONDITION_NAMES, KILLED, KINDS, MODE_NAMES, NEEDS, SAME_RIGHTS, SIGNALED, STATUSES,
    USER_SIGNALS,
)
from meaning.objects import Awaited, Entry, Message, Packet, Wait

MOST_HANDLES = 1024
MOST_BYTES, MOST_SENT = 65536, 64
MOST_SIGNALS = 0xFFFFFFFF
MOST_PACKETS = 2048
MOST_DEPTH = 16
# What a policy may kill for beside what is made.
CONDITIONS_OF = {"BAD_HANDLE": "BAD_HANDLE", "WRONG_TYPE": "WRONG_OBJECT"}
# These carry SIGNALED too.
SIGNALED_KINDS = ("event", "eventpair")


class Refused(Exception):
    """The answer isn't OK; the values go to the registers behind the status all the same."""

    def __init__(self, status, values=()):
        super().__init__(status)
        self.status, self.values = status, values


class Ended(Exception):
    """The call ends its caller with the code, that of a policy if no other is said."""

    def __init__(self, code=BY_POLICY):
        super().__init__(code)
        self.code = code


class Blocked(Exception):
    """The caller waits for signals of the mask or, without one, for a packet."""

    def __init__(self, mask=None):
        super().__init__(mask)
        self.mask = mask


class Call:
    """A call with the values of its operands by their places, and the entries of those that are handles. What a slot
    array gives stands behind the registers."""

    def __init__(self, world, pid, one, is_without_memory):
        self.world, self.pid, self.one = world, pid, one
        self.process = world.processes[pid]
        cpu = self.process.cpu
        # the places of the slot array that give a handle, and their values
        self.slots = [(n, value) for n, value in enumerate(cpu.front(one)) if value] if one.row.is_from_slots else []
        self.values = [cpu.registers[register] for register in one.operands] + [value for _, value in self.slots]
        self.handle_places = handle_places(one, len(self.slots)) if self.slots else one.handle_places
        self.entries = {}
        self.is_without_memory = is_without_memory
        # how it ended as traces have it, what it gave behind the status, and what it moved for others to tell of
        self.outcome, self.given, self.moved = "", (), None

    @property
    def koid(self):
        """That of its first handle."""
        return self.entries[1].koid

    @property
    def target(self):
        """The object of its first handle."""
        return self.world.objects[self.entries[1].koid]

    def look_up(self):
        """The status of the first handle that won't do, if there is one; the entries of all are kept."""
        refused, listed = None, len(self.one.registers)
        for place, (kinds, rights), _ in self.handle_places:
            value = self.values[place]
            entry = self.process.handles.get(value)
            if entry:
                self.entries[place] = entry
            if refused or (value == 0 and self.one.name == "close"):
                continue
            if entry is None or (place > listed and value in self.values[listed:place]):
                refused = "BAD_HANDLE"
            elif kinds and entry.kind not in kinds:
                refused = "WRONG_TYPE"
            elif rights & ~entry.rights:
                refused = "ACCESS_DENIED"
        return refused

    def examine(self):
        """Refuses for a handle, or where the policy of the caller's job denies what is made; it may kill for either."""
        refused = self.look_up()
        condition = CONDITIONS_OF.get(refused) if refused else self.one.row.condition
        action = condition and self.world.action_for(self.world.objects[self.pid].job, condition)
        if action == "KILL":
            raise Ended
        refuse_if(refused, refused)
        refuse_if(action == "DENY", "ACCESS_DENIED")

    def want(self, room=0):
        """The last test of a call that may want memory: there is room for so many handles, and there is memory."""
        refuse_if(len(self.process.handles) + room > MOST_HANDLES, "NO_RESOURCES")
        refuse_if(self.is_without_memory, "NO_MEMORY")

    def insert(self, koid):
        """The first handle of a new object."""
        return self.process.insert(self.world.first_entry(koid))

    def consume(self):
        """The operands that go are gone from the table."""
        for place, _, goes in self.handle_places:
            if goes:
                self.world.take_out(self.process, self.values[place])

    def finish(self, status, given):
        """The registers and the places of what was consumed are 0, and then the others get the answer, or 0."""
        self.outcome, self.given = status, given
        cpu = self.process.cpu
        for place in self.one.consumed:
            cpu.registers[self.one.operands[place]] = 0
        if self.one.row.is_from_slots:
            cpu.fill(self.one.number, [0] * len(cpu.front(self.one)))
        written = self.one.written
        values = (STATUSES[status], *given)
        self.world.answer(self.process, written, values + (0,) * (len(written) - len(values)))


def perform(world, pid, one, is_without_memory=False):
    """Does the call at which the process stands, without what follows. Memory is refused where a trace says so."""
    call = Call(world, pid, one, is_without_memory)
    try:
        call.examine()
        call.finish("OK", EFFECTS[one.name](call))
    except Refused as refused:
        call.consume()
        call.finish(refused.status, refused.values)
    except Blocked as blocked:
        call.outcome = call.process.state = "blocked"
        call.process.awaits = Awaited(call.koid, blocked.mask, one.written)
        world.blocked.append(pid)
    except Ended as ended:
        world.end(pid, ended.code)
        call.outcome = f"ended {call.process.code}"
    return call


def refuse_if(holds, status, values=()):
    if holds:
        raise Refused(status, values)


# ---- handles


def close(call):
    call.consume()
    return ()


def narrowed(call):
    """The entry with the rights that are asked for."""
    entry, asked = call.entries[1], call.one.number
    refuse_if(asked != SAME_RIGHTS and asked & ~entry.rights, "INVALID_ARGS")
    return Entry(entry.koid, entry.kind, entry.rights if asked == SAME_RIGHTS else asked)


def handle_info(call):
    entry = call.entries[1]
    return KINDS[entry.kind], entry.rights


def dup(call):
    entry = narrowed(call)
    call.want(1)
    return (call.process.insert(entry),)


def replace(call):
    value = call.values[1]
    call.process.handles[value] = narrowed(call)
    call.world.waits = [wait for wait in call.world.waits if (wait.pid, wait.value) != (call.pid, value)]
    return (value,)


# ---- channels


def new_pair(kind):
    def create(call):
        call.want(2)
        return tuple(call.insert(end) for end in call.world.make_pair(kind))
    return create


def peer_of(call):
    """The other end's koid, which has to be there."""
    peer = call.target.peer
    refuse_if(peer not in call.world.objects, "PEER_CLOSED")
    return peer


def chan_write(call):
    world, (address, length), first = call.world, call.values[2:4], len(call.one.registers)
    listed = range(first, len(call.values))
    refuse_if(call.values[1] in call.values[first:], "NOT_SUPPORTED")
    refuse_if(length > MOST_BYTES or len(listed) > MOST_SENT, "OUT_OF_RANGE")
    peer = peer_of(call)
    call.want()
    entries = tuple(call.entries[place] for place in listed)
    call.moved = Message(call.process.cpu.memory[address:address + length], entries, world.sent())
    call.consume()
    world.change(peer, queue=(*world.objects[peer].queue, call.moved))
    return ()


def chan_read_etc(call):
    sizes = take_message(call, call.one.number)
    told = []
    for entry in call.moved.entries:
        told += [call.process.insert(entry), KINDS[entry.kind], entry.rights]
    return (*sizes, *told)


def chan_read_slots(call):
    """There is room for as many handles as places at the front of the slot array are 0."""
    cpu, array = call.process.cpu, call.one.number
    front = list(takewhile(lambda value: value == 0, cpu.slots[array]))
    sizes = take_message(call, min(len(front), MOST_SENT))
    cpu.fill(array, [call.process.insert(entry) for entry in call.moved.entries])
    return sizes


def take_message(call, places):
    """The first message leaves the queue, if there is room for its bytes and so many places for its handles; how many it
    has of both. Its bytes are in the memory."""
    queue = call.target.queue
    if not queue:
        peer_of(call)
        raise Refused("SHOULD_WAIT")
    call.moved = message = queue[0]
    sizes = len(message.content), len(message.entries)
    refuse_if(sizes[0] > call.values[3] or sizes[1] > places, "BUFFER_TOO_SMALL", sizes)
    call.want(sizes[1])
    call.process.cpu.store(call.values[2], message.content)
    call.world.change(call.koid, queue=queue[1:])
    return sizes


# ---- events, signals and waits


def new_object(kind):
    def create(call):
        call.want(1)
        return (call.insert(call.world.make(kind)),)
    return create


def masks(call):
    """The signals to be cleared and to be set, which calls have to be able to change at the kind."""
    clear, more = call.values[2:4]
    allowed = USER_SIGNALS | (SIGNALED if call.entries[1].kind in SIGNALED_KINDS else 0)
    refuse_if((clear | more) & ~allowed, "INVALID_ARGS")
    return clear, more


def change_signals(call, koid, clear, more):
    call.world.change(koid, raised=call.world.objects[koid].raised & ~clear | more)
    return ()


def signal(call):
    return change_signals(call, call.koid, *masks(call))


def signal_peer(call):
    clear, more = masks(call)
    return change_signals(call, peer_of(call), clear, more)


def active_for(call):
    """The active signals, and those of them that are awaited."""
    mask = call.values[2]
    refuse_if(mask > MOST_SIGNALS, "INVALID_ARGS")
    active = call.world.active(call.koid)
    return active, active & mask


def wait_one(call):
    active, awaited = active_for(call)
    if not awaited:
        raise Blocked(call.values[2])
    return (active,)


def wait_poll(call):
    active, awaited = active_for(call)
    refuse_if(not awaited, "TIMED_OUT", (active,))
    return (active,)


def wait_async(call):
    key, mask = call.values[3:5]
    refuse_if(mask > MOST_SIGNALS, "INVALID_ARGS")
    call.want()
    entry = call.entries[1]
    wait = Wait(call.pid, call.values[1], entry.koid, entry.kind, call.entries[2].koid, key, mask)
    call.world.waits.append(wait)
    return ()


# ---- ports


def port_queue(call):
    packets = call.target.packets
    refuse_if(sum(packet.type == 0 for packet in packets) >= MOST_PACKETS, "SHOULD_WAIT")
    call.want()
    call.moved = Packet(call.values[2], 0, call.values[3], 0, None, call.world.sent())
    call.world.change(call.koid, packets=(*packets, call.moved))
    return ()


def port_wait(call):
    call.moved = call.world.take_packet(call.koid)
    if not call.moved:
        raise Blocked
    return call.moved.fields


def port_poll(call):
    call.moved = call.world.take_packet(call.koid)
    refuse_if(not call.moved, "TIMED_OUT")
    return call.moved.fields


def port_cancel(call):
    """Takes away the waits and the packets of waits that were made by this handle with this key at this port."""
    world, packets = call.world, call.target.packets
    meant = call.pid, call.values[2], call.entries[2].koid, call.koid, call.values[3]

    def is_meant(wait):
        return wait is not None and (wait.pid, wait.value, wait.koid, wait.port, wait.key) == meant

    waits = [wait for wait in world.waits if not is_meant(wait)]
    left = tuple(packet for packet in packets if not is_meant(packet.wait))
    call.moved = len(world.waits) - len(waits), len(packets) - len(left)
    refuse_if(not any(call.moved), "NOT_FOUND")
    world.waits = waits
    world.change(call.koid, packets=left)
    return ()


# ---- jobs and processes


def process_create(call):
    world, number = call.world, call.values[2]
    refuse_if(number >= len(world.programs), "INVALID_ARGS")
    refuse_if(call.target.is_killed, "BAD_STATE")
    program = world.programs[number]
    needs = program.image.needs if program.is_checked else ()
    refuse_if(any(world.action_for(call.koid, need) != "ALLOW" for need in needs), "NOT_SUPPORTED")
    call.want(1)
    return (call.insert(world.make_process(call.koid, number)),)


def declares(image, entry):
    """Whether the program declares just one handle, for which this one will do."""
    if len(image.starts) != 1:
        return False
    kind, rights = image.starts[0]
    return kind in (None, entry.kind) and not rights & ~entry.rights


def process_start(call):
    world, pid, entry = call.world, call.koid, call.entries[2]
    process = world.processes[pid]
    program = world.programs[process.program]
    refuse_if(process.state != "created", "BAD_STATE")
    refuse_if(program.is_checked and not declares(program.image, entry), "INVALID_ARGS")
    call.want()
    call.consume()
    world.start(pid, [entry], call.values[3])
    return ()


def process_exit(call):
    raise Ended(signed(call.values[0]))


def task_kill(call):
    call.world.kill(call.koid)
    if not call.process.lives:
        raise Ended(KILLED)
    return ()


def job_create(call):
    refuse_if(call.target.depth >= MOST_DEPTH, "OUT_OF_RANGE")
    refuse_if(call.target.is_killed, "BAD_STATE")
    call.want(1)
    return (call.insert(call.world.make_job(call.koid)),)


def conditions_of(name):
    return NEEDS if name == "NEW_ANY" else (name,)


def set_policy(world, job, condition, action):
    """Sets what isn't set yet."""
    policy = dict(world.objects[job].policy)
    for name in conditions_of(condition):
        policy.setdefault(name, action)
    world.change(job, policy=tuple(sorted(policy.items())))


def job_set_policy(call):
    world, (mode, condition, action) = call.world, call.values[2:]
    known = mode in MODE_NAMES and condition in CONDITION_NAMES and action in ACTION_NAMES
    refuse_if(not known, "INVALID_ARGS")
    condition, action = CONDITION_NAMES[condition], ACTION_NAMES[action]
    has_child = world.has_child(call.koid, "job") or world.has_child(call.koid, "process")
    refuse_if(call.target.is_killed or has_child, "BAD_STATE")
    policy = dict(call.target.policy)
    conflict = any(policy.get(name, action) != action for name in conditions_of(condition))
    refuse_if(MODE_NAMES[mode] == "ABSOLUTE" and conflict, "ALREADY_EXISTS")
    set_policy(world, call.koid, condition, action)
    return ()


# What each does that isn't refused for its handles or by a policy; it answers what it gives behind the status.
EFFECTS = {
    "close": close, "dup": dup, "replace": replace, "chan_create": new_pair("channel"), "chan_write": chan_write,
    "chan_read_etc": chan_read_etc, "event_create": new_object("event"), "signal": signal,
    "signal_peer": signal_peer, "wait_one": wait_one, "wait_poll": wait_poll, "wait_async": wait_async,
    "port_create": new_object("port"), "port_queue": port_queue, "port_wait": port_wait, "port_poll": port_poll,
    "port_cancel": port_cancel, "process_create": process_create, "process_start": process_start,
    "process_exit": process_exit, "task_kill": task_kill, "job_create": job_create,
    "job_set_policy": job_set_policy, "eventpair_create": new_pair("eventpair"), "chan_write_slots": chan_write,
    "chan_read_slots": chan_read_slots, "handle_info": handle_info,
}
