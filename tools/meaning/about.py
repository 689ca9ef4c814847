"""What a call and what comes of a step were about, in words."""
from dataclasses import dataclass, field

from meaning.codes import ended, meanings, told_ends
from meaning.cpu import STORES
from meaning.numbers import ACTION_NAMES, CONDITION_NAMES, MODE_NAMES, rights_text, signals_text
from meaning.objects import Packet

ROOT = 1


@dataclass
class Done:
    """How an item ended, as traces have it, and what it was about."""

    outcome: str
    # what its handles name, at length and in short
    operands: list = field(default_factory=list)
    names: list = field(default_factory=list)
    about: list = field(default_factory=list)
    came: list = field(default_factory=list)
    # what went from one process to another: (what, whose or whom, which sending, in words)
    arrows: list = field(default_factory=list)


@dataclass(frozen=True)
class Told:
    """Something that came of a step: `gone`, `packet`, `woken`, `over`, in words. `packet` is the one that
    came, or that somebody was woken by."""

    kind: str
    text: str
    pid: int = 0
    packet: Packet | None = None


def entry_text(entry):
    return f"{entry.kind} {entry.koid} ({rights_text(entry.rights, entry.kind)})"


def message_text(message):
    """A message in words: its first bytes, and its handles."""
    content = message.content
    shown = f" ({content[:8].hex()}{'..' if len(content) > 8 else ''})" if content else ""
    return ", ".join([f"{len(content)} bytes{shown}"] + [entry_text(entry) for entry in message.entries])


def packet_text(packet):
    """A packet in words."""
    if packet.type == 0:
        return f"the packet with the key {packet.key} and the value {packet.value}"
    seen = packet.wait
    return f"the packet with the key {packet.key} of a wait at {seen.kind} {seen.koid}"


# ---- calls


def done_by(call):
    """What a call was about, before anything comes of it."""
    done = Done(call.outcome)
    for place, _, _ in call.handle_places:
        value, entry = call.values[place], call.entries.get(place)
        if entry:
            done.operands.append(f"{holder_text(call, place)} has handle {value}: {entry_text(entry)}")
        elif value or call.one.name != "close":
            done.operands.append(f"{holder_text(call, place)} has {value}: no handle")
        done.names.append(f"{entry.kind} {entry.koid}" if entry else f"{value} is no handle")
    if call.outcome.startswith("ended") and meanings(call.process.code):
        done.about.append(ended(call.process.code))
    if call.one.name == "task_kill":
        with_job = f" with job {call.koid}" if call.entries.get(1) and call.entries[1].kind == "job" else ""
        done.arrows += [("to", one.koid, None, f"kills it{with_job}") for one in call.world.came if one.kind == "over"]
    elif call.outcome in ("OK", "blocked"):
        tell = GIVEN[call.one.row.gives[0]] if call.one.row.gives else ABOUT.get(call.one.name)
        if tell:
            tell(call, done)
    return done


def holder_text(call, place):
    """Where the value of an operand stands: in a register, or in a slot array."""
    registers = call.one.operands
    if place < len(registers):
        return f"r{registers[place]}"
    return f"place {call.slots[place - len(registers)][0]} of slot array {call.one.number}"


def gets(call, done):
    """It gives a first handle, or handles to both ends of a pair."""
    entries = [call.process.handles[value] for value in call.given]
    places = [f"r{register}" for register in call.one.written[1:]]
    told = f"{places[0]} gets {entries[0].kind} {entries[0].koid}"
    if len(entries) > 1:
        told += f", {places[1]} its peer {entries[1].koid}"
    elif call.one.name == "process_create":
        told += f", of program {call.values[2]}"
    done.about.append(told)


def gets_other_rights(call, done):
    done.about.append(f"r{call.one.registers[2]} gets {entry_text(call.process.handles[call.given[0]])}")


def writes(call, done):
    text = message_text(call.moved)
    done.about.append(f"{text} to channel {call.target.peer}")
    done.arrows.append(("sent", call.pid, call.moved.sent, text))


def reads(call, done):
    text = message_text(call.moved)
    done.about.append(f"{text}, from process {call.moved.sent.by}")
    if call.one.row.is_into_slots and call.moved.entries:
        done.about.append(f"slot array {call.one.number} gets its handles")
    done.arrows.append(("read", call.moved.sent.by, call.moved.sent, text))


def tells(call, done):
    (kind, rights), (number, bits) = call.one.written[1:], call.given
    done.about.append(f"r{kind} gets {number} ({call.entries[1].kind}), r{rights} gets {bits}")


def changes(call, done):
    kind = call.entries[1].kind
    koid = call.koid if call.one.name == "signal" else call.target.peer
    told = [f"{word} {signals_text(bits, kind)}" for word, bits in zip(("clears", "sets"), call.values[2:4]) if bits]
    done.about.append((" and ".join(told) or "changes nothing") + f" at {kind} {koid}")


def waits(call, done):
    kind = call.entries[1].kind
    if call.one.name == "wait_one":
        done.about.append(f"for {signals_text(call.values[2], kind)}")
    if call.given:
        done.about.append(f"it is {signals_text(call.given[0], kind)}")


def registers(call, done):
    key, mask = call.values[3:5]
    done.about.append(f"a packet with the key {key} is to come at {signals_text(mask, call.entries[1].kind)}")


def moves_packet(call, done):
    if call.moved:
        text = packet_text(call.moved)
        done.about.append(text)
        what = "sent" if call.one.name == "port_queue" else "read"
        done.arrows.append((what, call.moved.sent.by, call.moved.sent, f"{text} through port {call.koid}"))


def cancels(call, done):
    done.about.append("key {}: {} waits and {} packets taken away".format(call.values[3], *call.moved))


def starts(call, done):
    text = f"starts with {entry_text(call.entries[2])} and the word {call.values[3]}"
    done.about.append(f"process {call.koid} {text}")
    done.arrows.append(("to", call.koid, None, text))


def sets(call, done):
    mode, condition, action = call.values[2:]
    done.about.append(f"{CONDITION_NAMES[condition]} {ACTION_NAMES[action]}, {MODE_NAMES[mode]}")


# What is told of a call by what it gives, and of others by their names.
GIVEN = {"copies": gets_other_rights, "makes": gets, "packet": moves_packet, "signals": waits, "sizes": reads,
         "tells": tells}
ABOUT = {
    "chan_write": writes, "chan_write_slots": writes, "signal": changes, "signal_peer": changes, "wait_async": registers,
    "port_queue": moves_packet, "port_cancel": cancels, "process_start": starts, "job_set_policy": sets,
}


# ---- local instructions


def local_text(one, before, cpu):
    """What a local instruction wrote, as `r2 = 5`, or where it went on; `before` are the registers before it."""
    if one.name == "rep":
        return f"a block begins, {one.number} turns left"
    if one.name == "endrep" and cpu.place == one.target + 1:
        return f"goes on at {cpu.place}, {cpu.counters[0]} turns left"
    if one.row.is_jump or one.name == "endrep":
        return f"goes on at {cpu.place}"
    first, now = one.registers[0], cpu.registers[one.registers[0]]
    if one.name in STORES:
        return f"{before[one.registers[1]] & (1 << 8 * STORES[one.name]) - 1} at address {now + one.number}"
    if one.name == "swap":
        place = before[one.registers[1]]
        return f"r{first} = {now}, place {place} = {cpu.slots[one.number][place]}"
    return f"r{first} = {now}"


# ---- what comes of a step


def told_of(world, came):
    """In words what came of a step; of an object that isn't worth a word nothing."""
    kind, koid, what = came
    if kind == "over":
        return Told(kind, told_ends(f"process {koid} ends with {what}"), koid)
    if kind == "packet":
        seen = what.wait
        text = f"{seen.kind} {seen.koid} is {signals_text(what.observed, seen.kind)}:" \
               f" a packet with the key {what.key} comes to port {koid}"
        return Told(kind, text, packet=what)
    if kind == "woken":
        awaited, packet = what
        at = world.objects[awaited.koid].kind
        active = signals_text(world.active(awaited.koid), at)
        text = f"{packet_text(packet)} through port {awaited.koid}" if packet else f"{at} {awaited.koid} is {active}"
        return Told(kind, f"{koid} goes on: {text}", koid, packet)
    # of an ended process its end was told
    ended = koid in world.processes and world.processes[koid].state == "ended"
    return None if koid == ROOT or ended else Told(kind, f"{what.kind} {koid} is gone")


def settled(world):
    """Lets the world settle: what came of the step, in words."""
    told = (told_of(world, came) for came in world.settle())
    return [one for one in told if one]
