"""Where numbers of handles stand that a start, a call or a move put there: in registers, slot arrays and memory.

A constant that only happens to be the number of a handle isn't one of these.
"""
from meaning.cpu import STORES

LONG = STORES["st64"]


class Carried:
    """The places of one process."""

    def __init__(self, registers=()):
        self.registers, self.slots, self.addresses = set(registers), set(), set()

    def written(self, registers, given=()):
        """These registers are written, and some of them get a handle."""
        self.registers.difference_update(registers)
        self.registers.update(given)

    def local(self, one, cpu):
        """A local instruction is about to be done."""
        registers, values = one.registers, cpu.registers
        if one.name in STORES:
            self.stored(values[registers[0]] + one.number, STORES[one.name], registers[1] in self.registers)
            return
        moves = False
        if one.name in ("mov", "take"):
            moves = registers[1] in self.registers
        elif one.name == "ld64":
            moves = values[registers[1]] + one.number in self.addresses
        elif one.name == "swap":
            slot = one.number, values[registers[1]]
            moves = slot in self.slots
            self.slots.discard(slot)
            self.slots.update([slot] if registers[0] in self.registers else [])
        self.written(one.written, registers[:1] if moves else ())

    def stored(self, address, length, is_handle=False):
        """Bytes are written to the memory from this address on."""
        if self.addresses:
            self.addresses = {at for at in self.addresses if at + LONG <= address or at >= address + length}
        if is_handle and length == LONG:
            self.addresses.add(address)

    def told(self, cpu, value):
        """The places where the number of a handle stands."""
        found = [f"r{register}" for register in sorted(self.registers) if cpu.registers[register] == value]
        found += [f"place {place} of slot array {array}" for array, place in sorted(self.slots)
                  if cpu.slots[array][place] == value]
        found += [f"address {at}" for at in sorted(self.addresses)
                  if int.from_bytes(cpu.memory[at:at + LONG], "little") == value]
        return ", ".join(found) or "no register"


class Carrying:
    """The places of all processes of a world, beside which it goes along."""

    def __init__(self, world):
        self.world = world
        self.of = {pid: Carried((0, *range(2, 8))[:len(process.handles)]) for pid, process in world.processes.items()}

    def local(self, pid, one, cpu):
        self.of[pid].local(one, cpu)

    def called(self, call):
        """A call was done."""
        if call.outcome in ("blocked", "") or call.outcome.startswith("ended"):
            return
        one, carried = call.one, self.of[call.pid]
        given = [one.written[place] for place in one.row.handles_given if place < len(one.written)]
        carried.written(one.written, given if call.outcome == "OK" else ())
        carried.slots -= {(one.number, place) for place, _ in call.slots}
        if call.outcome != "OK":
            return
        if one.row.gives[:1] == ("sizes",):
            carried.stored(call.values[2], len(call.moved.content))
        if one.row.is_into_slots:
            carried.slots |= {(one.number, place) for place in range(len(call.moved.entries))}
        elif one.name == "process_start":
            self.of[call.koid] = Carried([0])

    def answered(self, pid):
        """A process that waited goes on: its registers have the answer."""
        cpu = self.world.processes[pid].cpu
        self.of[pid].written(cpu.image.code[cpu.place - 1].written)

    def told(self, pid, value):
        """The places where a process has the number of a handle."""
        return self.of[pid].told(self.world.processes[pid].cpu, value)
