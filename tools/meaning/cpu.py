"""What a process is by itself: registers, memory, slots, and its local instructions."""
import operator

from meaning.blocks import MOST_BLOCKS

WORD = (1 << 64) - 1
TESTS = {
    "jmp": lambda x, n: True, "jz": lambda x, n: x == 0, "jnz": lambda x, n: x != 0,
    "jeq": operator.eq, "jne": operator.ne, "jlt": operator.lt, "jge": operator.ge,
    "jhas": lambda x, n: x & n == n, "jnhas": lambda x, n: x & n != n,
}
# What each makes of two numbers: of the registers behind the first, or of one and the number of the instruction.
RESULTS = {
    "add": lambda x, y: x + y & WORD, "sub": lambda x, y: x - y & WORD, "and": operator.and_, "or": operator.or_,
    "xor": operator.xor, "addi": lambda x, n: x + n & WORD, "shl": lambda x, n: x << n & WORD if n < 64 else 0,
    "shr": lambda x, n: x >> n if n < 64 else 0, "mov": lambda x, _: x,
}
# How many bytes each moves.
LOADS, STORES = {"ld8": 1, "ld64": 8}, {"st8": 1, "st64": 8}
WIDTHS = LOADS | STORES


class Stuck(Exception):
    """A process can't do its instruction; the text says why."""


class Cpu:
    """A process as its own instructions see it. Memory, slot arrays and the counters of the blocks that it is in, the
    innermost first, are made anew where they change."""

    __slots__ = ("image", "place", "registers", "memory", "slots", "counters")

    def __init__(self, image):
        self.image = image
        self.place = 0
        self.registers = [0] * 32
        self.memory = bytes(image.memory)
        self.slots = tuple((0,) * length for _, length, _ in image.slots)
        self.counters = ()

    def copy(self):
        new = object.__new__(Cpu)
        new.image, new.place, new.memory, new.slots = self.image, self.place, self.memory, self.slots
        new.counters = self.counters
        new.registers = self.registers[:]
        return new

    def parts(self):
        """All of it but the image, as one value that can be compared."""
        return self.place, tuple(self.registers), self.memory, self.slots, self.counters

    def next(self):
        """The instruction that stands next, or Stuck."""
        if self.place >= len(self.image.code):
            raise Stuck(f"there is no instruction {self.place}")
        one = self.image.code[self.place]
        if one.row is None:
            raise Stuck(f"no instruction has the opcode {one.content[0]}")
        if one.has_range:
            self.within(self.registers[one.registers[2]], self.registers[one.registers[3]])
            if one.row.is_from_slots:
                self.front(one)
            elif one.row.is_into_slots:
                self.array(one.number)
        return one

    def within(self, address, length):
        """The bytes lie in the memory, or the process is stuck."""
        if address + length > len(self.memory):
            raise Stuck(f"{length} bytes from address {address} on, and the memory has {len(self.memory)}")
        return slice(address, address + length)

    def array(self, number):
        """The places of a slot array that is there, or the process is stuck."""
        if number >= len(self.slots):
            raise Stuck(f"there is no slot array {number}")
        return self.slots[number]

    def front(self, one):
        """The first places of a slot array, from which a call gives handles, or the process is stuck."""
        places, count = self.array(one.number), self.registers[one.registers[4]]
        if count > len(places):
            raise Stuck(f"slot array {one.number} has {len(places)} places, and not {count}")
        return places[:count]

    def fill(self, number, values):
        """The first places of a slot array get these values."""
        places = (*values, *self.slots[number][len(values):])
        self.slots = (*self.slots[:number], places, *self.slots[number + 1:])

    def store(self, address, content):
        where = self.within(address, len(content))
        self.memory = self.memory[:where.start] + content + self.memory[where.stop:]

    def local(self, one):
        """Does a local instruction; where it can't be done it is Stuck, and nothing has changed."""
        self.place = LOCALS[one.name](self, one)


# ---- local instructions: each answers where the process stands then


def jump(test):
    def go(cpu, one):
        value = cpu.registers[one.registers[0]] if one.registers else 0
        return one.target if test(value, one.number) else cpu.place + 1
    return go


def compute(result):
    def write(cpu, one):
        values, registers = cpu.registers, one.registers
        last = values[registers[2]] if len(registers) == 3 else one.number
        values[registers[0]] = result(values[registers[1]], last)
        return cpu.place + 1
    return write


def const(cpu, one):
    cpu.registers[one.registers[0]] = one.number
    return cpu.place + 1


def take(cpu, one):
    to, source = one.registers
    cpu.registers[to] = cpu.registers[source]
    cpu.registers[source] = 0
    return cpu.place + 1


def swap(cpu, one):
    """Exchanges a register with a place of a slot array."""
    (register, by), array = one.registers, one.number
    place, places = cpu.registers[by], list(cpu.array(array))
    if place >= len(places):
        raise Stuck(f"slot array {array} has {len(places)} places, and no place {place}")
    cpu.registers[register], places[place] = places[place], cpu.registers[register]
    cpu.slots = (*cpu.slots[:array], tuple(places), *cpu.slots[array + 1:])
    return cpu.place + 1


def load(length):
    def read(cpu, one):
        to, base = one.registers
        where = cpu.within(cpu.registers[base] + one.number, length)
        cpu.registers[to] = int.from_bytes(cpu.memory[where], "little")
        return cpu.place + 1
    return read


def store(length):
    def write(cpu, one):
        base, source = one.registers
        value = cpu.registers[source] & (1 << 8 * length) - 1
        cpu.store(cpu.registers[base] + one.number, value.to_bytes(length, "little"))
        return cpu.place + 1
    return write


def rep(cpu, one):
    """A block begins, with its counter."""
    if len(cpu.counters) >= MOST_BLOCKS:
        raise Stuck(f"there are {MOST_BLOCKS} counters already")
    cpu.counters = (one.number, *cpu.counters)
    return cpu.place + 1


def endrep(cpu, one):
    """The innermost counter is one less, and its block begins again, or it is dropped."""
    if not cpu.counters:
        raise Stuck("there is no counter")
    left, *others = cpu.counters
    cpu.counters = (left - 1, *others) if left > 1 else tuple(others)
    return one.target + 1 if left > 1 else cpu.place + 1


# What each local instruction does.
LOCALS = {
    "const": const, "take": take, "swap": swap, "rep": rep, "endrep": endrep,
    **{name: jump(test) for name, test in TESTS.items()},
    **{name: compute(result) for name, result in RESULTS.items()},
    **{name: load(length) for name, length in LOADS.items()},
    **{name: store(length) for name, length in STORES.items()},
}


def signed(code):
    """The low 32 bits as a number with sign."""
    low = code & 0xFFFFFFFF
    return low - (1 << 32) if low >> 31 else low
