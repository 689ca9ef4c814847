"""The verifier's rule of each instruction: where it leads, and with what in the registers, or a cause."""
from meaning.cpu import LOADS, WIDTHS
from meaning.instructions import READ, WRITTEN, handle_places
from meaning.numbers import KIND_NAMES, KNOWN_RIGHTS, RIGHTS, SAME_RIGHTS
from meaning.values import (
    ANY, ANYTHING, TAGS, ZERO, Has, KindOf, RightsOf, Word, new_handle, refined, rounded, with_value,
)

# The jump that goes where the other of the pair doesn't.
OPPOSITES = {"jnz": "jz", "jne": "jeq", "jge": "jlt", "jnhas": "jhas"}


class Refused(Exception):
    """A rule that doesn't hold, with its cause and the register at fault."""

    def __init__(self, cause, register=None):
        super().__init__(cause)
        self.cause = cause
        self.register = register


def word_at(state, register):
    """What a register is at most that is read as a number."""
    value = state[register]
    if isinstance(value, Has):
        raise Refused("NotWord", register)
    return value.bound if isinstance(value, Word) else ANY


def written(state, register, value):
    if isinstance(state[register], Has):
        raise Refused("Leak", register)
    return with_value(state, register, value)


def edges(image, bounds, place, state):
    """The edges from an instruction, the jump first: pairs of a place and a state."""
    one = image.code[place]
    if one.row is None:
        raise Refused("IllegalOp")
    if one.row.is_jump:
        jumped, passed = ways(one, state)
    elif one.row.is_of_blocks:
        # an endrep leads back to behind its rep, unless the block is gone through but once
        jumped, passed = state if one.name == "endrep" and image.code[one.target].number > 1 else None, state
    else:
        jumped, passed = None, (call if one.is_call else local)(image, bounds, one, state)
    target = target_of(one)
    if jumped is not None and target >= len(image.code):
        raise Refused("BadJump")
    if passed is not None and place + 1 >= len(image.code):
        raise Refused("FallsOff")
    found = [(target, jumped)] if jumped is not None else []
    return found + ([(place + 1, passed)] if passed is not None else [])


def target_of(one):
    """Where an instruction may lead beside the next one, if it may."""
    if one.name == "endrep":
        return one.target + 1
    return one.target if one.row and one.row.is_jump else None


# ---- local instructions


def local(image, bounds, one, state):
    """The state behind a local instruction that is no jump."""
    if one.name == "take":
        return taken(state, *one.registers)
    if one.name == "swap":
        return swapped(image, state, *one.registers, one.number)
    if one.name in WIDTHS:
        return moved(image, state, one)
    given = [word_at(state, register) for register in one.registers[1:]]
    return written(state, one.registers[0], result(bounds, one, state, given))


def result(bounds, one, state, given):
    """What an instruction computes of numbers up to these."""
    if one.name == "const":
        return Word(one.number)
    if one.name == "mov":
        return state[one.registers[1]]
    if one.name in ("add", "addi"):
        return Word(rounded(bounds, sum(given) + one.number))
    if one.name == "and":
        return Word(rounded(bounds, min(given)))
    if one.name == "shr":
        return Word(rounded(bounds, given[0] >> one.number if one.number < 64 else 0))
    return ANYTHING


def taken(state, to, source):
    """A handle moves, and tags on it follow."""
    value = state[source]
    if to == source:
        raise Refused("IllegalOp", to)
    if not isinstance(value, Has) and value != ZERO:
        raise Refused("NotLive", source)
    changed = written(state, to, value)
    followed = tuple(type(one)(to) if isinstance(one, TAGS) and one.register == source else one for one in changed)
    return refined(followed, source, ZERO)


def swapped(image, state, register, by, array):
    """A register is exchanged with a place of a slot array."""
    if array >= len(image.slots):
        raise Refused("IllegalOp")
    kind, length, rights = image.slots[array]
    if word_at(state, by) >= length:
        raise Refused("MemoryRange", by)
    value = state[register]
    if isinstance(value, Has):
        if kind not in (None, value.kind):
            raise Refused("WrongKind", register)
        if rights & ~value.rights:
            raise Refused("LacksRight", register)
    elif value != ZERO:
        raise Refused("NotLive", register)
    return with_value(state, register, Has(True, kind, rights))


def moved(image, state, one):
    """A load or a store."""
    first, second = one.registers
    loads = one.name in LOADS
    bases = [word_at(state, second)] if loads else [word_at(state, first), word_at(state, second)]
    if bases[0] + one.number + WIDTHS[one.name] > image.memory:
        raise Refused("MemoryRange", second if loads else first)
    if not loads:
        return state
    return written(state, first, Word(255) if one.name == "ld8" else ANYTHING)


# ---- jumps


def ways(one, state):
    """The states where a jump is followed, and where it isn't; nothing where that is ruled out."""
    if one.name == "jmp":
        return state, None
    register = one.registers[0]
    test = OPPOSITES.get(one.name, one.name)
    holds, fails = TESTS[test](state, register, state[register], one.number)
    return (fails, holds) if one.name in OPPOSITES else (holds, fails)


def zero_ways(state, register, value, _):
    if isinstance(value, Has):
        return known_zero(state, register), known_there(state, register)
    return equal_ways(state, register, value, 0)


def equal_ways(state, register, value, number):
    if isinstance(value, Has):
        raise Refused("NotWord", register)
    if isinstance(value, Word):
        holds = None if value.bound < number else refined(state, register, Word(number))
        return holds, None if value.bound == number == 0 else state
    if isinstance(value, RightsOf):
        return refined(state, register, Word(number)), state
    if number == 0:
        holds, fails = known_zero(state, value.register), known_there(state, value.register)
    else:
        kind = KIND_NAMES.get(number)
        holds, fails = known_kind(state, value.register, kind), known_other(state, value.register, kind)
    return holds and refined(holds, register, Word(number)), fails


def below_ways(state, register, _, number):
    bound = word_at(state, register)
    holds = None if number == 0 else refined(state, register, Word(min(bound, number - 1)))
    return holds, None if bound < number else state


def has_ways(state, register, value, number):
    if isinstance(value, Has):
        raise Refused("NotWord", register)
    if isinstance(value, RightsOf) and number:
        return known_rights(state, value.register, number), state
    return state, state


TESTS = {"jz": zero_ways, "jeq": equal_ways, "jlt": below_ways, "jhas": has_ways}


def known_zero(state, register):
    """The register turns out to be 0, or can't be."""
    value = state[register]
    if isinstance(value, Has):
        return refined(state, register, ZERO) if value.maybe else None
    return state


def known_there(state, register):
    """It turns out to have a handle."""
    value = state[register]
    if isinstance(value, Has):
        return refined(state, register, Has(False, value.kind, value.rights))
    return None if value == ZERO else state


def known_kind(state, register, kind):
    value = state[register]
    if kind is None or not isinstance(value, Has) or value.kind not in (None, kind):
        return None
    return refined(state, register, Has(False, kind, value.rights))


def known_other(state, register, kind):
    value = state[register]
    if kind and isinstance(value, Has) and not value.maybe and value.kind == kind:
        return None
    return state


def known_rights(state, register, rights):
    value = state[register]
    if not isinstance(value, Has) or rights & ~KNOWN_RIGHTS:
        return None
    return refined(state, register, Has(False, value.kind, value.rights | rights))


# ---- calls


def call(image, bounds, one, state):
    """The state behind a call, in the order of its tests; none behind an exit."""
    after = state
    for place, wanted, goes in handle_places(one):
        register = (one.registers + one.handles)[place]
        examine(after, register, wanted, one.name == "close")
        if goes:
            after = with_value(after, register, ZERO)
    examine_array(image, one)
    numbers = [register for register, use in zip(one.registers, one.row.fields) if use == READ]
    limits = [word_at(state, register) for register in numbers]
    if one.row.has_range and sum(limits[:2]) > image.memory:
        raise Refused("MemoryRange", numbers[0])
    if one.row.is_from_slots and limits[2] > image.slots[one.number][1]:
        raise Refused("MemoryRange", numbers[2])
    if one.row.condition and one.row.condition not in image.needs:
        raise Refused("UndeclaredNeed")
    results = results_of(bounds, one, state)
    registers = [register for register, _ in results]
    if len(set(registers)) < len(registers):
        raise Refused("IllegalOp")
    for register in registers:
        if isinstance(after[register], Has):
            raise Refused("Leak", register)
    for register, value in results:
        after = with_value(after, register, value)
    return None if one.name == "process_exit" else after


def examine(state, register, wanted, may_be_zero):
    """A handle operand, of the kinds and with the right that are wanted."""
    value, (kinds, rights) = state[register], wanted
    if not isinstance(value, Has):
        if may_be_zero and value == ZERO:
            return
        raise Refused("NotLive", register)
    if value.maybe and not may_be_zero:
        raise Refused("NotLive", register)
    if kinds and value.kind not in kinds:
        raise Refused("WrongKind", register)
    if rights & ~value.rights:
        raise Refused("LacksRight", register)


def examine_array(image, one):
    """The slot array of a call: handles that go need TRANSFER, and of those that come nothing is known."""
    if not one.row.has_array:
        return
    if one.number >= len(image.slots):
        raise Refused("IllegalOp")
    kind, _, rights = image.slots[one.number]
    if one.row.is_into_slots and kind:
        raise Refused("WrongKind")
    if rights if one.row.is_into_slots else not rights & RIGHTS["TRANSFER"]:
        raise Refused("LacksRight")


def narrowed(value, asked):
    return Has(True, value.kind, value.rights if asked == SAME_RIGHTS else asked & KNOWN_RIGHTS)


def given_by(bounds, one, state):
    """What a call gives behind the status, by the column of the table."""
    what, *kinds = one.row.gives or ("nothing",)
    if what == "makes":
        return [new_handle(kind) for kind in kinds]
    if what == "copies":
        return [narrowed(state[one.registers[1]], one.number)]
    if what == "tells":
        return [KindOf(one.registers[1]), RightsOf(one.registers[1])]
    return {"nothing": [], "sizes": [Word(65536), Word(64)], "signals": [Word(0xFFFFFFFF)],
            "packet": [ANYTHING, Word(rounded(bounds, 1)), ANYTHING, ANYTHING]}[what]


def results_of(bounds, one, state):
    """The registers that a call writes, with what they get, the status first."""
    targets = [register for register, use in zip(one.registers, one.row.fields) if use == WRITTEN]
    results = list(zip(targets, [Word(30), *given_by(bounds, one, state)]))
    if one.name == "chan_read_etc":
        for first in range(one.registers[6], one.registers[6] + 3 * one.number, 3):
            results += [(first, Has(True, None, 0)), (first + 1, KindOf(first)), (first + 2, RightsOf(first))]
    return results
