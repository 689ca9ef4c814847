"""With which codes a program may end, where they are constants: for each process_exit all of them, or nothing.

Of a register at most a few constants are followed, along all ways that its text has, whether the verifier goes them
or not. What a call or the memory gives isn't known.
"""
from collections import deque
from itertools import product

from meaning.codes import ended, meanings
from meaning.cpu import RESULTS, TESTS, signed

MOST_CONSTANTS = 8
ZERO = frozenset([0])


def few(values):
    """These constants, or nothing if they are too many."""
    return frozenset(values) if len(values) <= MOST_CONSTANTS else None


def joined(one, other):
    """What is known where two ways meet."""
    return tuple(a if a == b else None if a is None or b is None else few(a | b) for a, b in zip(one, other))


def first_state():
    """What is known at the start, at which the first registers hold handles and a word."""
    return (None,) * 8 + (ZERO,) * 24


def result(one, state):
    """What the instruction leaves in its first register, where that is known."""
    if one.name == "const":
        return frozenset([one.number])
    if one.name not in (*RESULTS, "take"):
        return None
    if one.name == "take":
        return state[one.registers[1]]
    last = state[one.registers[2]] if len(one.registers) == 3 else frozenset([one.number])
    first = state[one.registers[1]]
    if first is None or last is None:
        return None
    return few({RESULTS[one.name](x, y) for x, y in product(first, last)})


def behind(one, state):
    """What is known behind an instruction that goes on at the next one."""
    after = list(state)
    for register in one.written:
        after[register] = None
    for place in one.consumed:
        after[one.operands[place]] = ZERO
    if one.name == "take":
        after[one.registers[1]] = ZERO
    if not one.is_call and one.registers and one.name in (*RESULTS, "const", "take"):
        after[one.registers[0]] = result(one, state)
    return tuple(after)


def refined(one, state, jumps):
    """What is known behind a jump that is taken or isn't; nothing where it can't be."""
    if not one.registers:
        return state if jumps else None
    register = one.registers[0]
    known = state[register]
    if known is None:
        exact = {"jz": (True, 0), "jnz": (False, 0), "jeq": (True, one.number), "jne": (False, one.number)}.get(one.name)
        known = frozenset([exact[1]]) if exact and exact[0] == jumps else None
    else:
        known = frozenset(value for value in known if TESTS[one.name](value, one.number) == jumps)
        if not known:
            return None
    return (*state[:register], known, *state[register + 1:])


def edges(image, at, state):
    """Where it may go on, and what is known there."""
    one = image.code[at]
    if one.row is None or one.name == "process_exit":
        return []
    if one.name == "endrep":
        return [(one.target + 1, state), (at + 1, state)]
    if not one.row.is_jump:
        return [(at + 1, behind(one, state))]
    return [(one.target, refined(one, state, True)), (at + 1, refined(one, state, False))]


def states_of(image):
    """What is known at each place that is reached."""
    states, waiting = {0: first_state()}, deque([0])
    while waiting:
        at = waiting.popleft()
        if at >= len(image.code):
            continue
        for target, state in edges(image, at, states[at]):
            if state is None:
                continue
            new = joined(states[target], state) if target in states else state
            if states.get(target) != new:
                states[target] = new
                waiting.append(target)
    return states


def told_codes(image):
    """For each process_exit whose codes are known, and worth a word, these in words."""
    states, told = states_of(image), {}
    for at, one in enumerate(image.code):
        if one.name != "process_exit" or at not in states or states[at][one.registers[0]] is None:
            continue
        codes = sorted({signed(value) for value in states[at][one.registers[0]]})
        if any(meanings(code) for code in codes):
            told[at] = ", or ".join(ended(code) for code in codes)
    return told
