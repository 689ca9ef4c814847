"""The verifier's search that goes on behind what is refused, as if its author had mended that place alone."""
from dataclasses import replace

from meaning.numbers import KNOWN_RIGHTS, RIGHTS
from meaning.rules import Refused, edges
from meaning.steps import steps_of
from meaning.values import ANYTHING, ZERO, Has, refined
from meaning.verifier import OF_DECLARATIONS, Refusal, Search

# So many places of one instruction are mended.
MOST = 12


class Mending(Search):
    """A refused instruction leads on with the register at fault as it should have been."""

    def led(self, place, state):
        given, image, one = state, self.image, self.image.code[place]
        for _ in range(MOST):
            try:
                led = edges(image, self.bounds, place, given)
                return [(target, restored(state, given, after)) for target, after in led]
            except Refused as refused:
                self.refuse(Refusal(place, refused.cause, refused.register, state))
                if refused.cause in OF_DECLARATIONS and image.memory != self.amended.memory:
                    image = replace(image, needs=self.amended.needs, memory=self.amended.memory)
                    continue
                if refused.register is None and refused.cause in ("WrongKind", "LacksRight"):
                    image = with_array(image, one)
                    continue
                value = mended(one, refused, given)
                if value is None or value == given[refused.register]:
                    return []
                given = refined(given, refused.register, value)
        return []


def with_array(image, one):
    """The image with the slot array of a call as it should be."""
    slots = list(image.slots)
    slots[one.number] = None, slots[one.number][1], RIGHTS["TRANSFER"] if one.row.is_from_slots else 0
    return replace(image, slots=tuple(slots))


def mended(one, refused, state):
    """What the register should have, as far as that can be told."""
    if refused.register is None or one.row is None:
        return None
    value = state[refused.register]
    if refused.cause == "Leak":
        return ZERO
    if refused.cause == "NotWord":
        return ANYTHING
    if refused.cause == "MemoryRange":
        return ZERO
    if refused.cause == "NotLive" and isinstance(value, Has):
        return Has(False, value.kind, value.rights)
    if refused.cause not in ("NotLive", "WrongKind", "LacksRight"):
        return None
    wanted = [kinds for number, (kinds, _), _ in one.handle_places if one.operands[number] == refused.register]
    if not wanted:
        return ZERO
    kind = value.kind if isinstance(value, Has) and refused.cause == "LacksRight" else None
    return Has(False, wanted[0][0] if wanted[0] else kind, KNOWN_RIGHTS)


def restored(state, given, after):
    """What was mended of a register that the instruction leaves alone is forgotten behind it, but for a handle that
    was perhaps 0: its author would have tested it."""
    registers = [n for n, value in enumerate(given) if value != state[n] and after[n] == value
                 and not (isinstance(state[n], Has) and value == Has(False, state[n].kind, state[n].rights))]
    for n in registers:
        after = refined(after, n, state[n])
    return after


def all_refusals(image):
    """What is known of a program that has instructions, with all places at which it is refused."""
    found = Mending(image).solve()
    found.steps = steps_of(image, found.leads)
    over = [place for place in sorted(found.leads) if found.steps.get(place, image.budget + 1) > image.budget]
    if over:
        found.refusals.append(Refusal(over[0], "Budget"))
    return found
