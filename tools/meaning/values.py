"""What the verifier knows of a register, and of all of them: docs/CHECK.md, once more and unproved."""
from bisect import bisect_left
from dataclasses import dataclass

from meaning.numbers import DEFAULT_RIGHTS, rights_text

ANY = (1 << 64) - 1
PLAIN_BOUNDS = (0, 30, 64, 255, 65536, 0xFFFFFFFF, ANY)


@dataclass(frozen=True)
class Word:
    """A number up to a bound."""

    bound: int

    def __str__(self):
        if self.bound == 0:
            return "0"
        return "any number" if self.bound == ANY else f"up to {self.bound}"


@dataclass(frozen=True)
class Has:
    """A handle, or `maybe` 0, of a kind or of any, with these rights at least."""

    maybe: bool
    kind: str | None
    rights: int

    def __str__(self):
        return f"{'0 or ' if self.maybe else ''}a handle ({self.kind or 'any'}, {rights_text(self.rights, self.kind)})"


@dataclass(frozen=True)
class KindOf:
    """The kind number of the handle in a register."""

    register: int

    def __str__(self):
        return f"the kind number of r{self.register}"


@dataclass(frozen=True)
class RightsOf:
    """The rights of the handle in a register."""

    register: int

    def __str__(self):
        return f"the rights of r{self.register}"


ZERO, ANYTHING = Word(0), Word(ANY)
TAGS = (KindOf, RightsOf)


def bounds_of(image):
    """The numbers to which a result is rounded up."""
    bounds = set(PLAIN_BOUNDS)
    for one in image.code:
        if one.row and one.row.has_number:
            bounds |= {one.number, max(one.number - 1, 0)}
    return sorted(bounds)


def rounded(bounds, number):
    return bounds[bisect_left(bounds, min(number, ANY))]


def new_handle(kind):
    return Has(True, kind, DEFAULT_RIGHTS[kind])


def joined(one, other):
    """The least value above both, or nothing."""
    if one == other:
        return one
    if isinstance(one, Has) and isinstance(other, Has):
        kind = one.kind if one.kind == other.kind else None
        return Has(one.maybe or other.maybe, kind, one.rights & other.rights)
    if isinstance(one, Has) or isinstance(other, Has):
        has, word = (one, other) if isinstance(one, Has) else (other, one)
        return Has(True, has.kind, has.rights) if word == ZERO else None
    if isinstance(one, Word) and isinstance(other, Word):
        return Word(max(one.bound, other.bound))
    return ANYTHING


def join(one, other):
    """The least state above both, and the register for which there is none."""
    values = [joined(*pair) for pair in zip(one, other)]
    if None in values:
        return None, values.index(None)
    return tuple(values), None


def refined(state, register, value):
    """More is known of a register."""
    return (*state[:register], value, *state[register + 1:])


def with_value(state, register, value):
    """The register is written, and no tag names it any more."""
    return tuple(ANYTHING if isinstance(one, TAGS) and one.register == register else one
                 for one in refined(state, register, value))


def start_state(image):
    """What a process of the program starts with."""
    state = refined((ZERO,) * 32, 1, ANYTHING)
    for register, (kind, rights) in zip((0, *range(2, 8)), image.starts):
        state = refined(state, register, Has(False, kind, rights))
    return state


def state_text(state, since=None):
    """The registers that aren't 0, or those that changed."""
    shown = [f"r{n}: {value}" for n, value in enumerate(state)
             if (value != since[n] if since else value != ZERO)]
    return ", ".join(shown)
