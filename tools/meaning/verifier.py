"""The search for what is known before each instruction, in the lab's order, and the count of a budget.

The lab stops at the first refusal. This search goes on without the edges of what is refused, so that the
rest of the program is shown too; the first refusal is the answer.
"""
from dataclasses import dataclass, field, replace

from meaning.numbers import NEEDS
from meaning.rules import Refused, edges, target_of
from meaning.steps import steps_of
from meaning.values import bounds_of, join, start_state

# What says nothing of registers: a line that is missing, and too little memory.
OF_DECLARATIONS = ("UndeclaredNeed", "MemoryRange")


@dataclass(frozen=True)
class Refusal:
    """Why and where a program is refused, with the register at fault if it is one. `other` is the state
    that can't come to where `state` is known."""

    at: int
    cause: str
    register: int | None = None
    state: tuple = ()
    other: tuple = ()

    def __str__(self):
        return f"refused {self.at} {self.cause}"


@dataclass
class Found:
    """What is known: where blocks begin, the state before each instruction that is reached, where each
    leads by what is known, the refusals in the order in which they were met, and the numbers of steps."""

    image: object
    blocks: set = field(default_factory=set)
    states: dict = field(default_factory=dict)
    leads: dict = field(default_factory=dict)
    refusals: list = field(default_factory=list)
    steps: dict = field(default_factory=dict)

    @property
    def verdict(self):
        return str(self.refusals[0]) if self.refusals else "accepted"


class Search:
    """States at the first instruction of each block, and those that rose since they were looked at."""

    def __init__(self, image):
        self.image = image
        self.bounds = bounds_of(image)
        self.amended = replace(image, needs=tuple(NEEDS), memory=1 << 70)
        length = len(image.code)
        # where a block begins: at the start, and wherever an instruction may jump
        self.blocks = {target for one in image.code if (target := target_of(one)) is not None and target < length} | {0}
        self.found = Found(image, self.blocks)
        self.known = {0: start_state(image)}
        self.waiting = {0}

    def refuse(self, refusal):
        if all((refusal.at, refusal.cause) != (one.at, one.cause) for one in self.found.refusals):
            self.found.refusals.append(refusal)

    def raise_to(self, place, state):
        """A state comes to the first instruction of a block."""
        known = self.known.get(place)
        both, register = (state, None) if known is None else join(known, state)
        if both is None:
            self.refuse(Refusal(place, "JoinConflict", register, known, state))
        elif both != known:
            self.known[place] = both
            self.waiting.add(place)

    def run(self, place):
        """The instructions of a block, from its first one on."""
        state = self.known[place]
        while state is not None:
            self.found.states[place] = state
            led = self.led(place, state)
            self.found.leads[place] = [target for target, _ in led]
            state = None
            for target, after in led:
                if target in self.blocks:
                    self.raise_to(target, after)
                else:
                    state = after
            place += 1

    def led(self, place, state):
        """Where an instruction leads. What is refused leads nowhere, unless a declaration mends it."""
        try:
            return edges(self.image, self.bounds, place, state)
        except Refused as refused:
            self.refuse(Refusal(place, refused.cause, refused.register, state))
            if refused.cause not in OF_DECLARATIONS:
                return []
        try:
            return edges(self.amended, self.bounds, place, state)
        except Refused as refused:
            self.refuse(Refusal(place, refused.cause, refused.register, state))
            return []

    def solve(self):
        while self.waiting:
            place = min(self.waiting)
            self.waiting.discard(place)
            self.run(place)
        return self.found


def verify(image):
    """What is known of a program, and whether it is accepted."""
    if not image.code:
        return Found(image, refusals=[Refusal(0, "FallsOff")])
    found = Search(image).solve()
    found.steps = steps_of(image, found.leads)
    over = [place for place in sorted(found.leads) if found.steps.get(place, image.budget + 1) > image.budget]
    if over and not found.refusals:
        found.refusals.append(Refusal(over[0], "Budget"))
    return found
