"""Objects of each kind, what lies in their queues, and processes with their handles.

All but a process is a value that never changes, so that worlds can share it.
"""
from typing import NamedTuple

from meaning.cpu import Cpu
from meaning.numbers import DEFAULT_RIGHTS

# Objects of these kinds are made two at a time, each the other's peer.
PAIRS = ("channel", "eventpair")


class Entry(NamedTuple):
    """What a handle is: an object and rights."""

    koid: int
    kind: str
    rights: int


def first_entry(koid, kind):
    return Entry(koid, kind, DEFAULT_RIGHTS[kind])


class Sent(NamedTuple):
    """Whose item it was in which something was sent, the item's place in a trace, and which packet of it."""

    by: int
    place: int
    number: int


class Wait(NamedTuple):
    """A registered wait: whose handle watches which object, and where its packet goes."""

    pid: int
    value: int
    koid: int
    kind: str
    port: int
    key: int
    mask: int


class Packet(NamedTuple):
    """A packet; one of a wait has that wait."""

    key: int
    type: int
    value: int
    observed: int
    wait: Wait | None
    sent: Sent | None

    @property
    def fields(self):
        return self[:4]


class Message(NamedTuple):
    """What lies in the queue of a channel's end."""

    content: bytes
    entries: tuple
    sent: Sent | None


class Awaited(NamedTuple):
    """What a blocked process waits for: signals of an object, or, without a mask, a packet of a port.
    `registers` get the answer: the status first."""

    koid: int
    mask: int | None
    registers: tuple


class Object(NamedTuple):
    """An object, with what is raised at it by calls; each kind has fields of its own."""

    kind: str
    raised: int = 0
    # of an end of a channel or an event pair: the other end
    peer: int = 0
    # of an end of a channel: the messages to be read there
    queue: tuple = ()
    # of a port
    packets: tuple = ()
    # of a job or a process: the job in which it is
    job: int = 0
    # of a job: the policy as pairs of a condition and an action
    depth: int = 0
    policy: tuple = ()
    is_killed: bool = False


class Process:
    """A process: its state, the code of its end, and its handles by their values, of which the one freed last is
    given first."""

    __slots__ = ("program", "state", "code", "cpu", "handles", "freed", "awaits")

    def __init__(self, program, image):
        self.program = program
        self.state, self.code = "created", 0
        self.cpu = Cpu(image)
        self.handles, self.freed = {}, []
        # what it waits for while it is blocked
        self.awaits = None

    def copy(self):
        """One that changes by itself; one that is over never does."""
        if not self.lives:
            return self
        new = object.__new__(Process)
        new.program, new.state, new.code, new.awaits = self.program, self.state, self.code, self.awaits
        new.cpu, new.handles, new.freed = self.cpu.copy(), self.handles.copy(), self.freed[:]
        return new

    def parts(self):
        """All of it that counts for what comes, as one value that can be compared."""
        if not self.lives:
            return self.state, self.code
        return (self.program, self.state, self.cpu.parts(), tuple(sorted(self.handles.items())), tuple(self.freed),
                self.awaits)

    @property
    def lives(self):
        return self.state in ("created", "ready", "blocked")

    def insert(self, entry):
        """The value of the new handle."""
        value = self.freed.pop() if self.freed else len(self.handles) + 1
        self.handles[value] = entry
        return value

    def end(self, code):
        self.state, self.code = "ended", code
        self.handles, self.freed, self.awaits = {}, [], None

    def state_text(self):
        return f"ended {self.code}" if self.state == "ended" else self.state
