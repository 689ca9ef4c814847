"""The table of the instructions: decoder, texts, model and verifier read it."""
from dataclasses import dataclass
from pathlib import Path

from meaning.numbers import RIGHTS

TABLE = Path(__file__).with_name("instructions.txt")
# What an instruction does with a register: it is written, read as a number, names a handle, names one
# that is gone afterwards, or is the first of those that get the handles of a message.
WRITTEN, READ, HANDLE, CONSUMED, FIRST = "wrhcf"
USES = {"writes": WRITTEN, "reads": READ, "changes": WRITTEN, "names": HANDLE, "consumes": CONSUMED,
        "closes": CONSUMED, "triples": FIRST}
ENDINGS = {"": "", "number": "n", "target": "t", "number, target": "nt", "handles": "l", "room": "m",
           "from slots": "g", "into slots": "k"}


@dataclass(frozen=True)
class Row:
    """An instruction: what it does with each register, and what stands behind the registers."""

    opcode: int
    name: str
    fields: str
    # "" for nothing, "n" a number, "t" a target, "nt" both, "l" a list of handles, "m" room for some, "g" and "k" a slot
    # array that gives handles, or keeps those that come
    ending: str = ""
    # of each handle the kinds that will do, none for any, and the right that it needs
    wants: tuple = ()
    # the condition of a policy
    condition: str | None = None
    # whether memory may be refused
    grows: bool = False
    # what a call gives behind the status, with the kinds of handles to new objects
    gives: tuple = ()
    # the first version of an image that knows it
    version: int = 1

    @property
    def is_call(self):
        return self.opcode >= 64

    @property
    def has_target(self):
        return "t" in self.ending

    @property
    def is_of_blocks(self):
        """Whether a counted block begins or ends with it."""
        return self.name in ("rep", "endrep")

    @property
    def is_jump(self):
        return self.has_target and not self.is_of_blocks

    @property
    def has_number(self):
        return self.ending in ("n", "nt", "m", "g", "k")

    @property
    def handles_given(self):
        """The places of handles among the registers that it writes; those of a message stand at each third one."""
        what, *kinds = self.gives or ("nothing",)
        return {"copies": (1,), "makes": range(1, len(kinds) + 1), "sizes": range(3, 27, 3)}.get(what, ())

    @property
    def is_from_slots(self):
        """Whether handles go from as many of the first places of its slot array as its fifth register says."""
        return self.ending == "g"

    @property
    def is_into_slots(self):
        """Whether handles that come go to the first places of its slot array."""
        return self.ending == "k"

    @property
    def has_array(self):
        """Whether it is a call with a slot array."""
        return self.is_from_slots or self.is_into_slots

    @property
    def has_range(self):
        """Whether its third and fourth register are an address and a length."""
        return self.ending in ("l", "m", "g", "k")


def wanted(kinds="any", right="-"):
    """What is wanted of a handle, by the words of the table."""
    return () if kinds == "any" else tuple(kinds.split("/")), RIGHTS.get(right, 0)


def row_in(line):
    """The row of a line of the table."""
    opcode, name, uses, ending, condition, grows, gives, version = (line.split(" | ") + [""] * 8)[:8]
    ending, _, listed = ending.partition(", each ")
    words = [use.split() for use in [*uses.split(", "), listed] if use]
    wants = tuple(wanted(*use[1:]) for use in words if USES[use[0]] in (HANDLE, CONSUMED))
    fields = "".join(USES[use[0]] for use in words[:len(words) - bool(listed)])
    return Row(int(opcode), name, fields, ENDINGS[ending], wants, condition or None, bool(grows), tuple(gives.split()),
               int(version.removeprefix("version ") or 1))


ROWS = [row_in(line) for line in TABLE.read_text().splitlines() if not line.startswith("#")]
BY_NAME = {row.name: row for row in ROWS}
BY_OPCODE = {row.opcode: row for row in ROWS}


def row_at(version, opcode):
    """The row of this opcode in an image of this version, if it is known there."""
    row = BY_OPCODE.get(opcode)
    return row if row and row.version <= version else None


# At these the count of instructions begins anew.
PAUSES = ("wait_one", "port_wait", "process_exit")


def handle_places(one, given=0):
    """The places of handles among the operands, each with what is wanted of it and whether it goes. Behind those in
    registers come as many as a slot array gives."""
    places = [place for place, use in enumerate(one.row.fields) if use in (HANDLE, CONSUMED)]
    found = [(place, want, one.row.fields[place] == CONSUMED) for place, want in zip(places, one.row.wants)]
    first = len(one.row.fields)
    found += [(first + n, one.row.wants[1], True) for n in range(len(one.handles) + given)]
    return found
