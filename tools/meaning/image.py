"""Images: the bytes of a program read into its parts, and their faults by the names of docs/IMAGE.md."""
import re
from dataclasses import dataclass
from functools import cached_property

from meaning.blocks import first_breach
from meaning.instructions import PAUSES, WRITTEN, Row, handle_places, row_at
from meaning.numbers import DEFAULT_RIGHTS, KIND_NAMES, KINDS, KNOWN_RIGHTS, NEEDS

MAGIC = b"ZLAB"
VERSIONS = (1, 2)
MOST_BYTES = 65676
MOST_BUDGET = 1_000_000
NO_REGISTER = 0xFF


class ImageFault(Exception):
    """Bytes that are no image, with the name of their fault."""


@dataclass(frozen=True)
class Instruction:
    """An instruction. One with an unknown opcode has its bytes alone."""

    row: Row | None
    content: bytes
    registers: tuple = ()
    number: int = 0
    target: int = 0
    handles: tuple = ()

    @cached_property
    def name(self):
        return self.row.name if self.row else ".bytes"

    @cached_property
    def is_call(self):
        return self.row is not None and self.row.is_call

    @property
    def is_pause(self):
        return self.name in PAUSES

    @cached_property
    def operands(self):
        """All its registers in the order of the text."""
        return self.registers + self.handles

    @cached_property
    def has_range(self):
        """Whether its third and fourth register are an address and a length."""
        return self.row is not None and self.row.has_range

    @cached_property
    def handle_places(self):
        return handle_places(self)

    @cached_property
    def consumed(self):
        """The places of the operands that are gone behind it."""
        return [place for place, _, goes in self.handle_places if goes]

    @cached_property
    def written(self):
        """The registers that it writes."""
        registers = [register for register, use in zip(self.registers, self.row.fields) if use == WRITTEN]
        if self.name == "chan_read_etc":
            registers += range(self.registers[6], self.registers[6] + 3 * self.number)
        return tuple(registers)


@dataclass(frozen=True)
class Image:
    """A program. Starts are pairs of a kind and rights, slots have a length between the two; the kind is
    None for any."""

    version: int
    raw: bool
    memory: int
    budget: int
    needs: tuple
    starts: tuple
    slots: tuple
    code: tuple


def number_at(content, place, length=4):
    return int.from_bytes(content[place:place + length], "little")


def decode(content):
    """The image of these bytes, or an ImageFault with the first fault."""
    if len(content) < 20:
        raise ImageFault("Short")
    if content[:4] != MAGIC:
        raise ImageFault("Magic")
    if content[4] not in VERSIONS:
        raise ImageFault("Version")
    raw, length, memory = content[5], number_at(content, 6, 2), number_at(content, 8)
    budget, needs, starts, slots = number_at(content, 12), content[16], content[17], content[18]
    if (raw > 1 or length > 4096 or memory > 65536 or not 1 <= budget <= MOST_BUDGET
            or needs & ~sum(NEEDS.values()) or starts > 7 or slots > 8 or content[19]):
        raise ImageFault("BadHeader")
    places = [20 + 8 * n for n in range(starts + slots)]
    begin = 20 + 8 * len(places)
    if len(content) != begin + 16 * length:
        raise ImageFault("Length")
    image = Image(
        version=content[4], raw=raw == 1, memory=memory, budget=budget,
        needs=tuple(name for name, bit in NEEDS.items() if needs & bit),
        starts=tuple(start_in(content[place:place + 8]) for place in places[:starts]),
        slots=tuple(slots_in(content[place:place + 8]) for place in places[starts:]),
        code=tuple(instruction_in(content[at:at + 16], raw == 1, content[4])
                   for at in range(begin, len(content), 16)))
    if first_breach(image.code) is not None:
        raise ImageFault("BadBlock")
    return image


def declared(content):
    """Kind and rights of a declaration."""
    rights = number_at(content, 4)
    kind = KIND_NAMES.get(content[0])
    allowed = DEFAULT_RIGHTS[kind] if kind else KNOWN_RIGHTS
    if (content[0] and kind is None) or content[1] or rights & ~allowed:
        raise ImageFault("BadHeader")
    return kind, rights


def start_in(content):
    if content[2] or content[3]:
        raise ImageFault("BadHeader")
    return declared(content)


def slots_in(content):
    kind, rights = declared(content)
    length = number_at(content, 2, 2)
    if not 1 <= length <= 256:
        raise ImageFault("BadHeader")
    return kind, length, rights


def instruction_in(content, raw, version):
    """The instruction of these 16 bytes."""
    row = row_at(version, content[0])
    if row is None:
        if not raw:
            raise ImageFault("UnknownOp")
        return Instruction(None, bytes(content))
    used = len(row.fields)
    registers = tuple(content[1:1 + used])
    number, target, handles = number_at(content, 8), number_at(content, 12), content[8:16]
    listed = handles[:handles.index(NO_REGISTER)] if NO_REGISTER in handles else handles
    if has_bad_register(row, content[1:8], registers, number, handles):
        raise ImageFault("BadRegister")
    if any(content[1 + used:8]) or has_unused(row, number, target, handles, len(listed)):
        raise ImageFault("UnusedField")
    if row.ending == "l":
        return Instruction(row, bytes(content), registers, handles=tuple(listed))
    return Instruction(row, bytes(content), registers, number, target)


def has_bad_register(row, given, registers, number, handles):
    # also one that the instruction does not use
    if any(register > 31 for register in given):
        return True
    if row.ending == "l":
        return any(31 < register != NO_REGISTER for register in handles)
    return row.ending == "m" and (number > 8 or registers[-1] + 3 * number > 32)


def has_unused(row, number, target, handles, listed):
    """Whether something behind the registers isn't 0 that the row doesn't use."""
    if row.ending == "l":
        return any(register != NO_REGISTER for register in handles[listed:])
    return bool((number and not row.has_number) or (target and not row.has_target))


def encode(image):
    """The bytes of an image."""
    def little(number, length=4):
        return number.to_bytes(length, "little")

    def declaration(kind, length, rights):
        return little(KINDS[kind] if kind else 0, 2) + little(length, 2) + little(rights)

    needs = sum(NEEDS[need] for need in image.needs)
    header = (MAGIC + bytes([image.version, image.raw]) + little(len(image.code), 2) + little(image.memory)
              + little(image.budget) + bytes([needs, len(image.starts), len(image.slots), 0]))
    declarations = [declaration(kind, 0, rights) for kind, rights in image.starts]
    declarations += [declaration(*slots) for slots in image.slots]
    return header + b"".join(declarations) + b"".join(encoded(one) for one in image.code)


def encoded(one):
    """The 16 bytes of an instruction."""
    if one.row is None:
        return one.content
    first = bytes([one.row.opcode, *one.registers]).ljust(8, b"\0")
    if one.row.ending == "l":
        return first + bytes(one.handles).ljust(8, b"\xff")
    return first + one.number.to_bytes(4, "little") + one.target.to_bytes(4, "little")


def of_digits(text):
    """The bytes that a block of digits spells; spaces and ends of lines don't count."""
    digits = re.sub(r"[ \n]", "", text)
    if not re.fullmatch(r"(?:[0-9a-fA-F]{2})*", digits):
        raise ImageFault("Short")
    return bytes.fromhex(digits)
