"""Texts of programs: their lines, and the image of one that the lab accepts.

A text with a fault is the lab's to refuse; here it is no more than a TextFault with its line.
"""
import re

from meaning.blocks import first_breach, paired
from meaning.image import Image, Instruction, encode
from meaning.instructions import BY_NAME, row_at
from meaning.numbers import KINDS, NEEDS

REGISTER = re.compile(r"r(?:[12]?[0-9]|3[01])")


class TextFault(Exception):
    """A line that isn't understood."""

    def __init__(self, line):
        super().__init__(line)
        self.line = line


def bare(line):
    """The line without its comment and the spaces at its ends."""
    return line.split(";", 1)[0].strip(" ")


def is_instruction(line):
    """Whether an instruction stands in the line."""
    text = bare(line)
    if not text or text.endswith(":"):
        return False
    return not text.startswith(".") or text.startswith(".bytes")


def words_of(line):
    """Name and operands of a line."""
    return [word for word in re.split(r"[ ,]+", bare(line)) if word]


def number(word):
    if re.fullmatch(r"[0-9]+", word):
        return int(word)
    if re.fullmatch(r"0x[0-9a-fA-F]+", word):
        return int(word, 16)
    raise ValueError(word)


def register(word):
    if not REGISTER.fullmatch(word):
        raise ValueError(word)
    return int(word[1:])


def instruction(version, words, labels):
    """The instruction of a line's words; a rep and an endrep aren't paired yet."""
    if words[0] == ".bytes":
        return Instruction(None, bytes.fromhex(words[1]))
    row = row_at(version, BY_NAME[words[0]].opcode)
    if row is None:
        raise ValueError(words[0])
    used = len(row.fields)
    registers = tuple(register(word) for word in words[1:1 + used])
    rest = words[1 + used:]
    if row.ending == "l":
        return Instruction(row, b"", registers, handles=tuple(register(word) for word in rest))
    value = number(rest.pop(0)) if row.has_number else 0
    target = 0
    if row.is_jump:
        word = rest.pop(0)
        target = labels[word] if word in labels else number(word)
    if rest or len(registers) < used:
        raise ValueError(words[0])
    return Instruction(row, b"", registers, value, target)


def kind_of(word):
    return None if word == "any" else word if word in KINDS else KINDS[word]


def assemble(lines):
    """The image of pairs of a number and a line, and the numbers of its instructions' lines."""
    single, needs, starts, slots = {}, set(), [], []
    labels, code, places = {}, [], []
    for place, line in lines:
        words = words_of(line)
        try:
            if not words:
                continue
            if bare(line).endswith(":"):
                labels[words[0][:-1]] = len(code)
            elif words[0] in (".version", ".raw", ".memory", ".budget"):
                single[words[0]] = number(words[1]) if words[1:] else True
            elif words[0] == ".need":
                needs.add(words[1])
            elif words[0] == ".start":
                starts.append((kind_of(words[1]), number(words[2])))
            elif words[0] == ".slots":
                slots.append((kind_of(words[1]), number(words[2]), number(words[3])))
            else:
                code.append(words)
                places.append(place)
        except (ValueError, KeyError, IndexError) as error:
            raise TextFault(place) from error
    version = single.get(".version", 1)
    code = paired(with_line(version, words, labels, place) for words, place in zip(code, places))
    if (breach := first_breach(code)) is not None:
        raise TextFault(places[breach])
    return Image(
        version=version, raw=".raw" in single, memory=single.get(".memory", 0),
        budget=single.get(".budget", 1),
        needs=tuple(need for need in NEEDS if need in needs), starts=tuple(starts), slots=tuple(slots),
        code=code,
    ), places


def assembled(text):
    """The bytes of the image of a whole text."""
    return encode(assemble([*enumerate(text.split("\n"), 1)])[0])


def with_line(version, words, labels, place):
    """The instruction, or a TextFault with its line."""
    try:
        return instruction(version, words, labels)
    except (ValueError, KeyError, IndexError) as error:
        raise TextFault(place) from error
