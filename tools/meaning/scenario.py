"""Scenarios: their programs, their statements and the lines of turns."""
import re
from dataclasses import dataclass, field

from meaning.image import Image, ImageFault, decode, of_digits
from meaning.listing import instruction_text, labels
from meaning.texts import TextFault, assemble, bare
from meaning.trouble import Trouble

MOST_BYTES = 4194304
BEGINS = ("program", "job", "policy", "event", "eventpair", "port", "channel", "process", "limit", "--")


@dataclass
class Program:
    """A program of a scenario. `texts` has the line of each instruction, `lines` the numbers of these
    lines in the file, where it is a text."""

    place: int
    is_checked: bool
    image: Image
    texts: list
    lines: list | None
    source: list


@dataclass
class Scenario:
    """What a scenario says: its programs, the statements, as pairs of a line's number and its words,
    and the number of the line `--`, if there is one."""

    programs: list = field(default_factory=list)
    statements: list = field(default_factory=list)
    turns_from: int | None = None

    @property
    def limit(self):
        """How many items its trace may have."""
        return next((int(words[1]) for _, words in reversed(self.statements) if words[0] == "limit"), 1000)


def words_of(line):
    """The words of a line; only spaces part them."""
    return [word for word in line.split(" ") if word]


def is_skipped(line):
    return line.startswith("#") or not words_of(line)


def is_scenario(content):
    """Whether the bytes of a file are a scenario, by its first word; else they may be a text."""
    for line in content.split(b"\n", 1000)[:1000]:
        words = line.split()
        if words and not line.startswith(b"#"):
            return words[0].decode("ascii", "replace") in BEGINS
    return False


def block_of(lines, first):
    """The lines of the block that begins here, with their numbers, and the number behind its end."""
    inside = []
    for place in range(first, len(lines)):
        if lines[place].strip(" ") == "end":
            return inside, place + 1
        if not lines[place].startswith("#"):
            inside.append((place + 1, lines[place]))
    raise Trouble(f"line {first} of the scenario: its block has no end")


def texts_in(image, places, inside):
    """The line of each instruction, as it is written or, of digits, as it would be laid out."""
    if places is None:
        names = labels(image)
        return [instruction_text(one, names) for one in image.code]
    by_place = dict(inside)
    return [bare(by_place[place]) for place in places]


def program_in(words, place, inside):
    """The program of a block."""
    try:
        if words[1:] in (["raw", "hex"], ["checked", "hex"]):
            image, places = decode(of_digits("".join(line for _, line in inside))), None
        elif words[1:] in (["raw", "asm"], ["checked", "asm"]):
            image, places = assemble(inside)
        else:
            raise Trouble(f"line {place} of the scenario: no program is {' '.join(words[1:])}")
    except ImageFault as fault:
        raise Trouble(f"line {place} of the scenario: its bytes are no image: {fault}") from fault
    except TextFault as fault:
        raise Trouble(f"line {fault.line} of the scenario isn't understood") from fault
    return Program(place, words[1] == "checked", image, texts_in(image, places, inside), places, inside)


def read_scenario(text):
    """The scenario of a text that the lab doesn't refuse."""
    lines = text.split("\n")
    scenario = Scenario()
    place = 0
    while place < len(lines):
        line = lines[place]
        place += 1
        if is_skipped(line):
            continue
        words = words_of(line)
        if words[0] == "--":
            scenario.turns_from = place
            break
        if words[0] == "program":
            begin = place
            inside, place = block_of(lines, place)
            scenario.programs.append(program_in(words, begin, inside))
        scenario.statements.append((place, words))
    return scenario


def without_turns(text):
    """The text up to its line `--`."""
    lines = text.split("\n")
    inside = False
    for place, line in enumerate(lines):
        if is_skipped(line):
            continue
        words = words_of(line)
        if inside:
            inside = words != ["end"]
        elif words[0] == "program":
            inside = True
        elif words == ["--"]:
            return "\n".join(lines[:place]) + "\n" if place else ""
    return text


def joined(turns, most=None):
    """Pairs of a process and its number of turns: those of one process in a row are one, of at most so many turns."""
    lines = []
    for pid, count in turns:
        if lines and lines[-1][0] == pid and (most is None or lines[-1][1] + count <= most):
            lines[-1] = (pid, lines[-1][1] + count)
        elif count:
            lines.append((pid, count))
    return lines


def schedule_text(turns):
    """The lines of turns, as the lab reads them."""
    return "".join(f"{pid} {count}\n" for pid, count in turns)


def handle_in(word):
    """Koid and rights of a handle; the rights are None for `*`."""
    found = re.fullmatch(r"([0-9]+):([0-9]+|\*)", word)
    if not found:
        raise Trouble(f"no handle is written {word}")
    return int(found[1]), None if found[2] == "*" else int(found[2])
