"""Inputs of the cases and examples, and changes of them by chance: for tests/fuzz."""
import re
from dataclasses import dataclass, field
from pathlib import Path

from meaning.image import MAGIC, VERSIONS
from meaning.instructions import BY_OPCODE
from meaning.scenario import is_scenario, without_turns
from meaning.texts import TextFault, assembled
from runs import whole_trace

TOP = Path(__file__).resolve().parent.parent
FOLDERS = ("examples", "tests/cases", "tests/hints", "tests/tools")
NO_INPUTS = (".args", ".stdout", ".stderr", ".last", ".end", ".refused")
# Larger inputs are left out: what is slow is timed by bench.
MOST_BYTES = 20_000
NUMBERS = (0, 1, 2, 3, 4, 7, 8, 9, 15, 16, 31, 32, 63, 64, 65, 127, 128, 255, 256, 257, 1000, 1024, 4095, 4096, 4097,
           65_535, 65_536, 65_537, 1_000_000, 1_000_001, 2**31, 2**32 - 1, 2**32, 2**63, 2**64 - 1, 2**64)
# Bytes that a text rarely has in the right place.
LETTERS = b"\0\t\r\n #;:,.*-_+@~\x7f\x80\xff09rRx"
HEADER, DECLARATION, INSTRUCTION = 20, 8, 16


@dataclass
class Corpus:
    """Inputs by what they are, all bytes; the schedules and traces stand with their scenarios."""

    images: list = field(default_factory=list)
    texts: list = field(default_factory=list)
    scenarios: list = field(default_factory=list)
    traces: list = field(default_factory=list)
    words: list = field(default_factory=list)


def blocks_in(scenario, form):
    """The blocks of programs of a form in a scenario."""
    return re.findall(rf"^ *program +\w+ +{form} *\n(.*?)^ *end *$", scenario, re.MULTILINE | re.DOTALL)


def image_of(text):
    """The image of a text, if the assembler of tools/meaning takes it."""
    try:
        return assembled(text)
    except (TextFault, ValueError, OverflowError):
        return None


def corpus():
    """All inputs of the cases and examples."""
    found, words = Corpus(), set()
    for path in sorted(path for name in FOLDERS for path in (TOP / name).rglob("*")):
        if not path.is_file() or path.suffix in NO_INPUTS or path.name == "README.md" \
                or path.stat().st_size > MOST_BYTES:
            continue
        content = path.read_bytes()
        text = content.decode("latin-1")
        words.update(re.findall(r"[^ ,\n]+", text))
        if path.suffix == ".zasm":
            found.texts.append(content)
        elif is_scenario(content):
            add_scenario(found, path, text)
    found.texts = sorted(set(found.texts))
    images = (image_of(text.decode("latin-1")) for text in found.texts)
    found.images = sorted({*found.images, *(image for image in images if image)})
    found.words = sorted(word for word in words if len(word) < 40)
    return found


def add_scenario(found, path, text):
    """A scenario, its programs, and its trace if it has one."""
    found.scenarios.append(text.encode("latin-1"))
    found.texts += [block.encode("latin-1") for block in blocks_in(text, "asm")]
    for block in blocks_in(text, "hex"):
        digits = re.sub(r"#.*|\s", "", block)
        if re.fullmatch("(?:[0-9a-f]{2})+", digits):
            found.images.append(bytes.fromhex(digits))
    written = path.with_name(path.name + ".stdout")
    if written.exists() and written.stat().st_size <= MOST_BYTES and whole_trace(written.read_text("latin-1")):
        found.traces.append((without_turns(text).encode("latin-1"), written.read_bytes()))


def changed_bytes(chance, content):
    """One change of some bytes."""
    content = bytearray(content)
    at = chance.randrange(len(content) + 1)
    upto = min(len(content), at + chance.choice((1, 2, 4, 8, 16, 40)))
    kind = chance.randrange(6)
    if kind == 0 and at < len(content):
        content[at] = chance.choice((0, 1, 2, 8, 31, 32, 127, 128, 254, 255, chance.randrange(256)))
    elif kind == 1 and at < len(content):
        content[at] ^= 1 << chance.randrange(8)
    elif kind == 2:
        del content[at:upto]
    elif kind == 3:
        content[at:at] = content[at:upto]
    elif kind == 4:
        content[at:at] = bytes(chance.randrange(256) for _ in range(chance.choice((1, 2, 8))))
    else:
        content = content[:at] if chance.random() < 0.3 else content
    return bytes(content)


def changed_instruction(chance, image, at):
    """Another opcode, register, number or target of the instruction at this place, mostly one that it has."""
    row = BY_OPCODE.get(image[at])
    used = len(row.fields) if row and chance.random() < 0.9 else 7
    kind = chance.randrange(4)
    if kind == 0:
        same = [other.opcode for other in BY_OPCODE.values() if row and
                (len(other.fields), other.ending) == (len(row.fields), row.ending)]
        image[at] = chance.choice(same) if same and chance.random() < 0.8 else chance.randrange(256)
    elif kind < 3 and used:
        image[at + chance.randint(1, used)] = chance.choice((0, 1, 2, 3, 4, 5, 31, 32, chance.randrange(32)))
    elif row and row.ending == "l":
        image[at + chance.randrange(8, 16)] = chance.choice((0, 2, 3, 31, 32, 255, 255))
    else:
        place = at + (12 if row and row.has_target and chance.random() < 0.5 else 8)
        small = chance.randrange(max(len(image) // INSTRUCTION, 1))
        image[place:place + 4] = (chance.choice((*NUMBERS, small, small, small)) % 2**32).to_bytes(4, "little")


def pair_blocks(image):
    """Lets each rep and its endrep lead to each other, where they nest."""
    begin, reps = HEADER + DECLARATION * (image[17] + image[18]), []
    for at in range(begin, len(image) - INSTRUCTION + 1, INSTRUCTION):
        row = BY_OPCODE.get(image[at])
        if row and row.name == "rep":
            reps.append(at)
        elif row and row.name == "endrep" and reps:
            for one, other in [(at, reps[-1]), (reps.pop(), at)]:
                image[one + 12:one + 16] = ((other - begin) // INSTRUCTION).to_bytes(4, "little")


def changed_image(chance, found):
    """An image with some fields changed; most have as many instructions as their header says."""
    image = bytearray(chance.choice(found.images))
    for _ in range(chance.choice((1, 1, 2, 3, 6))):
        begin = min(HEADER + DECLARATION * (image[17] + image[18]), len(image)) if len(image) >= HEADER else 0
        at = begin + INSTRUCTION * chance.randrange(max((len(image) - begin) // INSTRUCTION, 1))
        kind = chance.randrange(10)
        if kind == 0:
            image = bytearray(changed_bytes(chance, image))
        elif kind == 1 and image:
            image[chance.randrange(len(image))] = chance.choice((0, 1, 2, 5, 8, 16, 31, 32, 255))
        elif kind == 2:
            del image[at:at + INSTRUCTION]
        elif kind == 3:
            # an instruction of another image
            other = chance.choice(found.images)
            place = len(other) - INSTRUCTION * chance.randrange(1, 8)
            image[at:at] = other[place:place + INSTRUCTION] if place >= HEADER else b""
        elif kind == 4 and len(image) >= HEADER:
            image[chance.randrange(4, HEADER)] = chance.choice((0, 1, 2, 8, 16, 27, 255))
        elif len(image) >= at + INSTRUCTION:
            changed_instruction(chance, image, at)
    if chance.random() < 0.8 and len(image) >= HEADER:
        image[:5] = MAGIC + bytes([chance.choice(VERSIONS)])
        count = max(len(image) - HEADER - DECLARATION * (image[17] + image[18]), 0) // INSTRUCTION
        image[6:8] = (count % 2**16).to_bytes(2, "little")
        if chance.random() < 0.5:
            pair_blocks(image)
    return bytes(image)


def changed_words(chance, line, words):
    """A line with one word or number changed."""
    parts = re.split(r"([ ,:]+)", line)
    at = chance.randrange(len(parts))
    if re.fullmatch(r"-?\d+", parts[at]) and chance.random() < 0.7:
        parts[at] = str(chance.choice((*NUMBERS, int(parts[at][-9:]) + 1, max(int(parts[at][-9:]) - 1, 0))))
    elif re.fullmatch(r"r\d+", parts[at]) and chance.random() < 0.8:
        parts[at] = f"r{chance.choice((0, 1, 2, 3, 4, 5, 31, 32, chance.randrange(32)))}"
    elif chance.random() < 0.2:
        parts[at] = ""
    else:
        parts[at] = chance.choice(words)
    return "".join(parts)


def changed_text(chance, content, others, words):
    """A text with some lines, words or bytes changed; others are texts of its sort."""
    for _ in range(chance.choice((1, 1, 1, 2, 3, 5))):
        lines = content.decode("latin-1").split("\n")
        at, other = chance.randrange(len(lines)), chance.randrange(len(lines))
        kind = chance.randrange(10)
        if kind == 0:
            del lines[at:at + chance.choice((1, 1, 1, 3))]
        elif kind == 1:
            lines[at:at] = lines[other:other + chance.choice((1, 1, 3))]
        elif kind == 2:
            lines[at], lines[other] = lines[other], lines[at]
        elif kind in (3, 4):
            given = chance.choice(others).decode("latin-1").split("\n")
            place = chance.randrange(len(given))
            lines[at:at] = given[place:place + chance.choice((1, 1, 2, 6))]
        elif kind < 9:
            lines[at] = changed_words(chance, lines[at], words)
        content = "\n".join(lines).encode("latin-1")
        if kind == 9:
            content = changed_letters(chance, content)
    return content


def changed_letters(chance, content):
    """A text with a byte more, less or changed."""
    at = chance.randrange(len(content) + 1)
    letter = bytes([chance.choice(LETTERS)])
    kind = chance.randrange(4)
    if kind == 0:
        return content[:at] + letter + content[at:]
    if kind == 1:
        return content[:at] + letter + content[at + 1:]
    if kind == 2:
        return content[:at] + content[at + 1:]
    return changed_bytes(chance, content)
