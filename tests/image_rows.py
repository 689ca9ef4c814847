"""Changed images, as the files of tests/images have them.

Such a file has an image in hexadecimal digits and, below an empty line, rows of what is wrong with it in words, the
bytes that are changed for it, each as OFFSET=BYTE, a colon, and what the command check says then. A line behind a row,
with four spaces in front, has what standard error says of it, between the cause and the page.
"""
import re
from pathlib import Path


def said_of(answer, told):
    """What standard error says beside an answer of the command check, if it is known."""
    word, *fault = answer.split()
    if word == "accepted":
        return b""
    head, page = fault[0], "refusals.md#images"
    if word == "refused":
        head, page = f"instruction {fault[0]}: {fault[1]}", f"CHECK.md#{fault[1].lower()}"
    return f"zlab: {head}: {told} (docs/{page})\n".encode() if told else None


def rows():
    """The rows, each with its image, its answer, and what standard error says beside it or None."""
    for path in sorted((Path(__file__).parent / "images").glob("*.rows")):
        block, lines = path.read_text().split("\n\n")
        image = bytes.fromhex(re.sub("#.*", "", block))
        for row, told in re.findall(r"^(\S.*)\n(?:    (.*)\n)?", lines, re.MULTILINE):
            changed = bytearray(image)
            for offset, byte in re.findall(r"(\d+)=(\w+)", row):
                changed[int(offset)] = int(byte, 16)
            answer = row.split(": ")[1]
            yield row, changed, answer, said_of(answer, told)
