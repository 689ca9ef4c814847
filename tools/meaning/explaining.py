"""The parts of docs/CHECK.md and docs/refusals.md that speak of a cause or a fault, for a terminal."""
import re

from meaning.trouble import Trouble
from programs import page

WIDTH = 100
# The part of docs/TOOLS.md about what tools/lint calls Names.
NAMES = "Names in place of numbers"


def sections(name):
    """The headings of the second and third level of a page, with the lines below each."""
    try:
        lines = page(f"docs/{name}").read_text().splitlines()
    except OSError as error:
        raise Trouble(f"can't read {page(f'docs/{name}')}: {error.strerror}") from error
    found = []
    for line in lines:
        if re.match(r"##+ ", line):
            found.append((line.lstrip("# "), []))
        elif found:
            found[-1][1].append(line)
    return found


def anchor(heading):
    return re.sub(r"[^\w\- ]", "", heading.lower()).replace(" ", "-")


def causes():
    """Why the verifier refuses a program: the name, where its part stands, and its lines."""
    found = sections("CHECK.md")
    start = next(n for n, (heading, _) in enumerate(found) if heading == "Causes")
    for heading, lines in found[start + 1:]:
        if re.fullmatch(r"[A-Z]\w+", heading):
            yield heading, f"docs/CHECK.md#{anchor(heading)}", lines


def faults():
    """Why an input is refused: the same, by the rows in which a name begins."""
    for heading, lines in sections("refusals.md"):
        name, rows = None, []
        for line in [*lines, "| **Nothing**:"]:
            if begins := re.match(r"\| \*\*(\w+)\*\*: ?", line):
                if name:
                    yield name, f"docs/refusals.md#{anchor(heading)}", rows
                name, rows = begins[1], ["| " + line[begins.end():]]
            elif name and line.startswith("|"):
                rows.append(line)


def parts():
    """All parts, by the names of what they speak of."""
    found = {}
    names = dict(sections("TOOLS.md"))[NAMES]
    for name, place, lines in [*causes(), *faults(), ("Names", f"docs/TOOLS.md#{anchor(NAMES)}", names)]:
        found.setdefault(name, []).append((place, lines))
    return found


def plain(text):
    """A text of a page without its marks."""
    text = re.sub(r"\[([^\]]*)\]\([^)]*\)", r"\1", text)
    return text.replace("**", "").replace("`", "").replace("&lt;", "<")


def wrapped(text):
    """The text in lines of a width that a terminal has."""
    line = ""
    for word in text.split(" "):
        if line and len(line) + 1 + len(word) > WIDTH:
            yield line
            line = word
        else:
            line = f"{line} {word}" if line else word
    yield line


def row_lines(cells):
    """A row: what is wrong, the input with the answer, and the mended one."""
    yield f"  {plain(cells[0])}:" if cells[0] else "  or:"
    for number, cell in enumerate(cells[1:]):
        if cell.startswith("`"):
            # an input, its answer, the mended one, and perhaps its trace
            mark = "-- " if number % 2 else ""
            yield from (f"        {mark}{line}" for line in plain(cell).split(" / "))
        if number == 1:
            yield "    mended:"


def shown(lines):
    """The lines of a part, rows of tables as texts."""
    for line in lines:
        if re.match(r"\|(-+\|)+$", line) or line.startswith("| What is wrong"):
            continue
        if line.startswith("| "):
            yield from row_lines([cell.strip() for cell in line.strip("| ").split(" | ")])
        elif line.startswith("    "):
            yield line
        elif line:
            yield from wrapped(plain(line))
        else:
            yield ""


def text_of(name, found):
    """All that the pages say of it."""
    for number, (place, lines) in enumerate(found[name]):
        if number:
            yield ""
        yield f"{name} ({place})"
        yield ""
        yield from "\n".join(shown(lines)).strip("\n").split("\n")
