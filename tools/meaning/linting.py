"""All faults of a file at once: the lab's own first one of each program, and what it would find behind that.

The lab names one fault. Behind one of a text it is asked again, with that line left out; behind one of the
verifier the rules of tools/meaning go on as if that place were mended. So only the first one of a program is the lab's
own word, and the others are by the tools.
"""
import re
from dataclasses import dataclass

from meaning.cpu import WIDTHS
from meaning.image import MOST_BUDGET, decode
from meaning.mending import all_refusals
from meaning.numbers import RIGHTS, rights_text
from meaning.rules import target_of
from meaning.scenario import is_scenario, is_skipped, words_of
from meaning.texts import bare, is_instruction
from meaning.trouble import Trouble
from meaning.values import ANY, Has, Word
from meaning.verifier import verify
from programs import called

MOST_FAULTS = 100
SAID = re.compile(r"zlab: (?:line|instruction) ([0-9]+): (\w+): (.*?)(?: \((docs/[^)]*)\))?")
# What to do, where the lab hasn't said it.
CURES = {
    "NotLive": "what is closed, sent, replaced or taken leaves 0",
    "WrongKind": "test its kind number by jne, or ask for the kind by its .start line",
    "LacksRight": "test its rights by jnhas, or ask for the right by its .start line",
    "Leak": "close it first, or take it to another register",
    "NotWord": "take moves a handle, and mov a number",
    "MemoryRange": "bound it above by jge, or have more by .memory",
    "BadJump": "a label leads to an instruction behind it",
    "FallsOff": "process_exit or jmp has to be the last",
    "JoinConflict": "let both ways leave a handle or 0 in it",
    "UndeclaredNeed": "declare it by a line .need",
    "Budget": "a larger .budget, or a wait in the loop",
    "IllegalOp": "no instruction is so, whatever the registers hold",
}
# The same, where it is the places of a slot array that are too few.
PLACES_CURE = "bound it above by jge, or have more by .slots"
# How what to do ends where a handle may be 0.
NIL_TEST = " above it"
# Of these the tools' text says as much in fewer words.
SHORT = ("NotLive", "Budget", "UndeclaredNeed", "NotWord", "Leak")
WANTED = {"NotLive": "wants a handle", "WrongKind": "wants a handle of another kind", "LacksRight": "wants a right more",
          "Leak": "is written, and may have a handle", "NotWord": "is read as a number, and may have a handle",
          "MemoryRange": "may lead outside", "JoinConflict": "is a handle after one way only"}


@dataclass
class Fault:
    """A fault, at words of a line of the file."""

    file: str
    line: int
    column: int
    end: int
    cause: str
    text: str
    cure: str
    page: str
    by: str
    source: str = ""
    note: str = ""

    def lines(self):
        """What is printed of it."""
        yield f"{self.file}:{self.line}:{self.column}: {self.cause}: {self.text}"
        margin = len(str(self.line)) + 2
        if self.source.strip():
            yield f" {self.line} | {self.source}"
            yield f"{'|':>{margin + 1}}{' ' * self.column}{'^' * (self.end - self.column)} {self.note}".rstrip()
        cure = f"{self.cure} " if self.cure else ""
        yield f"{'=':>{margin + 1}} {cure}({called('tools/explain')} {self.cause})"

    def known(self):
        """Its parts, for other programs."""
        return {name: getattr(self, name) for name in ("file", "line", "column", "end", "cause", "text", "cure", "page", "by")}


def spans(text):
    """Where the words of a line stand, from its first column on."""
    return [found.span() for found in re.finditer(r"[^\s,]+", text.split(";", 1)[0])]


def span_of(text, number):
    """The columns of the word of this number, or of all words. Words that give a name don't count."""
    found = spans(text)
    given = [n for n, (first, last) in enumerate(found) if text[first:last] == "="]
    if number is not None and given and text.lstrip(" ").startswith("@"):
        number += given[0] + 1
    if not found:
        return 1, 2
    first, last = (found[0][0], found[-1][1]) if number is None or number >= len(found) else found[number]
    return first + 1, last + 1


class Linting:
    """The faults of one file. `source` has its lines, `origins` for each line of the lab's its place there, and `tell`
    tells the lines of which the lab speaks by these places."""

    def __init__(self, lab, path, source, origins, tell):
        self.lab, self.path, self.source, self.origins, self.tell = lab, path, source, origins, tell
        self.faults = []
        self.programs = 0

    def add(self, place, number, cause, text, cure, page, by, note=""):
        """A fault in a line of the lab's, at its word of this number."""
        line = self.origins[place - 1] if place <= len(self.origins) else place
        shown = self.source[line - 1] if 0 < line <= len(self.source) else ""
        column, end = span_of(shown, number)
        text, cure = self.tell(text), self.tell(cure)
        self.faults.append(Fault(self.path, line, column, end, cause, text, cure, page, by, shown, note))

    # ---- texts

    def program(self, lines, is_checked):
        """The faults of a program, of which the lines have their numbers."""
        self.programs += 1
        lines = [(place, line) for place, line in lines if not line.startswith("#")]
        gone, by = set(), "lab"
        while len(gone) < MOST_FAULTS:
            text = "".join(("" if place in gone else line) + "\n" for place, line in lines)
            said = []
            status, output = self.lab.answer(["asm", "/dev/stdin", "/dev/stdout"], text.encode("latin-1"), said=said)
            if status == 0:
                break
            at, cause, told, page = first_said(output, said)
            place, line = lines[at - 1] if 0 < at <= len(lines) else lines[-1] if lines else (1, "")
            if by == "lab" or not is_about(told, gone, dict(lines)):
                self.add(place, word_at_fault(line, told), cause, *parted(told), page or "docs/refusals.md", by)
            if place in gone:
                return
            gone.add(place)
            by = "tools"
        if not gone and is_checked:
            self.check(lines, output)

    def check(self, lines, image):
        """What the verifier refuses: first by the lab, then by the rules once more."""
        said = []
        status, output = self.lab.answer(["check", "/dev/stdin"], image, said=said)
        if status > 1:
            raise Trouble(f"the lab ended with status {status}: {'; '.join(said)}")
        first = verify(decode(image))
        found = all_refusals(first.image) if first.image.code else first
        places = [place for place, line in lines if is_instruction(line)]
        for number, refusal in enumerate(found.refusals):
            by = "lab" if status and number == 0 and output.decode().strip() == str(refusal) else "tools"
            self.refused(dict(lines), places, found, refusal, by, said if by == "lab" else [])
        if output.decode().strip() != first.verdict:
            raise Trouble(f"this verifier parts from the lab, which says {output.decode().strip()} of {self.path}")

    def refused(self, lines, places, found, refusal, by, said):
        """One refusal of the verifier."""
        at = min(refusal.at, len(places) - 1)
        place = places[at] if places else next(iter(lines), 1)
        text, cure, page = told_by_tools(lines, places, found, refusal)
        if said and (heard := SAID.fullmatch(said[0])) and not is_of_array(found.image, refusal):
            its_text, its_cure = parted(heard[3].split(": ", 1)[-1], ": " if refusal.cause == "MemoryRange" else "; ")
            if refusal.cause not in SHORT:
                text = its_text
            if not cure.endswith(NIL_TEST):
                # the dots of the lab stand for what only the text knows
                cure = its_cure.replace(", ..", f", {way_out(lines)}") or cure
            page = heard[4] or page
        number, note = self.operand(found, refusal, at, places)
        self.add(place, number, refusal.cause, text, cure, page, by, note)

    def operand(self, found, refusal, at, places):
        """The word of the register at fault, and what is said below it."""
        code = found.image.code
        if refusal.cause == "BadJump":
            return len(code[refusal.at].row.fields) + code[refusal.at].row.has_number + 1, "leads behind the last instruction"
        if is_of_array(found.image, refusal):
            return len(code[refusal.at].row.fields) + 1, ""
        if refusal.register is None or refusal.at >= len(code) or code[refusal.at].row is None:
            return 0, ""
        one = code[refusal.at]
        at_fault = [n for n, register in enumerate(one.operands) if register == refusal.register]
        if refusal.cause == "MemoryRange" and one.has_range:
            ends = (2, 3) if most_in_range(refusal.state, one) > found.image.memory else (4,)
            at_fault = [max(ends, key=lambda n: bound_of(refusal.state[one.registers[n]]))]
        if refusal.cause in ("NotLive", "WrongKind", "LacksRight"):
            handles = [n for n, _, _ in one.handle_places]
            at_fault = [n for n in at_fault if n in handles] or at_fault
        note = WANTED.get(refusal.cause, "")
        giver = giver_of(code, refusal)
        if refusal.cause == "NotLive" and giver is not None:
            line = self.origins[places[giver] - 1]
            note += f"; line {line} may give 0"
        return (1 + at_fault[0] if at_fault else None), note

    # ---- scenarios

    def scenario(self, text):
        """The lab's own fault, where it isn't one of a program, and those of all programs."""
        said = []
        status, output = self.lab.answer([], text.encode("latin-1"), said=said)
        if status > 1:
            raise Trouble(f"the lab ended with status {status}: {'; '.join(said)}")
        at, cause, told, page = first_said(output, said) if status else (0, "", "", "")
        blocks = list(blocks_of(text.split("\n")))
        if status and not any(first <= at <= last for first, last, _, _ in blocks):
            line = text.split("\n")[at - 1] if at else ""
            self.add(at, word_at_fault(line, told), cause, *parted(told), page, "lab")
        for first, last, words, lines in blocks:
            if words[-1] == "asm":
                self.program(lines, words[-2] == "checked")
            elif first <= at <= last:
                self.add(first, None, cause, *parted(told), page, "lab")


def blocks_of(lines):
    """The blocks of programs: the first and the last place, the words of the first line, and the lines between."""
    first, words, inside = 0, [], []
    for place, line in enumerate(lines, 1):
        if first and words_of(line) == ["end"]:
            yield first, place, words, inside
            first = 0
        elif first:
            inside.append((place, line))
        elif not is_skipped(line) and words_of(line)[0] == "program":
            first, words, inside = place, words_of(line), []
        elif words_of(line) == ["--"]:
            return


def first_said(output, said):
    """The line, the cause, the text and the page of what the lab has said of a refused input."""
    for line in said:
        if found := SAID.fullmatch(line):
            return int(found[1]), found[2], found[3], found[4] or ""
    words = output.decode("latin-1").split()
    if len(words) < 3 or words[0] != "refused":
        raise Trouble(f"the lab has said {' '.join(words)[:60] or 'nothing'}")
    return int(words[1]), words[2], "it is refused", ""


def parted(told, mark="; "):
    """What is wrong, and what to do."""
    text, _, cure = told.partition(mark)
    return text, cure


def word_at_fault(line, told):
    """The number of the word of which the lab speaks, if it stands in the line."""
    words = [line[first:last] for first, last in spans(line)]
    if found := re.match(r"(?:the )?operands? ([0-9]+)\b", told):
        return int(found[1])
    named = [word for word in re.findall(r"[^\s,;]+", told.split("; ")[0]) if word.rstrip(":") in words or word in words]
    named = [word for word in named if word not in ("a", "an", "is", "no") or len(words) == 1]
    if named:
        word = max(named, key=len)
        return words.index(word if word in words else word.rstrip(":"))
    return next((n for word in re.findall(r"\S+", told) for n, one in enumerate(words) if word in one and not word.isalpha()),
                None)


def is_about(told, gone, lines):
    """Whether a missing label stands in a line that was left out."""
    found = re.match(r"no label is called (\w+)", told)
    return bool(found) and any(re.search(rf"\b{found[1]}\b", lines[place]) for place in gone)


def told_by_tools(lines, places, found, refusal):
    """What is wrong, what to do, and the page."""
    register, state, cause = refusal.register, refusal.state, refusal.cause
    page = f"docs/CHECK.md#{cause.lower()}"
    if cause == "Budget":
        steps = [found.steps.get(place) for place in found.leads]
        cure = ("no budget will do: a counter isn't followed, so count by rep and endrep, or wait in it" if None in steps
                else f"no budget will do: there are {max(steps)}" if max(steps) > MOST_BUDGET
                else f"a budget of {max(steps)} would do")
        return f"from here more than {found.image.budget} instructions may follow without a wait or an exit", cure, page
    if cause == "UndeclaredNeed":
        need = found.image.code[refusal.at].row.condition
        return f"no line .need {need} declares it", f".need {need}", page
    if is_of_array(found.image, refusal):
        return (*array_text(found.image, refusal), page)
    if register is None or not state:
        return bare(lines.get(places[refusal.at], "")) if refusal.at < len(places) else "the end", CURES[cause], page
    value = state[register]
    if cause == "NotLive" and isinstance(value, Has) and value.maybe:
        return f"r{register} may be 0 here", f"jz r{register}, {way_out(lines)}{NIL_TEST}", page
    if cause == "MemoryRange" and (told := range_text(found.image, refusal)):
        return told, PLACES_CURE if "slot array" in told else CURES[cause], page
    if cause == "JoinConflict" and refusal.other:
        return f"r{register} has {value} after one way, and {refusal.other[register]} after the other", CURES[cause], page
    return f"r{register} has {value}", CURES[cause], page


def bound_of(value):
    """What a register is at most that is read as a number."""
    return value.bound if isinstance(value, Word) else ANY


def range_text(image, refusal):
    """How far an access to the memory may go."""
    one, state = image.code[refusal.at], refusal.state
    if one.has_range and (most := most_in_range(state, one)) > image.memory:
        return "r{} + r{} may be {}, and the memory has {}".format(*one.registers[2:4], most, image.memory)
    if one.has_range:
        count, length = one.registers[4], image.slots[one.number][1]
        return f"r{count} may be {bound_of(state[count])}, and slot array {one.number} has the length {length}"
    if one.name not in WIDTHS:
        return ""
    most = bound_of(refusal.state[refusal.register]) + one.number + WIDTHS[one.name]
    return f"r{refusal.register} + {one.number} + {WIDTHS[one.name]} bytes may be {most}, and the memory has {image.memory}"


def most_in_range(state, one):
    """Where the bytes of a message end at most."""
    return sum(bound_of(state[register]) for register in one.registers[2:4])


def is_of_array(image, refusal):
    """Whether the slot array of a call is at fault."""
    one = image.code[refusal.at] if refusal.at < len(image.code) else None
    if one is None or one.row is None or refusal.register is not None or not one.row.has_array:
        return False
    return refusal.cause in ("WrongKind", "LacksRight") or (refusal.cause == "IllegalOp" and one.number >= len(image.slots))


def array_text(image, refusal):
    """Why it can't be that of the call, and what to do."""
    one = image.code[refusal.at]
    if refusal.cause == "IllegalOp":
        return f"there is no slot array {one.number}; the program has {len(image.slots)}", "declare it by a line .slots"
    kind, length, rights = image.slots[one.number]
    names = rights_text(rights, kind)
    # one that is read into and sent from can't be declared for both
    is_both = len({other.name for other in image.code if other.row and other.row.has_array and other.number == one.number}) > 1
    if one.row.is_from_slots:
        cure = f".slots {kind or 'any'} {length} {rights | RIGHTS['TRANSFER']}"
        return (f"the handles of slot array {one.number} have to have TRANSFER, and have {names}",
                "send from another array, as chan_read_slots fills this one" if is_both else cure)
    asked = "the kind " + kind if refusal.cause == "WrongKind" else f"handles with {names}"
    may = "handle may be of any" if refusal.cause == "WrongKind" else "one may have no rights"
    return (f"slot array {one.number} is for {asked}, and a received {may}",
            "receive into another array, as chan_write_slots sends from this one" if is_both else f".slots any {length} 0")


def way_out(lines):
    """A label of the text to go to."""
    labels = [bare(line)[:-1] for line in lines.values() if bare(line).endswith(":")]
    return "out" if "out" in labels else labels[-1] if labels else ".."


def giver_of(code, refusal):
    """The instruction above that gave the register its handle or 0, if none is jumped to between."""
    targets = {target_of(one) for one in code}
    for at in range(refusal.at - 1, -1, -1):
        one = code[at]
        if at + 1 in targets or one.row is None:
            return None
        if refusal.register in one.written:
            return at if one.is_call else None
    return None


def linted(lab, path, content, numbered):
    """The faults of a file's bytes, and how many programs it has."""
    if content.startswith(b"ZLAB"):
        raise Trouble(f"{path} is an image, and no text: {called('tools/disasm')} writes its text, and check judges it")
    text = (numbered.content() if numbered else content).decode("latin-1")
    source = content.decode("latin-1").split("\n")
    origins = [line.place for line in numbered.lines] if numbered else list(range(1, len(source) + 1))
    linting = Linting(lab, path, source, origins, numbered.told if numbered else str)
    if is_scenario(text.encode("latin-1")):
        linting.scenario(text)
    else:
        linting.program(list(enumerate(text.removesuffix("\n").split("\n"), 1)), True)
    return linting.faults, linting.programs
