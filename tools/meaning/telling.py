"""What a tool tells of items and places, with the names of objects by the table below a scenario."""
import re

OBJECT = re.compile(r"\b(channel|event|port|eventpair|job|process) ([0-9]{1,7})\b( \((?!taken))?")
PROGRAM = re.compile(r"\bprogram ([0-9]{1,3})\b")
# Behind the item its meaning begins in this column.
COLUMN = 34
FIRST = re.compile(r"^([0-9]{1,7})(?= )")


def counted(count, noun):
    """So many of what the noun names."""
    return f"{count:,} {noun}{'' if count == 1 else 's'}"


class Telling:
    """The names of objects and of programs, by their numbers, and perhaps how places of programs are told, by Origins."""

    def __init__(self, names, programs=None, origins=None):
        self.names, self.programs, self.origins = names, programs or {}, origins

    def who(self, pid):
        """A process as it is told at the front of an item."""
        return self.names.get(pid, str(pid))

    def where(self, program, places):
        """Behind somebody the lines of these instructions, if it is known how these are told."""
        if self.origins is None:
            return ""
        first, last = (self.origins.told_at(program, place) for place in (min(places), max(places)))
        return f" in {first}" if first == last else f" in {first} to {last}"

    def told(self, text):
        """A text with names: of a process or a program in place of its number, of other objects behind it."""
        if self.programs:
            text = PROGRAM.sub(lambda found: f"program {self.programs.get(int(found[1]), found[1])}", text)
        if not self.names:
            return text
        return OBJECT.sub(self.named, FIRST.sub(lambda found: self.who(int(found[1])), text))

    def named(self, found):
        name = self.names.get(int(found[2]))
        if name is None:
            return found[0]
        if found[1] == "process":
            return name + (found[3] or "")
        return f"{found[1]} {found[2]} ({name}" + (", " if found[3] else ")")


def column(text, told):
    """The item, and its meaning in a column behind it."""
    return f"{text + ' ':{COLUMN}}{told}".rstrip()


def item_lines(followed, telling):
    """An item and what came of it, in lines."""
    about = telling.told("; ".join(followed.done.operands + followed.done.about))
    yield column(telling.told(followed.item.text), f"{followed.place}: {followed.text}" + (f" | {about}" if about else ""))
    for came in followed.done.came:
        yield column("", telling.told(came.text))
