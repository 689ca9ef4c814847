"""What a search looks for: a pattern in answers and ends, and the smallest schedule that still has it."""
from meaning.codes import told_ends
from meaning.scenario import joined

from .ends import end_reasons, is_cut
from .orders import Nothing
from .patterns import has_meaning, has_name
from .turns import choices, played

# How many schedules are tried at most to make one smaller.
MOST_TRIES = 3000


class Bad(Nothing):
    """A pattern that is looked for in answers of calls, in states at the end, and in why nobody goes on."""

    def __init__(self, pattern, telling):
        self.pattern, self.telling = pattern, telling
        # What it speaks of that lines of a trace don't have: names of processes and objects, and meanings of codes.
        self.is_of_names, self.is_of_codes = has_name(pattern, telling.names.values()), has_meaning(pattern)
        # Where it was found first.
        self.place = None

    @property
    def is_found(self):
        return self.place is not None

    def forms(self, line, named):
        """A line as a trace has it, and with what the pattern speaks of."""
        forms = [line, named or self.telling.told(line)] if self.is_of_names else [line]
        return [*forms, *map(told_ends, forms)] if self.is_of_codes else forms

    def line_in(self, lines):
        """The first of the lines that has the pattern, as it is told. Some come with names too."""
        for line, named in lines:
            if any(self.pattern.search(form) for form in self.forms(line, named)):
                return told_ends(named or self.telling.told(line))
        return None

    def look(self, place, lines):
        if self.place is None and self.line_in(lines) is not None:
            self.place = place

    def step(self, place, said):
        self.look(place, [(said, None)])

    def end(self, place, world):
        self.look(place, [*((line, None) for line in world.last_lines()), *self.reasons(world)])

    def reasons(self, world):
        """Why nobody goes on, with numbers and with names."""
        return zip(end_reasons(world), end_reasons(world, self.telling))

    def line_of(self, trace, world):
        """The bad line of a trace that leads to the world. What a process is in counts only at an end."""
        is_end = not choices(world) and not is_cut(world)
        lines = [(line, None) for line in trace[:-1] if " run " not in line
                 and (is_end or not line.startswith("process ") or " ended " in line or line.endswith(" gone"))]
        return self.line_in([*lines, *(self.reasons(world) if is_end else [])])


class Shrinking:
    """A schedule that is made smaller, as long as it stays bad, which `is_bad` tells of a trace and its last world."""

    def __init__(self, first, is_bad, turns):
        self.first, self.is_bad_trace = first, is_bad
        self.turns = list(turns)
        self.tries = 0

    def is_bad(self, turns):
        self.tries += 1
        world = self.first.copy()
        return self.is_bad_trace(played(world, turns), world)

    def take(self, turns):
        """Takes these turns for those that there were, if they are bad too."""
        if self.tries >= MOST_TRIES or not self.is_bad(turns):
            return False
        self.turns = turns
        return True

    def leave_out(self):
        """Leaves turns out, many at once and then fewer."""
        size = max(1, len(self.turns) // 2)
        while True:
            at, has_shrunk = 0, False
            while at < len(self.turns):
                if self.take(self.turns[:at] + self.turns[at + size:]):
                    has_shrunk = True
                else:
                    at += size
            if size == 1 and not has_shrunk:
                return
            size = max(1, size // 2)

    def bring_together(self):
        """Moves turns of a process to the ones that it had before, so that there are fewer lines."""
        for at in range(len(self.turns)):
            pid = self.turns[at][0]
            next_at = next((n for n in range(at + 1, len(self.turns)) if self.turns[n][0] == pid), None)
            if next_at is None or next_at == at + 1:
                continue
            rest = self.turns[:next_at] + self.turns[next_at + 1:]
            moved = rest[:at + 1] + [self.turns[next_at]] + rest[at + 1:]
            if len(joined(moved)) < len(joined(self.turns)):
                self.take(moved)

    def count_less(self):
        """Gives each process no more turns in a line than it wants."""
        for at in range(len(self.turns)):
            less = 1
            while less > 0:
                pid, count = self.turns[at]
                if count > less and self.take([*self.turns[:at], (pid, count - less), *self.turns[at + 1:]]):
                    less *= 2
                else:
                    less //= 2

    def result(self):
        self.leave_out()
        self.bring_together()
        self.turns = joined(self.turns)
        self.count_less()
        return self.turns
