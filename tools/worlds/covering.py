"""What of the programs the orders of a search have reached: instructions, jumps both ways, and answers of calls."""
from functools import partial
from itertools import groupby

from meaning.asserting import ANSWERS

# The answers by which a caller learns what others did; the others are faults of its own, or of memory.
OF_OTHERS = {"OK", "blocked", "PEER_CLOSED", "SHOULD_WAIT", "TIMED_OUT", "NOT_FOUND", "BAD_STATE", "BUFFER_TOO_SMALL"}
JUMPS, GOES_ON = "jumps", "goes on"


class Cover:
    """What was reached of the programs of a scenario."""

    def __init__(self, scenario):
        self.programs = scenario.programs
        count = len(self.programs)
        # by program the places that were reached, the ways of jumps by place, and the answers by place
        self.reached = [set() for _ in range(count)]
        self.ways = [{} for _ in range(count)]
        self.answers = [{} for _ in range(count)]
        self.notes = [partial(self.note, number) for number in range(count)]

    def note(self, program, place, one, after):
        """A local instruction was done, and led there."""
        self.reached[program].add(place)
        if is_choice(one):
            ways = self.ways[program].setdefault(place, set())
            if after == one.target:
                ways.add(JUMPS)
            if after == place + 1:
                ways.add(GOES_ON)

    def done(self, program, place, said):
        """A call was answered, or its process is stuck there."""
        words = said.split(" ")
        if place < len(self.programs[program].image.code):
            self.reached[program].add(place)
        if words[1] in ANSWERS and words[2] != "ended":
            self.answers[program].setdefault(place, set()).add(words[2])

    def woken(self, process):
        """A process that waited was answered, and stands behind its wait."""
        self.answers[process.program].setdefault(process.cpu.place - 1, set()).add("OK")


def is_choice(one):
    """Whether an instruction may jump, and may not."""
    return one.row is not None and one.row.is_jump and one.name != "jmp"


class Covered:
    """What is told of it."""

    def __init__(self, cover, is_all, telling):
        self.cover, self.telling = cover, telling
        self.not_there = "never" if is_all else "not yet"
        self.not_reached = "not reached" if is_all else "not yet reached"
        self.counts = {"instructions": [0, 0], "jumps": [0, 0], "answers": [0, 0]}

    def count(self, what, there, of_all):
        self.counts[what][0] += there
        self.counts[what][1] += of_all

    def lines(self):
        for number, program in enumerate(self.cover.programs):
            code, reached = program.image.code, self.cover.reached[number]
            self.count("instructions", len(reached), len(code))
            name = self.telling.programs.get(number, f"program {number}")
            yield f"{name}: {len(reached)} of {len(code)} instructions reached"
            for line in [*self.gaps(number, program, reached), *self.places(number, program, reached)]:
                yield f"{name}: {line}"

    def summary(self):
        parts = [f"{there} of {of_all} {what}" for what, (there, of_all) in self.counts.items()]
        return f"{parts[0]} reached, {parts[1]} both ways, {parts[2]}"

    def gaps(self, number, program, reached):
        """The instructions that nobody has come to, those that follow each other in one line."""
        missing = [place for place in range(len(program.image.code)) if place not in reached]
        for _, group in groupby(enumerate(missing), lambda pair: pair[1] - pair[0]):
            places = [place for _, place in group]
            if len(places) == 1:
                yield f"{self.at(number, places[0])} {program.texts[places[0]]}: {self.not_reached}"
            else:
                yield f"{self.at(number, places[0])} to {self.at(number, places[-1])}: {self.not_reached}"

    def at(self, number, place):
        """What is told of the place of an instruction."""
        return self.telling.origins.told_at(number, place)

    def places(self, number, program, reached):
        """Jumps that went one way alone, and calls of which an answer is missing."""
        for place in sorted(reached):
            one = program.image.code[place]
            if is_choice(one):
                ways = self.cover.ways[number].get(place, set())
                self.count("jumps", len(ways) == 2, 1)
                yield from self.missing(number, place, program.texts[place], [JUMPS, GOES_ON], ways)
            elif ANSWERS.get(one.name):
                came = self.cover.answers[number].get(place, set())
                wanted = [answer for answer in ANSWERS[one.name] if answer in OF_OTHERS or answer in came]
                self.count("answers", len(came), len(wanted))
                yield from self.missing(number, place, one.name, wanted, came)

    def missing(self, number, place, text, wanted, came):
        if not set(wanted) <= came:
            there = ", ".join(one for one in wanted if one in came) or "nothing"
            gone = ", ".join(one for one in wanted if one not in came)
            yield f"{self.at(number, place)} {text}: {there}; {self.not_there} {gone}"
