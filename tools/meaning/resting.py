"""The turns for which a line `rest` stands: one for each process, round and round, until nobody is ready."""
from meaning.scenario import joined, schedule_text
from meaning.trace import read_trace
from meaning.trouble import Trouble

# So many lines of turns there may be, and so many turns in one of them.
MOST_LINES, MOST_COUNT = 100_000, 1_000_000
FIRST_ROUNDS, MOST_TURNS = 50, 200_000


class Rest:
    """The lab says who is ready, and which turns do something."""

    def __init__(self, lab, file):
        self.lab, self.file = lab, file
        self.front = b"".join(line.text.encode("latin-1") + b"\n" for line in file.lines[:file.rest])
        # the items that stand above
        self.skip = None

    def ask(self, turns, pids, rounds):
        """Which processes took turns behind these, the state of each process, and how it ended; nothing where the lab
        refuses the scenario."""
        text = schedule_text(turns) + schedule_text((pid, 1) for pid in pids) * rounds
        status, output = self.lab.answer([], self.front + text.encode(), is_told=False)
        if status:
            return None
        trace = read_trace(output.decode("ascii"))
        self.skip = len(trace.items) if self.skip is None else self.skip
        taken = joined(((item.pid, 1) for item in trace.items[self.skip:]), MOST_COUNT)
        return taken, trace.states, trace.end

    def turns(self):
        """The lines of turns; none where the lab refuses the scenario, which it says when it runs."""
        turns, pids, rounds, seen = [], [], 0, None
        while (answer := self.ask(turns, pids, rounds)) is not None:
            taken, states, end = answer
            if seen is not None and not states.keys() <= seen:
                # Some were made meanwhile: once more, with turns for them too.
                pids, seen = sorted({*pids, *(states.keys() - seen)}), seen | states.keys()
                continue
            turns, seen = taken, set(states)
            if "ready" not in states.values() or end != "schedule":
                return schedule_text(turns).splitlines()
            if len(turns) > MOST_LINES:
                origin = self.file.lines[self.file.rest].origin
                raise Trouble(f"line {origin}: rest comes to more than {MOST_LINES:,} lines of turns")
            pids = [pid for pid, state in states.items() if state in ("ready", "blocked", "created")]
            rounds = max(1, min(rounds * 2 or FIRST_ROUNDS, MOST_TURNS // len(pids)))
        return []
