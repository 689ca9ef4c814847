"""What a run on worker threads has, whatever the order of its items: for tests/try-run, tests/try-checked and others."""
import re
from pathlib import Path

from meaning.booting import boot
from meaning.instructions import PAUSES
from meaning.lab import Lab
from meaning.scenario import read_scenario
from meaning.trace import read_trace
from meaning.trouble import Trouble

# The lines behind the items, as the lab writes them.
LAST = re.compile(r"(?:process \d+ (?:created|ready|blocked|ended -?\d+|gone)\n)*end \w+\n")
FAULTS = {"BAD_HANDLE", "WRONG_TYPE", "ACCESS_DENIED"}
# The most local instructions at a time where nothing is said of it.
BURST = 256
# Whom a policy has ended.
POLICY = "ended -1026"


def whole_trace(text):
    """The trace of a run; none of another text, nor where its lines aren't written as the lab does."""
    try:
        trace = read_trace(text)
    except Trouble:
        return None
    items, last = ("".join(f"{line}\n" for line in lines) for lines in (trace.texts, trace.last))
    return trace if LAST.fullmatch(last) and text == items + last else None


def budgets_of(world):
    """The processes of a world of tools/meaning, with the budgets of their programs; none for raw ones."""
    programs = {pid: world.programs[process.program] for pid, process in world.processes.items()}
    return {pid: program.image.budget if program.is_checked else None for pid, program in programs.items()}


def started_processes(scenario):
    """The processes that the lines of a scenario start, with their budgets."""
    return budgets_of(boot(read_scenario(scenario)))


def checked_processes(scenario):
    """Those of them that are of checked programs."""
    return {pid: budget for pid, budget in started_processes(scenario).items() if budget is not None}


def breaches(items, budgets):
    """Where a process of these breaks what is promised of it. One that was killed has no further item."""
    taken = dict.fromkeys(budgets, 0)
    for place, item in enumerate(items, 1):
        pid, name, outcome = item.pid, item.name, item.outcome
        if pid not in budgets:
            continue
        if name == "stuck" or outcome in FAULTS or (outcome == POLICY and name != "process_exit"):
            yield f"item {place}: {item.text}"
        taken[pid] = 0 if name in PAUSES else taken[pid] + (item.count or 1)
        if taken[pid] > budgets[pid]:
            yield f"item {place}: {item.text}: past the budget, {budgets[pid]}"


def wrong_end(trace, limit):
    """Where the end doesn't agree with the items and the states. In a test there is memory."""
    if len(trace.items) > limit:
        yield f"{len(trace.items)} items"
    if trace.end == "quiet" and "ready" in trace.states.values():
        yield "end quiet, and somebody is ready"
    if trace.end == "limit" and len(trace.items) + 2 <= limit:
        yield f"end limit, with {len(trace.items)} items"
    if trace.end not in ("quiet", "limit"):
        yield f"end {trace.end}"
    if list(trace.states) != sorted(trace.states):
        yield "the processes aren't in order"


class Runs(Lab):
    """A program, and a folder for its traces."""

    def __init__(self, program, room, seconds):
        super().__init__(Path(program).resolve(), Path(room), seconds)
        # The last trace.
        self.kept = self.room / "kept.trace"

    def answer(self, *words):
        """Status, standard output and standard error; none where it doesn't end in time."""
        ran = self.start(words, b"")
        return ran and (ran[0], *(text.decode(errors="replace") for text in ran[1:]))

    def run(self, scenario, workers, limit, burst=None):
        """The trace of a run of the scenario, a file, with bursts of this length if it is said, and what is wrong with it."""
        bursts = () if burst is None else ("--burst", burst)
        answer = self.answer("run", scenario, "--workers", workers, "--limit", limit, *bursts)
        if answer is None:
            return None, [f"it goes on after {self.seconds} s"]
        status, written, said = answer
        trace = whole_trace(written)
        if status != 0 or trace is None:
            return None, [f"status {status}: {written[-200:]!r}, {said[-200:]!r}"]
        faults = [*wrong_end(trace, limit), *breaches(trace.items, checked_processes(scenario.read_text()))]
        faults += [f"too long: {item.text}" for item in trace.items if item.name == "run" and item.count > (burst or BURST)]
        self.kept.write_text(written)
        answer = self.answer("replay", scenario, self.kept)
        if answer is None or answer[:2] != (0, f"replayed {len(trace.items)}\n"):
            faults.append(f"replay of {len(trace.items)} items: {answer}")
        return trace, faults
