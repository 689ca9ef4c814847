"""A chart of a trace: what went from one process to another, who waited, and how each ended.

A row is made where something happens between processes, or a call isn't answered OK. Rows that only
concern their process have no chart.
"""
from dataclasses import dataclass

from meaning.codes import told_ends
from meaning.trace import STATE
from meaning.trouble import Trouble

MOST_ROWS = 5000
# Calls that change what others see.
SEEN_BY_OTHERS = ("signal", "signal_peer", "wait_async", "port_cancel", "job_create", "job_set_policy", "process_create",
                  "task_kill")


@dataclass
class Mark:
    """A row. `kind` is `note`, `wait`, `over`, `sent`, `arrow` or `wakes`; an arrow goes from one process to
    another, from the row `since` on where what goes was sent there."""

    kind: str
    line: int
    pid: int
    text: str
    to: int = 0
    since: int | None = None
    is_read: bool = False


class Chart:
    """The rows of a chart, and the processes in the order in which they come in."""

    def __init__(self, world, title, telling):
        self.world = world
        self.title = title
        self.telling = telling
        self.rows = []
        self.pids = sorted(world.processes)
        # the rows in which something was sent, by which sending it was
        self.sent = {}

    def name(self, pid):
        process = self.world.processes[pid]
        kind = "checked" if self.world.programs[process.program].is_checked else "raw"
        return f"{self.telling.who(pid)}: {self.telling.told(f'program {process.program}')}, {kind}"

    def row(self, kind, line, pid, text, **more):
        if len(self.rows) >= MOST_ROWS:
            raise Trouble(f"a chart has at most {MOST_ROWS:,} rows; give it the front of the trace")
        for one in (pid, more.get("to", 0)):
            if one and one not in self.pids:
                self.pids.append(one)
        self.rows.append(Mark(kind, line, pid, self.telling.told(told_ends(text)), **more))
        return self.rows[-1]

    def add(self, followed):
        """An item becomes the rows that it has."""
        item, done = followed.item, followed.done
        about = ", ".join(done.names + done.about)
        for what, pid, sending, text in done.arrows:
            self.arrow(item, what, pid, sending, text)
        if item.name == "stuck":
            self.row("over", item.line, item.pid, f"stuck: {about}")
        elif item.outcome == "blocked":
            self.row("wait", item.line, item.pid, f"waits in {item.name}: {about}")
        elif item.outcome.startswith("ended"):
            self.row("over", item.line, item.pid, f"{item.name} {item.outcome}")
        elif item.outcome and item.outcome != "OK":
            self.row("note", item.line, item.pid, f"{item.name} {item.outcome}" + (f": {about}" if about else ""))
        # an arrow says whom it killed
        elif item.name in SEEN_BY_OTHERS and not done.arrows:
            self.row("note", item.line, item.pid, f"{item.name}: {about}")
        for came in done.came:
            self.came(item, came)

    def arrow(self, item, what, pid, sending, text):
        if what == "sent":
            mark = self.row("sent", item.line, item.pid, f"{item.name}: {text}")
            self.sent[sending] = len(self.rows) - 1, mark
        elif what == "read":
            self.delivered(item.line, pid, item.pid, sending, text)
        elif pid != item.pid:
            self.row("arrow", item.line, item.pid, text, to=pid)

    def delivered(self, line, by, to, sending, text):
        """What was sent in an earlier row comes to a process."""
        since, mark = self.sent.get(sending, (None, None))
        if mark:
            mark.is_read = True
        self.row("arrow", line, by, text, to=to, since=since)

    def came(self, item, came):
        """What came of an item."""
        if came.kind == "packet":
            mark = self.row("sent", item.line, item.pid, came.text)
            self.sent[came.packet.sent] = len(self.rows) - 1, mark
        elif came.kind == "woken":
            self.row("wakes", item.line, item.pid, came.text, to=came.pid)
            if came.packet and came.packet.sent in self.sent:
                self.sent[came.packet.sent][1].is_read = True
        elif came.kind == "over":
            self.row("over", item.line, came.pid, came.text)
        elif came.kind == "gone":
            self.row("note", item.line, item.pid, came.text)

    def parts(self, text):
        """The last row of a chart whose trace goes another way."""
        self.row("note", 0, self.pids[0] if self.pids else 0, text)

    def end(self, rest):
        """The states at the end."""
        for line, text in rest:
            state = STATE.fullmatch(text)
            if state and not state[2].startswith("ended"):
                self.row("note", line, int(state[1]), f"at the end: {state[2]}")


def plain(text):
    """A text as mermaid takes it: these two would end it."""
    return text.replace(";", ",").replace("#", "no. ")


def mermaid(chart):
    """The chart as mermaid's sequence diagram; GitHub draws it in a page."""
    lines = ["sequenceDiagram"]
    lines += [f"    participant P{pid} as {plain(chart.name(pid))}" for pid in chart.pids]
    for mark in chart.rows:
        text = plain(mark.text)
        if mark.kind == "arrow":
            lines.append(f"    P{mark.pid}->>P{mark.to}: {text}")
        elif mark.kind == "wakes":
            lines.append(f"    P{mark.pid}-->>P{mark.to}: {text}")
        elif mark.kind == "sent" and mark.is_read:
            continue
        elif mark.kind == "sent":
            lines.append(f"    Note over P{mark.pid}: {text} (taken by nobody)")
        elif mark.pid:
            lines.append(f"    Note over P{mark.pid}: {text}")
    return "\n".join(lines)
