"""The page of a run: one file of HTML, with all that it shows in it, which asks nothing of the network."""
import json
import re
from html import escape
from pathlib import Path

from meaning.recording import Recording
from meaning.trouble import Trouble

HERE = Path(__file__).parent
MOST_ITEMS = 250_000
MOST_LINES = 100_000
# Of a longer run so many items are shown, if it is to be thinned.
THIN_ITEMS = 5_000
PART = re.compile(r"<!-- (title|style|data|script) -->")


def apart(items, is_thin):
    """Each how many items one is shown."""
    if len(items) <= MOST_ITEMS:
        return 1 if not is_thin else max(1, -(-len(items) // THIN_ITEMS))
    each = -(-len(items) // THIN_ITEMS)
    if not is_thin:
        raise Trouble(f"{len(items):,} items are too many for a page, which takes {MOST_ITEMS:,}: "
                      f"--thin shows one of {each}")
    return each


def source_lines(source):
    """The lines of the scenario as its author wrote it."""
    if not source.strip():
        raise Trouble("the scenario is empty, so that a page has nothing to show")
    lines = source.removesuffix("\n").split("\n")
    if len(lines) > MOST_LINES:
        raise Trouble(f"the scenario has {len(lines):,} lines, and a page takes {MOST_LINES:,}")
    return lines


def script_text(value):
    """A value as JSON that ends no element and begins no comment of a page."""
    return json.dumps(value, separators=(",", ":")).replace("<", "\\u003c").replace(">", "\\u003e")


def page(title, value):
    """The page, of its files beside this one."""
    parts = {"title": escape(title), "style": (HERE / "page.css").read_text(), "data": script_text(value),
             "script": (HERE / "page.js").read_text()}
    return PART.sub(lambda found: parts[found[1]], (HERE / "page.html").read_text())


class Paging:
    """Gathers what the page of a run shows."""

    def __init__(self, title, source, follower, telling, origins, items, is_thin):
        self.title, self.source, self.telling = title, source_lines(source), telling
        self.total = len(items)
        self.recording = Recording(follower, telling, origins, apart(items, is_thin))

    def add(self, number, followed):
        self.recording.add(number, followed, number == self.total)

    def page(self, last_lines, fault=None):
        """The whole page. A fault says why it goes no further."""
        value = {"title": self.title, "source": self.source, "total": self.total,
                 "each": self.recording.each, "last": last_lines, "fault": fault}
        return page(self.title, value | self.recording.known())
