"""Whether the words of a pattern are there at all in what traces and ends say."""
import difflib
import re

from meaning.codes import BY_THE_LAB
from meaning.instructions import ROWS
from meaning.numbers import KINDS, SIGNALS, STATUSES, USERS

STATES = ("process", "created", "ready", "blocked", "ended", "stuck", "gone")
# What the lines below ends say beside kinds, signals and calls.
REASONS = ("deadlock blocked for good waits wait_one port_wait packet signals signal which nobody else could bring "
           "goes round ever without call end after these turns all orders").split()
# What is told of the code of an end.
MEANINGS = (*(word for text in BY_THE_LAB.values() for word in text.split()), *STATUSES, *USERS)
VOCABULARY = sorted({*(row.name for row in ROWS if row.is_call), *STATUSES, *STATES, *REASONS, *KINDS, *SIGNALS, *MEANINGS})
# What stands in a pattern and isn't looked for as it is written: flags, names and comments of groups, letters behind
# a backslash, sets of letters, and a letter that may be left out.
NO_TEXT = re.compile(r"\(\?P?<[A-Za-z_]\w*>|\(\?P=\w+\)|\(\?#[^)]*\)|\(\?\(\w+\)|\(\?[A-Za-z-]+[:)]|\\.|"
                     r"\[\^?\]?(?:\\.|[^\]\\])*\]|[A-Za-z_](?=[?*{])", re.DOTALL)
SHORTEST = 3
NEAR = 0.6


def runs_in(pattern):
    """The runs of letters in a pattern that a line has to have, if it is to have the pattern or a part of it."""
    return re.findall(rf"[A-Za-z_]{{{SHORTEST},}}", NO_TEXT.sub(" ", pattern))


def same(pattern, text):
    """The text, so that it can be compared as the pattern compares."""
    return text.lower() if pattern.flags & re.IGNORECASE else text


def wrong_word(pattern, names=()):
    """What is wrong with a pattern that has a word which is part of no call, status, state, cause or name; else nothing."""
    words = [*VOCABULARY, *names]
    if "@" in NO_TEXT.sub(" ", pattern.pattern):
        return "@ is part of no line: names stand there without it"
    for run in runs_in(pattern.pattern):
        if any(same(pattern, run) in same(pattern, word) for word in words):
            continue
        near = max(words, key=lambda word: nearness(run, word))
        meant = f"; did you mean {near}?" if nearness(run, near) >= NEAR else ""
        return f"{run} is part of no call, status, state or cause{', and of no name' * bool(names)}{meant}"
    return None


def has_name(pattern, names):
    """Whether a pattern may speak of one of the names: it has one, or letters of one."""
    text, runs = NO_TEXT.sub(" ", pattern.pattern), runs_in(pattern.pattern)
    return any(re.search(rf"(?<!\w){re.escape(name)}(?!\w)", text, pattern.flags & re.IGNORECASE)
               or any(same(pattern, run) in same(pattern, name) for run in runs) for name in names)


def has_meaning(pattern):
    """Whether a pattern speaks of what the code of an end stands for, as `ended 24 (PEER_CLOSED)` does."""
    text, runs = same(pattern, pattern.pattern), [same(pattern, run) for run in runs_in(pattern.pattern)]
    is_of_ends = "\\(" in text or "[(]" in text or any(run in same(pattern, word) for run in runs for word in (*STATUSES, *USERS))
    return any(word in text for word in ("0x", "killed", "policy")) or "ended" in text and is_of_ends


def nearness(run, word):
    """How near a run of letters is to a word or to its front, whatever their case."""
    fronts = {word.lower(), word.lower()[:len(run)]}
    return max(difflib.SequenceMatcher(None, run.lower(), front).ratio() for front in fronts)
