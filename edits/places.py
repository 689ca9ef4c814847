"""Where wrong bodies stand, so that many can be tried by one check.

Each function is proved over the contracts of those that it calls. So where an edit changes nothing but a
body, that function is proved with the edit or isn't, whatever other bodies are changed in the same check. A check
that goes past open goals (--allow-holes) also tries what calls a function that isn't proved, but only where it has
proofs of its own.
"""
import re
from collections import defaultdict
from pathlib import Path

from contracts import functions_of

VERDICT = re.compile(r"fn (\S+): (proved|no holes|not proved|no proof)(.*)")
# What isn't proved only because a function that it calls isn't.
BY_OTHERS = re.compile(r"it calls|it passes|a call of")
# A goal that is left open, with what more is known of it; an error in a file, with the goal or lemma that it is about.
OPEN = re.compile(r"note: \S+:\d+:\d+: .*?\(`([^`]+)`\)(.*)")
ERROR = re.compile(r"(?:note: )?(?:\./)?((?:src|specs|proofs)/[^\s:]+):\d+:\d+: error[^:]*: (?:`([^`]+)`)?(.*)")
# What a proof file says where it names what an edit took away.
LOST = re.compile(r"has no field|is not in scope|has no `|was not admitted")
# A name that is called, or handed on.
CALLED = re.compile(r"\b(\w+)(?=\s*[(),])")
# The files of proofs that answer the goals of a function, in its folder.
ANSWERS = {"Answers.antt", "Invariants.antt", "Proof.antt"}


def place_of(crate, functions, edit):
    """The name of the function whose body the edit changes, if it changes one body alone."""
    there = {name: function for name, function in functions.items() if function.file == edit.file}
    text = (crate / edit.file).read_text(encoding="utf-8") if there else ""
    names = set()
    for old, _ in edit.pairs:
        if text.count(old) != 1:
            return None
        first = text.count("\n", 0, text.index(old))
        last = first + old.count("\n")
        names |= {name for name, it in there.items() if it.has(first) and it.has(last)} or {None}
    return names.pop() if len(names) == 1 else None


def body_of(crate, function):
    """The lines of its body, without comments."""
    if function.body is None:
        return ""
    lines = (crate / function.file).read_text(encoding="utf-8").splitlines()
    return "\n".join(line.split("//")[0] for line in lines[function.body:function.last + 1])


def calls_in(crate, functions):
    """For each function those whose names its body calls or hands on."""
    owners = defaultdict(set)
    for name in functions:
        owners[name.rpartition("::")[2]].add(name)
    return {name: set().union(*(owners[word] for word in CALLED.findall(body_of(crate, it)) if word in owners))
            for name, it in functions.items()}


def led_to(name, calls):
    """The function itself, and those that calls lead to from it."""
    found, left = set(), [name]
    while left:
        at = left.pop()
        if at not in found:
            found.add(at)
            left.extend(calls[at])
    return found


def folder_of(function):
    """The folder of its proofs, below its crate."""
    return "proofs/" + "/".join(function.split("::")[1:])


def rounds_of(crate, edits):
    """The edits of bodies in rounds, in each of which none keeps another from being tried, and those that are left."""
    rounds, functions = [], functions_of(crate)
    places = [(place_of(crate, functions, edit), edit) for edit in edits]
    calls = calls_in(crate, functions)
    behind = {place: led_to(place, calls) for place, _ in places if place}
    has_proofs = {place for place in behind if (crate / folder_of(place)).is_dir()}

    def is_kept(place, other):
        return place == other or other in behind[place] and place not in has_proofs

    for place, edit in sorted(((place, edit) for place, edit in places if place), key=lambda it: len(behind[it[0]])):
        free = next((found for found in rounds
                     if not any(is_kept(place, other) or is_kept(other, place) for other in found)), None)
        if free is None:
            free = {}
            rounds.append(free)
        free[place] = edit
    return rounds, [edit for place, edit in places if place is None]


def apply(crate, edits):
    """Changes bodies of the crate, no two of one function, as the edits say."""
    places = {}
    for edit in edits:
        text = (crate / edit.file).read_text(encoding="utf-8")
        places.setdefault(edit.file, []).extend((text.index(old), old, new) for old, new in edit.pairs)
    for file, found in places.items():
        text = (crate / file).read_text(encoding="utf-8")
        for at, old, new in sorted(found, reverse=True):
            text = text[:at] + new + text[at + len(old):]
        (crate / file).write_text(text, encoding="utf-8")


def apply_alone(crate, edit):
    """Changes the crate as the edit says, whatever that is."""
    path = crate / edit.file
    path.write_text(edit.changed(path.read_text(encoding="utf-8")), encoding="utf-8")


def refused_in(output, places):
    """Of these functions those that aren't proved by themselves, for more than a name that an edit took away."""
    goals = goals_in(output)
    return {place for place in places if any(not goal.endswith("?") for goal in goals.get(place, []))}


def goals_in(output):
    """The goals of each function that isn't proved by itself, by what the check said.

    A goal has a `!` behind it where the check knows values at which it is false, and a `?` where only a
    proof file says so, as it names what an edit took away. A function without a goal has what was said of
    it instead. Behind the functions come the files of lemmas, each with those that don't hold.
    """
    errors, goals, opened = errors_in(output), {}, []
    for line in output.splitlines():
        left_open = OPEN.match(line)
        if left_open:
            opened.append(left_open[1] + "!" * ("goal is false" in left_open[2]))
        if not re.match(r"\w+ \S+: (proved|no holes|not proved|no proof)", line):
            continue
        name, ends, why = VERDICT.match(line).groups() if line.startswith("fn ") else ("", "proved", "")
        own = [goal for file, named in errors.items() if str(Path(file).parent) == folder_of(name) for goal in named]
        is_own = opened or any(not goal.endswith("?") for goal in own)
        if ends not in ["proved", "no holes"] and (is_own or not BY_OTHERS.search(why)):
            named = re.findall(r"`([^`]+)`", why.partition("did not prove")[2].partition(";")[0])
            there = opened + [goal for goal in named if goal + "!" not in opened] + own
            goals.setdefault(name, list(dict.fromkeys(there)) or [ends + why.partition(",")[0]])
        opened = []
    lemmas = {file: named for file, named in errors.items() if file.startswith("proofs/") and Path(file).name not in ANSWERS}
    return {**goals, **lemmas}


def errors_in(output):
    """What the errors of the check are about, by their files."""
    found = {}
    for line in output.splitlines():
        error = ERROR.match(line)
        if error:
            file, name, why = error.groups()
            lost = file.startswith("proofs/") and LOST.search(why)
            found.setdefault(file, []).append((name or file) + "?" * bool(lost))
    return found


def blamed(said):
    """The file and the goal that the toolchain names where it refuses an edit."""
    error, left_open = ERROR.search(said), OPEN.search(said)
    if error:
        file, name, _ = error.groups()
        return file, (name or file) + "?" * ("only because a proof file" in said)
    return "-", left_open[1] if left_open else "-"


def is_told(output):
    """Whether the check read the code and the definitions, and left a goal open for more than a lost name."""
    is_read = not any(file.startswith(("src", "specs")) for file in errors_in(output))
    return is_read and any(not goal.endswith("?") and " " not in goal
                           for goals in goals_in(output).values() for goal in goals)
