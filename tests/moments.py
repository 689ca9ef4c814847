"""What words of `--bad` say of a world of the model, by docs/EXPLORE.md, and which are so there: for tests/try-explore and
tests/try-tools."""
from types import SimpleNamespace

from meaning.numbers import KINDS, RIGHTS
from worlds.orders import Graph, Nothing, roots_of


class Worlds(Nothing):
    """The worlds of a search."""

    def __init__(self):
        self.found = []

    def world(self, place, world):
        self.found.append(world)


def worlds_from(first, most):
    """All worlds to which orders lead by the model, up to so many."""
    worlds = Worlds()
    graph = Graph(first, worlds)
    graph.search(roots_of(graph, 1, 1)[0], most, SimpleNamespace(say=lambda told: None))
    return worlds.found


# ---- which words are so


def facts_of(world):
    """The words for what the processes of a world are in, or have, for what messages have, and for what is there."""
    for pid, process in world.processes.items():
        state = f"ended {process.code}" if process.state == "ended" else process.state
        facts = [*([] if state == "gone" else [state]), *handles_of(process.handles.values())]
        yield from (f"{who} {fact}" for who in (pid, "*") for fact in facts)
    for koid, thing in world.objects.items():
        yield f"{thing.kind} {koid}"
        yield from (f"message {fact}" for message in thing.queue for fact in handles_of(message.entries))


def handles_of(entries):
    """The words for these handles: for each one without rights, and with each right that it has."""
    for entry in entries:
        yield from (f"has {entry.koid}", *(f"has {entry.koid} {right}" for right in RIGHTS.values() if entry.rights & right))


# ---- what words say


def is_moment(words, world):
    """Whether all of these words are so of the world."""
    return all(is_seen(one.removeprefix("not ").split(" "), world) != one.startswith("not ") for one in words.split(" and "))


def is_seen(words, world):
    if words[0] in KINDS:
        thing = world.objects.get(int(words[1]))
        return thing is not None and thing.kind == words[0]
    if words[0] == "message":
        return any(is_handle(words[2:], entry) for thing in world.objects.values() for message in thing.queue
                   for entry in message.entries)
    return any(is_of_process(words[1:], process) for pid, process in world.processes.items() if words[0] in ("*", f"{pid}"))


def is_of_process(words, process):
    if words[0] == "has":
        return any(is_handle(words[1:], entry) for entry in process.handles.values())
    return words[0] == process.state and (words[0] != "ended" or int(words[1]) == process.code)


def is_handle(words, entry):
    koid, rights = int(words[0]), int(words[1]) if words[1:] else 0
    return entry.koid == koid and entry.rights & rights == rights
