"""What `zlab explore`, the lab's own search, is asked of all orders, and its answer, which has to be that of the model."""
from typing import NamedTuple

from meaning.asserting import Ended, Facts, Has, In
from meaning.scenario import joined
from meaning.telling import counted
from meaning.trouble import Trouble

from .deciding import hold, names_object
from .ends import states_name
from .orders import run_of
from .report import turns_text
from .wording import words_for
from .world import outgrows

# How many things no order may have are asked of one search, and how many worlds it takes.
MOST_THINGS, MOST_WORLDS = 16, 1_000_000_000
# The first words of its last line.
ALL, CUT, MEMORY, BAD = "all", "cut", "memory", "bad"
# What an end is called at which there is no process.
NOBODY = "without processes"


class State(NamedTuple):
    """What a process is in at an end, and with which code it has ended, if it has."""
    state: str
    code: int | None


class AtEnd(NamedTuple):
    """The states of all processes at an end, by their numbers, of which facts are asked as of those of a world."""
    processes: dict


class Answer(NamedTuple):
    """What the search has written: its ends by their names, each with a schedule, the states at them, whether somebody is
    blocked at one, whether some orders come to none, the words of its last line, and the schedule that stands last."""
    ends: dict
    at_ends: list
    has_blocked: bool
    is_endless: bool
    last: list
    turns: list

    @property
    def is_whole(self):
        return self.last[0] == ALL


def answer_in(lines, telling):
    """The answer in the lines of a search."""
    try:
        return read_answer(lines, telling)
    except (ValueError, IndexError):
        raise Trouble("zlab explore writes other lines than it may: --zlab PROGRAM names another program") from None


def read_answer(lines, telling):
    ends, at_ends, states, turns, is_end, has_blocked, is_endless = {}, [], [], [], False, False, False
    for line in lines[:-1]:
        words = line.split(" ")
        if words[0] == "end":
            states, is_end = [], True
        elif words[0] == "process":
            states.append((int(words[1]), " ".join(words[2:])))
            has_blocked = has_blocked or words[2] == "blocked"
        elif words[0] == "by":
            turns = []
            # above what is bad in the middle of an order there is no end
            if is_end:
                ends[states_name(states, telling)], is_end = turns, False
                at_ends.append(AtEnd({pid: state_in(text.split(" ")) for pid, text in states}))
        elif words[0] == "endless":
            is_endless = True
        else:
            turns.append((int(words[0]), int(words[1])))
    last = lines[-1].split(" ")
    if last[0] not in (ALL, CUT, MEMORY, BAD) or last[0] == ALL and not last[1].isdigit():
        raise ValueError(last)
    return Answer(ends, at_ends, has_blocked, is_endless, last, turns)


def state_in(words):
    return State(words[0], int(words[1]) if words[1:] else None)


# ---- assertions


def is_of_waits(sight):
    """Whether an assertion is about who waits for whom at an end, of which the search tells that nobody does, and no more."""
    return bool(sight.cause) and sight.cause.name in ("deadlock", "blocked for good")


def is_settled(sight, answer):
    """Whether a whole search tells of an assertion, of which nothing is seen at the ends that it has, that no order has
    it. Where it is about one moment of an order, or about handles at an end, the search was asked."""
    if words_for(sight) and not sight.at_ends:
        return True
    # an end at which somebody goes round is none to the search
    if answer.is_endless:
        return False
    if sight.in_worlds:
        # who has ended stays so up to an end, and from each world one is reached
        return all(isinstance(fact, Ended) or isinstance(fact, In) and fact.state == "stuck" for fact in sight.in_worlds.facts)
    return not (is_of_waits(sight) and answer.has_blocked)


# A whole search in which each order has an end at which nobody is blocked.
AT_BEST = Answer({}, [], False, False, [ALL], [])


def may_hold_alone(sight, first):
    """Whether the search alone may tell that an assertion holds, with no schedule and no model, which alone knows whether an
    object is in some order that isn't there from the first world on."""
    objects = [thing for thing in sight.assertion.named_objects() if thing[0] != "process"]
    return not sight.is_sometimes and all(names_object(thing, first) for thing in objects) and is_settled(sight, AT_BEST)


def holds_alone(sight, answer, first):
    """Whether a whole search tells it, which was asked where the assertion is about one moment of an order, or about handles
    at an end."""
    pids = {*first.processes}.union(*(end.processes for end in answer.at_ends))
    named = {koid for kind, koid in sight.assertion.named_objects() if kind == "process"}
    if not is_settled(sight, answer) or not named <= pids:
        return False
    if sight.at_ends:
        return all(hold(without_handles(sight.at_ends), end) for end in answer.at_ends)
    is_of_states = sight.in_worlds and sight.in_worlds == without_handles(sight.in_worlds)
    return not (is_of_states and any(hold(sight.in_worlds, end) for end in answer.at_ends))


def without_handles(facts):
    """The facts without those about handles, of which a search tells at no end."""
    return Facts(tuple(fact for fact in facts.facts if not isinstance(fact, Has)))


# ---- the search


def answers(exploring, most, words, said):
    """The answers of the lab's own search, which is asked of some words at a time, up to one that isn't whole."""
    words = list(dict.fromkeys(words))
    for at in range(0, len(words), MOST_THINGS) or [0]:
        exploring.progress.say(said)
        lines = exploring.lab.explored(exploring.short_text, min(most, MOST_WORLDS), words[at:at + MOST_THINGS])
        answer = answer_in(lines, exploring.telling)
        yield answer
        if not answer.is_whole:
            return


def ask(exploring, found, most, words=()):
    """The answer of the lab's own search to what the model has found: it has to have the same ends, and no order with one of
    these words. Where the trace had no room for some orders of the model, it may have found more."""
    said = f"{counted(len(found.graph.came), 'world')}; zlab explore goes through them"
    for answer in answers(exploring, most, words, said):
        difference = difference_of(found, answer)
        if difference:
            raise parting(exploring, difference)
    return answer


def ask_alone(exploring, sights, most):
    """Its answer, where that alone tells that all assertions hold; else nothing."""
    first = exploring.first
    if not all(may_hold_alone(sight, first) for sight in sights) or outgrows(first, {}):
        return None
    words = [words for sight in sights for words in words_for(sight)]
    *_, answer = answers(exploring, most, words, "zlab explore goes through all orders")
    return answer if answer.is_whole and all(holds_alone(sight, answer, first) for sight in sights) else None


def parting(exploring, difference):
    """The trouble that it is where the search of the lab and the model say other things."""
    return Trouble(f"zlab explore and the model of {exploring.tool} part on this scenario: {difference}")


def runs_beyond(exploring, found, answer):
    """Runs to the ends to which the search of the lab comes and that of the model doesn't, as the trace has no room."""
    names, runs = {end.name for end in found.graph.ends.values()}, []
    for name, turns in answer.ends.items():
        if name not in names:
            runs.append(exploring.run_along(turns))
            end = runs[-1].end(exploring.telling)
            if end is None or end.name != name:
                raise parting(exploring, f"{turns_text(turns)} doesn't lead to the end {name or NOBODY} of zlab explore")
    return runs


def difference_of(found, answer):
    """What the search of the lab has and that of the model hasn't, or the other way round; nothing where they agree."""
    graph = found.graph
    if answer.last[0] == BAD and not graph.is_cut:
        return f"no order of the model has {' '.join(answer.last[1:])}, to which zlab explore comes by {turns_text(answer.turns)}"
    numbers = {end.name: number for number, end in graph.ends.items() if not end.is_round}
    for name, turns in answer.ends.items():
        if name not in numbers and not graph.is_cut:
            return f"the model has no end {name or NOBODY}, to which zlab explore comes by {turns_text(turns)}"
    if not answer.is_whole:
        return None
    for name, number in numbers.items():
        if name not in answer.ends:
            turns = turns_text(joined(run_of(graph.first, graph.order_to(number)).turns))
            return f"zlab explore has no end {name or NOBODY}, to which the model comes by {turns}"
    is_endless = bool(found.endless()) or any(end.is_round for end in graph.ends.values())
    if answer.is_endless != is_endless and not (graph.is_cut and answer.is_endless):
        one, other = ("zlab explore", "the model") if answer.is_endless else ("the model", "zlab explore")
        return f"{one} has orders that come to no end any more, and {other} has none"
    return None
