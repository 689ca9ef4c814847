"""What is told of assertions: which hold, and schedules for those that are broken and for what is there sometimes."""
from pathlib import Path

from meaning.codes import told_ends
from meaning.scenario import joined
from meaning.telling import counted
from meaning.trouble import Trouble

from .asking import BAD, MEMORY, ask, ask_alone, is_of_waits, is_settled, parting, runs_beyond
from .bad import Shrinking
from .deciding import BROKEN, HOLDS, UNDECIDED, Asserted
from .ends import CAUSES, end_name, end_reasons
from .exploring import Searched, so_far
from .orders import Place, run_of
from .paths import lines_in, shortest_orders
from .report import CONFIRMED, INDENT, NOT_YET, room_text, turns_text
from .turns import choices, played
from .wording import words_for

# What is told below an assertion of which nothing, or something else, was seen, and on what that rests, if it isn't the
# lab's own search.
IN_NONE = "in none of all orders"
BY_MODEL = "by the model"
NOT_SEEN = "not seen in these orders: "
# What is told below one that isn't decided, though the lab's own search has met all orders, and why it isn't.
NOT_TOLD = "no schedule found shows it, and zlab explore doesn't tell"
AT_BLOCKED = f"{NOT_TOLD} where a process is blocked at an end"
AT_LIMIT = f"{NOT_TOLD}; the model stops where the trace has"


def summary_of(counts):
    """How many of the verdicts there are."""
    holds = counts[HOLDS]
    return f"{counts[BROKEN]} broken, {holds} hold{'s' * (holds == 1)}, {counts[UNDECIDED]} not decided"


def shortest_for(graph, sights):
    """The order with the fewest lines for each assertion that was seen in a search, by its number in the list."""
    at_worlds, at_steps = {}, {}
    for key, sight in enumerate(sights):
        for number in sight.worlds:
            at_worlds.setdefault(number, []).append(key)
        for step in sight.steps:
            at_steps.setdefault(step, []).append(key)
    found = shortest_orders(graph, at_worlds, at_steps)
    for key, sight in enumerate(sights):
        if sight.way is not None and (key not in found or lines_in(sight.way) < lines_in(found[key])):
            found[key] = list(sight.way)
    return found


def small_turns(first, sight):
    """A small schedule for an assertion that was seen in an order by chance."""
    def is_there(trace, world):
        return sight.is_in_trace(trace[:-1 - len(world.last_lines())], world)

    return Shrinking(first, is_there, run_of(first, sight.way).turns).result()


class Verdicts:
    """The verdicts of a scenario, and how they are told. `found` is the search by which they are known, if it is one."""

    def __init__(self, path, exploring, verdicts, found=None):
        self.path, self.exploring, self.verdicts, self.found = path, exploring, verdicts, found
        self.sights = [verdict.sight for verdict in verdicts]

    def count(self, found):
        return sum(verdict.found == found for verdict in self.verdicts)

    @property
    def status(self):
        return 1 if self.count(BROKEN) else 5 if self.count(UNDECIDED) else 0

    def summary(self):
        return summary_of({found: self.count(found) for found in (BROKEN, HOLDS, UNDECIDED)})

    # ---- schedules

    def turns_of_orders(self, graph):
        """For each assertion that was seen in a search its schedule, which the lab runs, by its number in the list."""
        return {key: self.exploring.confirm_order(order) for key, order in shortest_for(graph, self.sights).items()}

    def turns_by_chance(self):
        """The same of orders by chance."""
        found = {}
        for key, sight in enumerate(self.sights):
            if sight.is_seen:
                found[key] = small_turns(self.exploring.first, sight)
                self.exploring.confirm(found[key], played(self.exploring.first.copy(), found[key]))
        return found

    def unconfirmed_turns(self, graph):
        """The same where a search was interrupted, and whether the lab has taken them."""
        orders = shortest_for(graph, self.sights) if graph else {
            key: sight.way for key, sight in enumerate(self.sights) if sight.is_seen}
        return ({key: joined(run_of(self.exploring.roomy, order).turns) for key, order in orders.items()},
                {key: CONFIRMED if self.exploring.has_taken(order) else NOT_YET for key, order in orders.items()})

    # ---- what is told

    def told(self, key, turns):
        """The line of an assertion, and those below it: why it is broken, and by which schedule."""
        verdict = self.verdicts[key]
        assertion = verdict.sight.assertion
        lines = [f"{self.path}:{assertion.line}: {verdict.found}: {assertion.text}"]
        if verdict.found == BROKEN and turns is None:
            lines.append(INDENT + IN_NONE + f", {BY_MODEL}" * verdict.is_by_model)
        elif turns is None:
            lines += [INDENT + told for told in (BY_MODEL * verdict.is_by_model, verdict.why) if told]
        else:
            reasons = self.reasons(verdict.sight, turns) if verdict.found == BROKEN else []
            room = room_text(sum(count for _, count in turns), self.exploring.first.limit)
            lines += [INDENT + line for line in [*reasons, turns_text(turns, self.exploring.telling), room] if line]
        return lines

    def reasons(self, sight, turns):
        """What there is behind the turns that breaks the assertion."""
        telling, world = self.exploring.telling, self.exploring.roomy.copy()
        trace = played(world, turns)
        items = trace[:-1 - len(world.last_lines())]
        last = telling.told(told_ends(items[-1])) if items else ""
        if sight.item:
            return [last]
        if sight.in_worlds:
            return [f"behind {last}" if last else "before the first call"]
        if choices(world):
            graph = self.found.graph
            return [self.found.no_end(graph.numbers[graph.key(world)])]
        why = end_reasons(world, telling)
        return [line for line in why if line.startswith(CAUSES[sight.cause.name])] if sight.cause else [
            end_name(world, telling), *why]

    def default_file(self, key):
        """Where the schedule of an assertion goes: STEM.LINE.turns, with a number for a further one of the line."""
        assertion = self.sights[key].assertion
        same = [sight.assertion for sight in self.sights[:key] if line_of(sight.assertion) == line_of(assertion)]
        stem = "stdin" if str(self.path) == "-" else Path(self.path).stem
        return Path(f"{stem}.{line_of(assertion)}{f'.{len(same) + 1}' if same else ''}.turns")


    # ---- what isn't there

    def missing(self, asserted):
        """For each assertion that speaks of something which was in no order what that is, by its number in the list."""
        names, found = self.exploring.telling.names, {}
        for key, sight in enumerate(self.sights):
            things = [f"{kind or 'object'} {koid}" + (f" (@{names[koid]})" if koid in names else "")
                      for kind, koid in sight.assertion.named_objects() if (kind, koid) in asserted.missing]
            if things:
                found[key] = ", ".join(things)
        return found


class Decided:
    """All assertions of a scenario, decided by a search of all orders or of a part of them. Where the lab's own search
    tells that all hold, that is all. Else what was seen by the model has a schedule which the lab runs. That the rest is in
    no order the lab's own search tells, where it can be asked, and else the model, of which the lab runs each step then."""

    def __init__(self, path, exploring, assertions, most, part=(1, 1)):
        self.path, self.exploring, self.assertions = path, exploring, assertions
        self.asserted = Asserted(assertions)
        self.found, by_model, untold = Searched(exploring, self.asserted, part), (), None
        with so_far(self.found):
            self.answer = ask_alone(exploring, self.asserted.sights, most) if part[1] == 1 else None
        self.is_alone = self.answer is not None
        if not self.is_alone:
            self.found = exploring.search(self.asserted, most, part)
            self.asserted.endless(self.found.endless())
        with so_far(self.found):
            if not self.is_alone and self.found.is_for_lab:
                self.answer, by_model, untold = self.ask(most)
            self.is_all = self.answer is not None and self.answer.is_whole
            self.has_steps = part[1] > 1 or self.is_all and bool(by_model)
            if self.has_steps:
                exploring.confirm_steps(self.found)
            self.verdicts = Verdicts(path, exploring, self.asserted.verdicts(self.is_all, by_model, untold), self.found)
            self.turns = self.verdicts.turns_of_orders(self.found.graph)

    def ask(self, most):
        """The answer of the lab's own search; what nobody has seen and that search doesn't settle either, so that it rests on
        the model; and what isn't told at all, with why."""
        graph, answer = self.found.graph, self.answer_of(most)
        known = self.unseen()
        unsettled = [sight for sight in self.asserted.sights
                     if not sight.is_seen and (sight not in known or not is_settled(sight, answer))]
        untold = {sight: f"{AT_LIMIT} {counted(graph.first.limit, 'item')}" for sight in unsettled if graph.is_cut}
        # that nobody waits in a circle, where somebody waits, is no more than the model's word
        if answer.has_blocked or any(end.is_blocked for end in graph.ends.values()):
            untold |= {sight: AT_BLOCKED for sight in unsettled if is_of_waits(sight) and not sight.is_sometimes}
        return answer, [sight for sight in unsettled if sight not in untold], untold

    def unseen(self):
        """What nobody has seen; but of what is nowhere there is nothing to ask."""
        missing = self.asserted.missing
        return [sight for sight in self.asserted.sights
                if not sight.is_seen and missing.isdisjoint(sight.assertion.named_objects())]

    def answer_of(self, most):
        """The answer of the lab's own search. What it has found where the trace had no room for the model is seen now."""
        answer = None
        while answer is None or answer.last[0] == BAD:
            words = [words for sight in self.unseen() for words in words_for(sight)]
            answer = ask(self.exploring, self.found, most, words)
            if answer.last[0] == BAD:
                self.see_bad(" ".join(answer.last[1:]), answer.turns)
        if self.found.graph.is_cut:
            for run in runs_beyond(self.exploring, self.found, answer):
                self.see([sight for sight in self.unseen() if sight.is_in_trace(run.lines, run.world)], run)
        return answer

    def see(self, sights, run):
        for sight in sights:
            sight.see(Place(None, way=tuple(run.order)))

    def see_bad(self, words, turns):
        """What was asked by these words is seen along the schedule."""
        run = self.exploring.run_along(turns)
        sights = [sight for sight in self.unseen() if words in words_for(sight)]
        if not sights or not all(sight.is_in_trace(run.lines, run.world) for sight in sights):
            raise parting(self.exploring, f"by {turns_text(turns)} the model doesn't come to {words}, and zlab explore does")
        self.see(sights, run)

    def tried(self):
        if self.is_alone:
            return f"all orders (by zlab explore, {counted(int(self.answer.last[1]), 'world')})"
        return tried_text(self.found, self.exploring, self.answer, self.has_steps)

    def refuse_missing(self):
        """Refuses what is in no order, once all were tried by the model."""
        is_known = self.is_all and self.found.is_whole and not self.is_alone
        for key, things in self.verdicts.missing(self.asserted).items() if is_known else ():
            at = f"line {self.verdicts.sights[key].assertion.line}: no order has {things}"
            raise Trouble(at if str(self.path) == "-" else f"{self.path}: {at}")


def line_of(assertion):
    """The number of its line, without the rounds of loops."""
    return assertion.line.split(" ")[0]


def tried_text(found, exploring, answer=None, has_steps=True):
    """Which orders a search has tried, with the answer of the lab's own one, if it was asked; and whether the lab has run
    each step."""
    (part, parts), counts = found.part, found.counts()
    if answer and answer.last[0] == MEMORY:
        orders = "not all orders: memory was refused to zlab explore"
    elif found.graph.has_too_many or answer and not answer.is_whole and not found.graph.is_cut:
        orders = "not all orders: --worlds N takes more"
    elif found.graph.is_cut and answer and answer.is_whole:
        orders = f"all orders, some of which have more than {counted(exploring.first.limit, 'item')}"
    elif found.graph.is_cut:
        orders = f"not all orders: some end where the trace has {exploring.first.limit:,} items, more by a line `limit N`"
    elif counts is None:
        orders = "all orders, some of which go round"
    elif sum(counts.values()) == 1:
        orders = "the only order"
    else:
        orders = f"all {counted(sum(counts.values()), 'order')}"
    whose = f"part {part} of {parts}, " if parts > 1 else ""
    worlds = counted(len(found.graph.came), "world")
    basis = [f"by zlab explore; {worlds} of the model"] if answer and answer.is_whole else [f"{worlds} by the model"]
    return f"{whose}{orders} ({'; '.join([*basis, *['the lab ran each step'] * has_steps])})"
