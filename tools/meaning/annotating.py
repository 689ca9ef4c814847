"""The text of a program with what is known of it in comments."""
from meaning.ending import told_codes
from meaning.image import MOST_BUDGET
from meaning.steps import Turns, count_of
from meaning.texts import bare, is_instruction
from meaning.values import state_text
from meaning.ways import counted_way, shortest_way, ways_to

MOST_SHOWN = 40


def annotated(lines, found, verdict, is_all):
    """All lines: the program's own, what is known before each instruction, and behind them the answer."""
    at, codes = 0, told_codes(found.image)
    for place, line in lines:
        if is_instruction(line):
            yield "; " + known_at(found, at, is_all)
            if at in codes:
                yield f"; {codes[at]}"
            for refusal in found.refusals:
                if refusal.at == at:
                    yield f"; here it is {refusal}{at_fault(refusal)}"
            at += 1
        yield line
    texts = {number: (place, bare(line)) for number, (place, line) in
             enumerate((place, line) for place, line in lines if is_instruction(line))}
    yield from ended(texts, found, verdict)


def at_fault(refusal):
    """The register at fault, and what it has."""
    if refusal.register is None or not refusal.state:
        return ""
    has = f": r{refusal.register} has {refusal.state[refusal.register]}"
    if refusal.other:
        return f"{has} after one way, and {refusal.other[refusal.register]} after the other"
    return has


def known_at(found, at, is_all):
    """What is known before an instruction."""
    state = found.states.get(at)
    if state is None:
        return f"{at} isn't reached" + (", but perhaps behind what is refused" if found.refusals else "")
    before = found.states.get(at - 1)
    goes_on = at in found.leads.get(at - 1, ()) and at not in found.blocks
    steps = found.steps.get(at)
    count = "without end" if steps is None else str(steps)
    if before is not None and goes_on and not is_all:
        return f"{at} [{count}] {state_text(state, before) or 'as before'}"
    told = state_text(state)
    return f"{at} [{count}] {told + ', ' if told else ''}the others 0"


def ended(texts, found, verdict):
    """The answer, and the way to it."""
    for refusal in found.refusals[1:]:
        yield f"; also, without what is refused above: {refusal}"
    if found.verdict != verdict:
        yield f"; the lab names another: {verdict}"
    yield f"; {found.verdict}"
    if not found.refusals:
        yield from counted(texts, found, max(found.leads, key=lambda at: (found.steps.get(at, 0), -at)))
    elif found.refusals[0].cause == "Budget":
        yield from counted(texts, found, found.refusals[0].at)
    elif found.image.code:
        yield from led(texts, found, found.refusals[0])


def counted(texts, found, first):
    """The way that a budget counts."""
    places, again = counted_way(found, first)
    budget, count = found.image.budget, count_of(places)
    if again is not None:
        yield f"; no budget will do: without a wait or an exit it goes round, and {again} comes again"
    elif count > MOST_BUDGET:
        yield f"; no budget will do: this way has {count} instructions without a wait or an exit"
    elif count > budget:
        yield f"; the budget is {budget}, and this way has {count} instructions without a wait or an exit"
    else:
        yield f"; the budget is {budget}, and {max(count, 1)} would do: the longest way has {count}"
    yield from way(texts, places)


def led(texts, found, refusal):
    """The way to where a program is refused."""
    ways = ways_to(found.image, refusal)
    if ways and len(ways) == 1:
        yield "; a way there:"
    elif ways:
        yield f"; two ways that can't meet at {refusal.at}:"
    elif ways is None:
        yield "; the shortest of many ways there, not all of which were tried:"
    else:
        yield "; no single way is refused, but what several leave in common where they meet; the shortest one:"
    ways = ways or [shortest_way(found, refusal.at)]
    for number, places in enumerate(ways):
        if number:
            yield "; and"
        yield from way(texts, places)


def way(texts, places):
    """Instructions in the order in which they follow one another."""
    for number, at in enumerate(places):
        if MOST_SHOWN // 2 <= number < len(places) - MOST_SHOWN // 2:
            if number == MOST_SHOWN // 2:
                yield f";   .. {len(places) - MOST_SHOWN} more .."
            continue
        if isinstance(at, Turns):
            yield f";   {at.first:4} to {at.last}, lines {texts[at.first][0]} to {texts[at.last][0]}, {at.times} times"
            continue
        line, text = texts[at]
        follows = places[number + 1] if number + 1 < len(places) else None
        follows = follows.first if isinstance(follows, Turns) else follows
        jumps = " -- jumps" if follows is not None and follows != at + 1 else ""
        yield f";   {at:4} line {line:4}  {text}{jumps}"
