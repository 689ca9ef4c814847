"""The words by which `zlab explore` is asked whether some order has what an assertion is about."""
from itertools import product

from meaning.asserting import ANY, MESSAGE, NOBODY, Ended, Has, In
from meaning.numbers import STUCK

# What is so just at an end.
AT_END = "not * ready"
# What it is asked of the facts that a process is stuck or blocked in some world: one that ends itself with the code of
# those that are stuck counts as stuck.
ASKED_OF = {"stuck": ("stuck", f"* ended {STUCK}"), "blocked": ("* blocked",)}


def words_for(sight):
    """The words of which some order has one just where it has what the assertion is about, where there are such. Of an end
    they are about handles: what the processes are in there the search writes."""
    facts = sight.in_worlds.facts if sight.in_worlds else ()
    if sight.item:
        item = sight.item
        return [f"{star(item.who)} {star(item.call)} {answer}" for answer in item.answers or ("*",)]
    if sight.at_ends:
        return [" and ".join([AT_END, *way]) for fact in handles_in(sight.at_ends) for way in ways_to_have(fact, False)]
    if len(facts) == 1 and isinstance(facts[0], In):
        return [f"{star(facts[0].who)} {words}" for words in ASKED_OF[facts[0].state]]
    return [of_moments(sum(ways, [])) for ways in product(*map(ways_of, facts))] if facts else []


def handles_in(facts):
    """Those of the facts that are about handles."""
    return [fact for fact in facts.facts if isinstance(fact, Has)]


def of_moments(facts):
    """The words for facts of one moment: one alone that a process has ended would be asked of ends."""
    return " and ".join(facts * 2 if len(facts) == 1 and " ended " in facts[0] else facts)


def ways_of(fact):
    """Lists of words: the fact is so just where all of one of them are; none where there are no such."""
    if isinstance(fact, Has):
        return ways_to_have(fact)
    if isinstance(fact, In):
        return [[f"{star(fact.who)} {f'ended {STUCK}' if fact.state == 'stuck' else fact.state}"]]
    if fact.codes and not fact.is_other:
        return [[f"{star(fact.who)} ended {code}"] for code in fact.codes]
    # one that a line makes has ended where it is neither ready nor waits
    states = ["ready", "blocked", *(f"ended {code}" for code in fact.codes)]
    return [[f"not {fact.who} {state}" for state in states]] if fact.is_by_line else []


def ways_to_have(fact, is_so=True):
    """The same of a fact about a handle; or of where it isn't so."""
    holder = "message" if fact.holder == MESSAGE else "*" if fact.holder in (ANY, NOBODY) else fact.holder
    words = [f"{holder} has {fact.koid}{f' {fact.rights}' if fact.rights else ''}"]
    if not fact.is_by_number:
        words.append(f"{fact.kind} {fact.koid}")
    return [words] if is_so == (fact.holder != NOBODY) else [[f"not {one}"] for one in words]


def star(one):
    return "*" if one == ANY else one
