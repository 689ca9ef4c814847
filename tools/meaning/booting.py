"""The world before the first turn, by the statements of a scenario that the lab doesn't refuse."""
from meaning.calls import set_policy
from meaning.numbers import DEFAULT_RIGHTS
from meaning.objects import PAIRS, Entry
from meaning.scenario import handle_in
from meaning.trouble import Trouble
from meaning.world import World


def boot(scenario, world=None):
    """The world that the statements make, in a new one or in that which is given."""
    world = world or World(scenario.programs)
    world.make_job(0)
    for place, words in scenario.statements:
        try:
            do(world, words)
        except (KeyError, IndexError, ValueError, AttributeError) as error:
            raise Trouble(f"line {place} of the scenario isn't understood") from error
    world.has_dropped = True
    world.settle()
    return world


def do(world, words):
    """One statement."""
    if words[0] in ("event", "port"):
        world.make(words[0])
    elif words[0] in PAIRS:
        world.make_pair(words[0])
    elif words[0] == "job":
        world.make_job(int(words[1]))
    elif words[0] == "policy":
        set_policy(world, int(words[1]), words[2], words[3])
    elif words[0] == "process":
        job, program, word = (int(number) for number in words[1:4])
        pid = world.make_process(job, program)
        world.start(pid, [entry_in(world, handle) for handle in words[4:]], word)
    elif words[0] not in ("program", "limit"):
        raise KeyError(words[0])


def entry_in(world, word):
    """The entry of a handle of a line."""
    koid, rights = handle_in(word)
    kind = world.objects[koid].kind
    return Entry(koid, kind, DEFAULT_RIGHTS[kind] if rights is None else rights)
