"""What tests/try-tools tries of assertions: each try is what it is about, what was seen, and what was wanted."""
import random
import shutil
import subprocess
from pathlib import Path

from meaning.asserting import Known, assertions_in, kinds_of
from meaning.numbers import DEFAULT_RIGHTS, KINDS, RIGHTS
from meaning.scenario import read_scenario
from meaning.trouble import Trouble
from moments import is_moment, worlds_from
from worlds.deciding import Sight
from worlds.world import first_world
from worlds.wording import handles_in, words_for

TOP = Path(__file__).resolve().parent.parent
EXAMPLES = TOP / "examples"
ASSERTIONS = TOP / "tests/tools/assertions"
COVERAGE = TOP / "tests/tools/coverage"
# Nobody knows how often it goes round: its numbers are others each time, and the trace has room for ten.
OUTGROWS = """limit 10
program raw asm
    const r3, 1
again:
    add r2, r2, r3
    jmp again
end
process 1 0 0
"""


def try_assertions(tools):
    """What is told of assertions, each of which was decided by hand: *.told. Those of bell.zlt with numbers for names are
    the same assertions."""
    for told in sorted(ASSERTIONS.glob("*.told")):
        scenario = next(ASSERTIONS.glob(f"{told.stem}.zl[st]"))
        shutil.copy(scenario, tools.room)
        found = tools.explore(scenario.name)
        yield f"assertions of {scenario.name}", (found.returncode, found.stdout, found.stderr), (
            1, told.read_text(), "")
    step = subprocess.run([tools.program, "step", "bell.5.zls", "bell.5.turns"], cwd=tools.room, capture_output=True,
                          text=True)
    yield "the schedule of one", step.stdout.splitlines()[-3:], ["process 5 ended 24", "process 6 ended 22", "end schedule"]
    numbers = (ASSERTIONS / "bell.numbers").read_text()
    found = tools.explore("--assertions", "bell.zlt")
    yield "with numbers for names", (found.returncode, found.stdout), (0, numbers)
    again = [assertion.numbered for line in numbers.splitlines()
             for assertion in assertions_in([("1", f"#? {line}")], Known({}, set(), {}))]
    yield "read again", again, numbers.splitlines()
    ends = tools.explore("--ends", "bell.zlt").stdout.splitlines()[0].split(" (")[0]
    yield "the ends in their place", ends, "3 ends in all 6 orders of calls"


def try_coverage(tools):
    """What is reached by all orders, which was told by hand, and by some."""
    scenario, wanted = COVERAGE / "ways.zlt", (COVERAGE / "ways.told").read_text()
    found = tools.explore("--coverage", scenario)
    yield "coverage", (found.returncode, found.stdout, found.stderr), (0, wanted, "")
    found = tools.explore("--coverage", "--worlds", "1", scenario)
    few = ["look: 1 of 7 instructions reached", "look: line 5 to line 12: not yet reached"]
    yield "coverage of few worlds", (found.returncode, found.stdout.splitlines()[:2]), (5, few)
    found = tools.explore("--coverage", "--random", "1", "--runs", "40", scenario)
    told = [line.replace("never", "not yet").replace("not reached", "not yet reached") for line in wanted.splitlines()]
    yield "coverage by chance", (found.returncode, found.stdout.splitlines()[:-1]), (5, told[:-1])
    last = "10 of 14 instructions reached, 1 of 2 jumps both ways, 5 of 5 answers"
    yield "its last line", found.stdout.splitlines()[-1], f"{last}; 40 orders by chance, seed 1 (the lab ran each)"


def try_undecided(tools):
    """Where not all orders were tried, what was seen counts, and the rest isn't decided; parts add up to the whole."""
    (tools.room / "bell.zlt").write_text((ASSERTIONS / "bell.zlt").read_text())
    whole = tools.explore("bell.zlt").stdout.splitlines()
    verdicts = [line for line in whole if line.startswith("bell.zlt:")]
    # what a part can find is what a schedule shows
    shown = {line for line, below in zip(whole, whole[1:])
             if line in verdicts and below.startswith("    ") and not below.startswith(("    in none", "    by the model"))}
    parts = [tools.explore("--part", f"{part}/2", "bell.zlt").stdout for part in (1, 2)]
    found = {line for part in parts for line in part.splitlines() if ": broken: " in line or ": holds: " in line}
    yield "what parts have seen", found, shown
    added = tools.run("explore", "--sum", given="".join(parts))
    seen = [line for line in added.stdout.splitlines() if line.startswith("bell.zlt:")]
    yield "parts added up", (added.returncode, seen, added.stdout.splitlines()[-1]), (
        1, verdicts, "6 broken, 15 hold, 0 not decided; all orders by the model, in 2 parts")
    added = tools.run("explore", "--sum", given=parts[0])
    yield "a part is missing", added.stdout.splitlines()[-1].split("; ")[1], (
        "not all orders: 1 part of the search is missing, 2")
    by_chance = tools.explore("--random", "1", "--runs", "60", "--force", "bell.zlt").stdout.splitlines()
    yield "by chance", {line for line in by_chance if ": broken: " in line or ": holds: " in line}, shown
    last = by_chance[-1]
    yield "its last line", last, ("4 broken, 4 hold, 13 not decided; 60 orders by chance, seed 1 (the lab ran each)")
    few = tools.explore("--worlds", "1", "bell.zlt")
    yield "few worlds", (few.returncode, few.stdout.splitlines()[-1].split(" (")[0]), (
        5, "0 broken, 0 hold, 21 not decided; not all orders: --worlds N takes more")
    endless = tools.room / "endless.zls"
    endless.write_text("#? never stuck\n#? sometimes 2 ended\n" + OUTGROWS)
    found = tools.explore("endless.zls")
    last = "not all orders: some end where the trace has 10 items, more by a line `limit N`"
    yield "no room", (found.returncode, found.stdout.splitlines()[-1].split(" (")[0]), (
        5, f"0 broken, 0 hold, 2 not decided; {last}")


# It waits for what nobody gives, so it is blocked at the one end, and in no circle.
WAITS = """program raw asm
    const r3, 8
    wait_one r4, r0, r3, r5
end
event
process 1 0 0 2:*
"""
NOT_TOLD = "    no schedule found shows it, and zlab explore doesn't tell"


def try_untold(tools):
    """That nobody waits in a circle, or that somebody who waits does, isn't decided where some end has a blocked process
    and no schedule shows otherwise; the lab has no step to run for that."""
    (tools.room / "waits.zls").write_text("#? never deadlock\n" + WAITS)
    found = tools.explore("waits.zls")
    lines = ["waits.zls:1: not decided: never deadlock", f"{NOT_TOLD} where a process is blocked at an end"]
    yield "no deadlock, and one is blocked", (found.returncode, found.stdout.splitlines(), found.stderr), (
        5, [*lines, "0 broken, 0 hold, 1 not decided; the only order (by zlab explore; 2 worlds of the model)"], "")
    added = tools.run("explore", "--sum", given=found.stdout)
    yield "its sum", (added.returncode, added.stdout.splitlines()[:2]), (5, lines)
    found = tools.run("try-all", "--zlab", tools.program, ".")
    yield "its folder", (found.returncode, found.stdout.splitlines()[-1].split("; ")[1]), (
        5, "0 assertions hold, 0 broken, 1 not decided")
    # at each of its ends at which somebody waits, both wait for each other
    text = (EXAMPLES / "locks-crosswise.zls").read_text()
    (tools.room / "crosswise.zls").write_text("#? never blocked for good, deadlock\n" + text)
    found = tools.explore("crosswise.zls")
    told = [line for line in found.stdout.splitlines() if line.startswith(("crosswise.zls:", NOT_TOLD))]
    wanted = ["crosswise.zls:1: not decided: never blocked for good", lines[1], "crosswise.zls:1: broken: never deadlock"]
    last = "1 broken, 0 hold, 1 not decided; all 2,164 orders (by zlab explore; 88 worlds of the model)"
    yield "a deadlock, and nothing else", (found.returncode, told, found.stdout.splitlines()[-1]), (1, wanted, last)


# 3 polls for ever, and 4 has eleven instructions in front of its one call, and the trace has room for ten: by the model 4
# stays where it is.
POLLS = """#? never 4 process_exit any
#? never 4 stuck
#? never 4 has event 2
#? never no end
limit 10
event
program raw asm
    const r3, 8
again:
    wait_poll r4, r0, r3, r5
    jmp again
end
program raw asm
""" + 11 * "    const r3, 1\n" + """    process_exit r1
end
process 1 0 0 2:16384
process 1 1 0
"""


def try_limits(tools):
    """The lab's own search has no limit, and what it finds beyond that of the model is told too."""
    longer = ASSERTIONS / "longer.zls"
    found = tools.explore("--ends", longer)
    lines = found.stdout.splitlines()
    yield "an end beyond the limit", (found.returncode, lines[0].split(" (")[0], lines[1:]), (
        0, "1 end in all orders of calls, some of which have more than 3 items", [
            "", "some orders: 2 ended 1", "    4 items: a line `limit 4` lets the trace have them", "    2 4", "",
            "No end has other states, by zlab explore; the rest is by the model, which stops where the trace has 3 items."])
    shutil.copy(longer, tools.room)
    told = tools.explore("longer.zls").stdout
    yield "its schedule", stepped(tools, "longer.5")[-3:], ["2 process_exit ended 1", "process 2 ended 1", "end schedule"]
    added = tools.run("explore", "--sum", given=told)
    yield "its sum", (added.returncode, added.stdout.splitlines()[-1].split(";")[0]), (1, "3 broken, 7 hold, 1 not decided")
    # the deadlock is seven items away
    text = (EXAMPLES / "locks-crosswise.zls").read_text().split("\n--\n")[0]
    (tools.room / "crosswise.zls").write_text(f"#? never deadlock\nlimit 5\n{text}\n")
    found = tools.explore("crosswise.zls")
    lines = found.stdout.splitlines()
    yield "a deadlock beyond the limit", (found.returncode, lines[0], lines[1].split(" in ")[0], lines[3]), (
        1, "crosswise.zls:1: broken: never deadlock", "    deadlock: 5 waits",
        "    7 items: a line `limit 7` lets the trace have them")
    yield "its schedule", stepped(tools, "crosswise.1")[-4:], [
        "process 4 ended 0", "process 5 blocked", "process 6 blocked", "end schedule"]


def stepped(tools, name):
    """The lines of the trace of a schedule that was written, and of the scenario beside it."""
    return subprocess.run([tools.program, "step", f"{name}.zls", f"{name}.turns"], cwd=tools.room, capture_output=True,
                          text=True).stdout.splitlines()


def try_left(tools):
    """One that the model leaves where it is, as the trace has no room for it, goes on for the lab."""
    (tools.room / "polls.zls").write_text(POLLS)
    found = tools.explore("polls.zls")
    stops = f"{NOT_TOLD}; the model stops where the trace has 10 items"
    yield "one that the model leaves", (found.returncode, found.stdout.splitlines()), (1, [
        "polls.zls:1: broken: never 4 process_exit any", "    4 process_exit ended 0", "    4 12",
        "    12 items: a line `limit 12` lets the trace have them",
        "    written to polls.1.turns: zlab step polls.1.zls polls.1.turns",
        "polls.zls:2: holds: never 4 stuck", "polls.zls:3: holds: never 4 has event 2",
        "polls.zls:4: not decided: never no end", stops,
        "1 broken, 2 hold, 1 not decided; all orders, some of which have more than 10 items "
        "(by zlab explore; 2 worlds of the model)"])
    told = tools.explore("--ends", "polls.zls").stdout.splitlines()
    yield "its ends", (told[0].split(" in ")[0], told[2]), (
        "0 ends", "Some orders lead to where none comes to an end any more, by zlab explore.")


def try_limits_otherwise(tools):
    """Where the lab's own search hasn't met all worlds either, or comes to something else than the model."""
    longer = ASSERTIONS / "longer.zls"
    limit = "Some orders end where the trace has 3 items: a line `limit N` lets it have more."
    end, last = ["end", "process 2 ended 1", "by 4 items", "2 4"], "2 worlds 1 turns 1 ends"
    for word, status, told in [("cut", 5, "There are more than 100000 worlds: "),
                               ("memory", 4, "Memory was refused to zlab explore: ")]:
        found = tools.run("explore", "--zlab", searching(tools, [*end, f"{word} {last}"], status), "--ends", longer)
        lines = found.stdout.splitlines()
        yield f"beyond the limit: {word}", (
            found.returncode, limit in lines, told in found.stdout, "some orders: 2 ended 1" in lines), (5, True, True, True)
    parts = "explore: zlab explore and the model of explore part on this scenario: "
    wrong = ["end", "process 2 ended 8", "by 4 items", "2 4", f"all {last}"]
    found = tools.run("explore", "--zlab", searching(tools, wrong, 0), "--ends", longer)
    told = f"{parts}2 4 doesn't lead to the end 2 ended 8 of zlab explore\n"
    yield "beyond the limit: another end", (found.returncode, found.stdout, found.stderr), (2, "", told)
    found = tools.run("explore", "--zlab", searching(tools, ["by 4 items", "2 4", "bad 2 stuck"], 1), longer)
    told = f"{parts}by 2 4 the model doesn't come to 2 stuck, and zlab explore does\n"
    yield "beyond the limit: a bad order", (found.returncode, found.stdout, found.stderr), (2, "", told)
    # of one who counts for ever without a call it isn't asked
    (tools.room / "outgrows.zls").write_text("#? never stuck\n" + OUTGROWS)
    found = tools.run("explore", "--zlab", searching(tools, ["of no kind"], 2), "outgrows.zls")
    last = "not all orders: some end where the trace has 10 items, more by a line `limit N` (1 world by the model)"
    yield "beyond all limits", (found.returncode, found.stdout.splitlines()[-1], found.stderr), (
        5, f"0 broken, 0 hold, 1 not decided; {last}", "")


def try_parting(tools):
    """Where the lab does otherwise than the model that is all, whatever is broken."""
    lab = tools.room / "lab"
    lab.write_text(f'#!/usr/bin/env bash\nset -o pipefail\n"{tools.program}" "$@" | sed "s/write PEER_CLOSED/write OK/"\n')
    lab.chmod(0o755)
    found = tools.run("explore", "--zlab", lab, ASSERTIONS / "bell.zlt")
    told = found.stderr.split("; the schedule is ")[0]
    wanted = ("explore: the model of explore is wrong about this scenario: line 3 of the trace is 5 chan_write OK, and by "
              "the model 5 chan_write PEER_CLOSED")
    yield "a wrong model", (found.returncode, found.stdout, told), (2, "", wanted)
    shutil.copy(ASSERTIONS / "bell.zlt", tools.room)
    shutil.copy(ASSERTIONS / "causes.zls", tools.room)
    found = tools.run("try-all", "--zlab", lab, ".")
    yield "a wrong model among others", (found.returncode, found.stdout.splitlines()[-1], found.stderr.count("\n")), (
        2, "0 as wanted, 0 not, 2 without an output; 2 assertions hold, 1 of them by the model, 4 broken, 1 not decided", 1)


# A process that ends with 7 in its one turn; what is asked of it; and a program that searches as it is told.
ONE = "program raw asm\n    process_exit r1\nend\nprocess 1 0 7\n"
ASKED = "#? never 2 stuck, blocked for good\n#? sometimes any any BAD_HANDLE\n"
SEARCHING = """#!/usr/bin/env bash
[ "$1" = explore ] || exec "{program}" "$@"
cat > /dev/null
for line in {written}; do echo "$line"; done
exit {status}
"""
END = ["end", "process 2 ended 7", "by", "2 1"]
LAST = "all 2 worlds 1 turns 1 ends"
# What the lab may write of it, its status, and what explore says then, or how it goes on where all is well.
SEARCHES = {
    "as it is": ([*END, LAST], 0, None),
    "another end": (["end", "process 2 ended 8", "by", "2 1", LAST], 0,
                    "the model has no end 2 ended 8, to which zlab explore comes by 2 1"),
    "an end more": ([*END, "end", "process 2 blocked", "by", "2 1", LAST], 0,
                    "the model has no end 2 blocked, to which zlab explore comes by 2 1"),
    "no end": ([LAST], 0, "zlab explore has no end 2 ended 7, to which the model comes by 2 1"),
    "orders without an end": ([*END, "endless", LAST], 0,
                              "zlab explore has orders that come to no end any more, and the model has none"),
}


def searching(tools, written, status):
    """A program that answers so when it is asked of all orders."""
    lab = tools.room / "searching"
    quoted = " ".join(f"'{line}'" for line in written)
    lab.write_text(SEARCHING.format(program=tools.program, written=quoted, status=status))
    lab.chmod(0o755)
    return lab


def try_searches(tools):
    """Where the lab's own search has another answer than the model that is all, whatever else holds."""
    (tools.room / "one.zls").write_text(ONE)
    (tools.room / "asked.zls").write_text(ASKED + ONE)
    holds = ["asked.zls:1: holds: never 2 stuck", "asked.zls:1: holds: never blocked for good",
             "asked.zls:2: broken: sometimes any any BAD_HANDLE", "    in none of all orders"]
    basis = "the only order (by zlab explore; 2 worlds of the model)"
    for what, (written, status, told) in SEARCHES.items():
        lab = searching(tools, written, status)
        wanted = f"explore: zlab explore and the model of explore part on this scenario: {told}\n" if told else ""
        found = tools.run("explore", "--zlab", lab, "one.zls")
        last = ["No end has other states, by zlab explore; the rest is by the model."] if not told else []
        yield f"a search: {what}", (found.returncode, found.stdout.splitlines()[-1:], found.stderr), (
            2 if told else 0, last, wanted)
        found = tools.run("explore", "--zlab", lab, "asked.zls")
        lines = [] if told else [*holds, f"1 broken, 2 hold, 0 not decided; {basis}"]
        yield f"asked: {what}", (found.returncode, found.stdout.splitlines(), found.stderr), (2 if told else 1, lines, wanted)
    found = tools.run("explore", "--zlab", searching(tools, ["by", "2 1", "bad 2 stuck"], 1), "asked.zls")
    wanted = ("explore: zlab explore and the model of explore part on this scenario: no order of the model has 2 stuck, to "
              "which zlab explore comes by 2 1\n")
    yield "asked: a bad order", (found.returncode, found.stdout, found.stderr), (2, "", wanted)
    found = tools.run("try-all", "--zlab", searching(tools, [LAST], 0), ".")
    told = "try-all: asked.zls: zlab explore and the model of try-all part on this scenario: zlab explore has no end 2 ended 7, "
    yield "a folder: no end", (found.returncode, found.stderr.startswith(told)), (2, True)


# What zlab explore alone can tell to hold, of two processes of three calls each that have nothing to do with each other.
ALONE = """#? never deadlock, blocked for good, no end, goes round
#? never any stuck, 3 any BAD_HANDLE, any blocked
#? never 2 ended 2, 2 ended 1 and 3 ended 4
#? always 2 ended 1
#? at end: 3 ended 1|2 and 2 ended
#? never any has job 1, a message has process 2
#? at end: nobody has job 1 and 3 ended
program raw asm
    close r2, r0
    const r3, 1
    close r2, r0
    process_exit r3
end
process 1 0 0
process 1 0 0
"""


def try_alone(tools):
    """Where zlab explore tells that all assertions hold, the model searches nothing; else it does, and has to agree."""
    (tools.room / "alone.zls").write_text(ALONE)
    found = tools.explore("alone.zls")
    told = [line.partition(":")[2].partition(": ")[2] for line in found.stdout.splitlines()[:-1]]
    wanted = [f"holds: {mode} {claim.strip()}" for mode, claims in [
        ("never", "deadlock, blocked for good, no end, goes round, any stuck, 3 any BAD_HANDLE, any blocked, 2 ended 2, "
                  "2 ended 1 and 3 ended 4"), ("always", "2 ended 1"), ("at end:", "3 ended 1|2 and 2 ended"),
        ("never", "any has job 1, a message has process 2"),
        ("at end:", "nobody has job 1 and 3 ended")]
        for claim in claims.split(",")]
    # each has done none to three of its calls
    last = "0 broken, 14 hold, 0 not decided; all orders (by zlab explore, 16 worlds)"
    yield "alone", (found.returncode, told, found.stdout.splitlines()[-1]), (0, wanted, last)
    added = tools.run("explore", "--sum", given=found.stdout)
    yield "its sum", (added.returncode, added.stdout.splitlines()[-1].split(";")[0]), (0, last.split(";")[0])
    one = tools.room / "one.zls"
    # the model has two worlds, and nobody asks it
    five = "all 5 worlds 1 turns 1 ends"
    for asked, written, status, seen in [
            ("never 2 stuck", [*END, five], 0, "all orders (by zlab explore, 5 worlds)"),
            ("always 2 ended 7", [*END, five], 0, "all orders (by zlab explore, 5 worlds)"),
            ("always 2 ended 6", [*END, five], 1, "the only order (by zlab explore; 2 worlds of the model)"),
            ("never 2 ended", [*END, five], 1, "the only order (by zlab explore; 2 worlds of the model)"),
            ("sometimes 2 ended", [*END, five], 0, "the only order (by zlab explore; 2 worlds of the model)"),
            ("never 2 has job 1", [*END, five], 0, "all orders (by zlab explore, 5 worlds)"),
            ("never 2 has process 2", [*END, five], 0, "all orders (by zlab explore, 5 worlds)"),
            ("never nobody has job 1 and 2 blocked", [*END, five], 0, "all orders (by zlab explore, 5 worlds)"),
            ("never 2 ended other than 7 and a message has job 1", [*END, five], 0, "all orders (by zlab explore, 5 worlds)"),
            ("never any ended other than 7 and 2 has job 1", [*END, five], 0,
             "the only order (by zlab explore; 2 worlds of the model; the lab ran each step)"),
            ("at end: nobody has job 1 and 2 ended 7", [*END, five], 0, "all orders (by zlab explore, 5 worlds)"),
            ("at end: nobody has job 1 and 2 ended 6", [*END, five], 1,
             "the only order (by zlab explore; 2 worlds of the model)"),
            ("always nobody has job 1", [*END, five], 0, "all orders (by zlab explore, 5 worlds)"),
            ("always nobody has job 1", [*END, "endless", five], 2, None),
            ("never 2 ended 8 and 2 ended 9", [*END, five], 0, "all orders (by zlab explore, 5 worlds)"),
            ("always 2 ended 7", ["end", "process 2 ended 8", "by", "2 1", five], 2, None),
            ("never deadlock", ["end", "process 2 blocked", "by", "2 1", five], 2, None),
            ("never no end", [*END, "endless", five], 2, None)]:
        one.write_text(f"#? {asked}\n{ONE}")
        found = tools.run("explore", "--zlab", searching(tools, written, 0), "one.zls")
        lines = found.stdout.splitlines()
        yield f"{asked}: {written[1:-1]}", (found.returncode, lines[-1].split("; ", 1)[1] if lines else None), (status, seen)
    one.write_text(f"#? never 9 stuck\n{ONE}")
    found = tools.explore("one.zls")
    yield "nobody alone", (found.returncode, found.stderr), (2, "explore: one.zls: line 1: no order has process 9\n")


def try_searches_cut(tools):
    """Where the lab's own search hasn't met all worlds not all orders are known, and what it was refused is told."""
    (tools.room / "one.zls").write_text(ONE)
    (tools.room / "asked.zls").write_text(ASKED + "#? never 2 has job 1\n" + ONE)
    undecided = [f"asked.zls:{line}: not decided: {text}" for line, text in [
        (1, "never 2 stuck"), (1, "never blocked for good"), (2, "sometimes any any BAD_HANDLE"), (3, "never 2 has job 1")]]
    for word, status, told, listed in [
            ("cut", 5, "--worlds N takes more", "There are more than 100000 worlds: "),
            ("memory", 4, "memory was refused to zlab explore", "Memory was refused to zlab explore: ")]:
        lab = searching(tools, [*END, f"{word} 2 worlds 1 turns 1 ends"], status)
        found = tools.run("explore", "--zlab", lab, "one.zls")
        lines = found.stdout.splitlines()
        yield f"a search: {word}", (found.returncode, lines[0].split(" (")[0], listed in lines[-1]), (
            5, "1 end in 1 order of calls, which aren't all", True)
        found = tools.run("explore", "--zlab", lab, "asked.zls")
        last = f"0 broken, 0 hold, 4 not decided; not all orders: {told} (2 worlds by the model)"
        yield f"asked: {word}", (found.returncode, found.stdout.splitlines()), (5, [*undecided, last])
        found = tools.run("try-all", "--zlab", lab, ".")
        yield f"a folder: {word}", (found.returncode, found.stdout.splitlines()[-1].split("; ")[1]), (
            5, "0 assertions hold, 0 broken, 4 not decided")
    other = "zlab explore writes other lines than it may: --zlab PROGRAM names another program"
    for written, status, wanted in [(END, 0, other), (["process", LAST], 0, other), (["of no kind"], 2, "of no kind"),
                                    ([], 4, f"{tools.room / 'searching'} ended with status 4")]:
        found = tools.run("explore", "--zlab", searching(tools, written, status), "one.zls")
        yield f"a search: {written}", (found.returncode, found.stdout, found.stderr), (2, "", f"explore: {wanted}\n")


# What some scenario knows of its names and of what its lines make.
KNOWN = Known({"@root": 1, "@left": 2, "@bell": 4, "@client": 6, "@later": 9}, {"@serve"},
              {1: "job", 2: "channel", 3: "channel", 4: "event", 6: "process"})
# By which words zlab explore is asked whether an assertion of it is broken, or holds if it is about sometimes.
WORDED = {
    "never 6 chan_write PEER_CLOSED|OK": ["6 chan_write PEER_CLOSED", "6 chan_write OK"],
    "sometimes any any any": ["* * *"], "never any wait_one blocked": ["* wait_one blocked"],
    "never stuck": ["* stuck", "* * ended -1028"], "never 6 blocked": ["6 * blocked"],
    "never 6 blocked and 5 stuck": ["6 blocked and 5 ended -1028"],
    # one fact alone would be asked of ends
    "never 6 ended 3": ["6 ended 3 and 6 ended 3"],
    "sometimes any ended 3|-4": ["* ended 3 and * ended 3", "* ended -4 and * ended -4"],
    # a process that no line makes may not be there yet
    "never 6 ended": ["not 6 ready and not 6 blocked"], "never 9 ended": [], "never any ended": [],
    "never 9 ended other than 0": [],
    "never 6 ended other than 0|1": ["not 6 ready and not 6 blocked and not 6 ended 0 and not 6 ended 1"],
    "never @client ended and any has @bell": ["not 6 ready and not 6 blocked and * has 4"],
    "never any ended other than 0 and 6 has @bell": [], "never 9 ended and nobody has @bell": [],
    "never 9 ended 0 and nobody has @bell": ["9 ended 0 and not * has 4"],
    "never nobody has @bell": ["not * has 4"], "sometimes nobody has event 4 with WAIT": ["not * has 4 16384"],
    "never a message has @bell with SIGNAL|WAIT": ["message has 4 20480"], "never a message has object 9": ["message has 9"],
    # a number that no line gives may be another object's in another order
    "never any has event 9": ["* has 9 and event 9"], "never 6 has @later": ["6 has 9"],
    "never 6 has process 9 with WAIT": ["6 has 9 16384 and process 9"],
    "never nobody has event 9": ["not * has 9", "not event 9"],
    "never a message has event 9 and 6 ended 0|1": ["message has 9 and event 9 and 6 ended 0",
                                                    "message has 9 and event 9 and 6 ended 1"],
    "never nobody has event 9 and 6 ended 0|1": ["not * has 9 and 6 ended 0", "not * has 9 and 6 ended 1",
                                                 "not event 9 and 6 ended 0", "not event 9 and 6 ended 1"],
    # what processes are in at ends the search writes
    "at end: 6 ended 0 and 5 blocked": [], "always any ended other than 0": [],
    "at end: any ended 1 and 6 has @bell with WAIT": ["not * ready and not 6 has 4 16384"],
    "at end: nobody has @bell": ["not * ready and * has 4"], "always any has @left": ["not * ready and not * has 2"],
    "always nobody has event 9 with WAIT": ["not * ready and * has 9 16384 and event 9"],
    "at end: a message has event 9": ["not * ready and not message has 9", "not * ready and not event 9"],
    "at end: 6 has @left and nobody has @bell": ["not * ready and not 6 has 2", "not * ready and * has 4"],
    "never deadlock": [], "sometimes no end": [],
}


def try_wording(_):
    """By which words zlab explore is asked of an assertion."""
    for text, words in WORDED.items():
        yield f"the words for {text}", words_for(Sight(assertions_in([("1", f"#? {text}")], KNOWN)[0])), words


# Scenarios in whose worlds words are compared with what they stand for; so many assertions of each.
COMPARED = [*(ASSERTIONS / f"{name}.zls" for name in ("forms", "held", "made", "sent", "waits")),
            *(EXAMPLES / f"{name}.zls" for name in ("child-in-job", "child-in-time", "event-sent", "in-flight",
                                                    "locks-crosswise", "never-started"))]
ASSERTED = 300


def some_fact(worlds, chance):
    """A fact about what some of the worlds have, or about what none has."""
    world = chance.choice(worlds)
    who = chance.choice([*world.processes, *world.processes, "any"])
    if chance.random() < 0.4:
        codes = "|".join(chance.choices(["0", "7", "24", "-1028", "-1024", "42"], k=chance.choice([1, 1, 2])))
        ended = ["ended", f"ended {codes}", f"ended {codes}", f"ended other than {codes}"]
        return f"{who} {chance.choice(['blocked', 'stuck', *ended])}"
    koid = chance.choice([*world.objects, world.next_koid])
    kind = world.objects[koid].kind if koid in world.objects else chance.choice([*KINDS])
    rights = [name for name, bit in RIGHTS.items() if DEFAULT_RIGHTS[kind] & bit]
    asked = f" with {'|'.join(chance.sample(rights, chance.choice([1, 1, 2])))}" if chance.random() < 0.5 else ""
    return f"{chance.choice([who, who, 'nobody', 'a message'])} has {chance.choice([kind, kind, 'object'])} {koid}{asked}"


def words_apart(scenario, worlds, chance):
    """Assertions of which the words are so in other worlds than what they stand for, and how many were compared."""
    known, apart, compared = Known({}, set(), kinds_of(scenario)), [], 0
    for _ in range(ASSERTED):
        text = chance.choice(["never ", "never ", "at end: "]) + " and ".join(
            some_fact(worlds, chance) for _ in range(chance.choice([1, 1, 2, 3])))
        try:
            sight = Sight(assertions_in([("1", f"#? {text}")], known)[0])
        except Trouble:
            # another line may have made an object of this number, without this right
            continue
        if sight.at_ends:
            sight.at_ends = sight.at_ends._replace(facts=tuple(handles_in(sight.at_ends)))
        words = words_for(sight)
        # those that are about items aren't of worlds
        if words and not any(one.split(" ")[1:] in (["stuck"], ["*", "blocked"], ["*", "ended", "-1028"]) for one in words):
            compared += 1
            if any(any(is_moment(one, world) for one in words) != sight.is_in_trace([], world) for world in worlds):
                apart.append((text, words))
    return apart, compared


def try_words_in_worlds(_):
    """The words by which zlab explore is asked are so in just those worlds of the model in which what they stand for is."""
    for path in COMPARED:
        scenario = read_scenario(path.read_text())
        worlds = worlds_from(first_world(scenario, limit=1000), 1000)
        apart, compared = words_apart(scenario, worlds, random.Random(path.name))
        yield f"words in the worlds of {path.name}", (apart, compared > ASSERTED / 4), ([], True)


def try_refused_assertions(tools):
    """Wrong assertions are refused before anything is tried, and what no order has behind all orders."""
    for line in (ASSERTIONS / "refused").read_text().splitlines():
        if line.startswith("# "):
            continue
        text, _, told = line.partition(" => ")
        try:
            seen = str(assertions_in([("3", f"#? {text}")], KNOWN))
        except Trouble as trouble:
            seen = str(trouble)
        yield f"the assertion {text}", seen, f"line 3: {told}"
    text = (ASSERTIONS / "causes.zls").read_text()
    for line, told in [("#? never 3 chan_write PEERCLOSED", "PEERCLOSED is no status; did you mean PEER_CLOSED?"),
                       ("#? never @clint stuck", "@clint isn't the name of an object"),
                       ("#? never deadlock\r", "there is a carriage return; lines end with a line feed alone"),
                       ("#? never dead\0lock", "there is a NUL")]:
        (tools.room / "wrong.zls").write_text(f"{text}{line}\n", newline="\n")
        found = tools.explore("wrong.zls")
        wanted = f"explore: wrong.zls: line {text.count(chr(10)) + 1}: {told}\n"
        yield f"refused: {line}", (found.returncode, found.stdout, found.stderr), (2, "", wanted)
    (tools.room / "nobody.zls").write_text(f"{text}#? never 9 stuck\n")
    found = tools.explore("nobody.zls")
    wanted = f"explore: nobody.zls: line {text.count(chr(10)) + 1}: no order has process 9\n"
    yield "nobody", (found.returncode, found.stderr), (2, wanted)
    parts = [tools.explore("--part", f"{part}/2", "nobody.zls") for part in (1, 2)]
    yield "nobody in parts", [part.returncode for part in parts], [1, 1]
    found = tools.run("explore", "--sum", given="".join(part.stdout for part in parts))
    yield "nobody in their sum", (found.returncode, found.stderr.endswith(": no order has process 9\n")), (2, True)
    yield "--turns", tools.explore("--turns", "one.turns", ASSERTIONS / "bell.zlt").returncode, 2
    closed = subprocess.run(["bash", "-c", 'exec "$@" >&-', "bash", TOP / "tools/explore", "--zlab", tools.program,
                             ASSERTIONS / "bell.zlt"], cwd=tools.room, capture_output=True, text=True)
    yield "a closed output", (closed.returncode, closed.stderr), (2, "explore: can't write the output: it is closed\n")
    loops = "for i in 1..2\n@p[i] = process @root 2 0\n#? never @p[i] stuck\n#? never @p[j] stuck\ndone\n"
    (tools.room / "loops.zlt").write_text(text.replace("process 1 2 0\n", loops))
    found = tools.explore("loops.zlt")
    wanted = (f"explore: loops.zlt: line {text.count(chr(10)) + 3} (i = 1): @p[j] isn't the name of an object; "
              "did you mean @p[2]?\n")
    yield "names in loops", found.stderr, wanted


def try_folder_of_assertions(tools):
    """Assertions of all scenarios of a folder, and outputs that are written."""
    def found(*words):
        done = tools.run("try-all", "--zlab", tools.program, *words, "all")
        return done.returncode, done.stdout.splitlines()

    folder = tools.room / "all"
    folder.mkdir()
    shutil.copy(EXAMPLES / "event.zls", folder)
    for name in ("bell.zlt", "causes.zls"):
        shutil.copy(ASSERTIONS / name, folder)
    told = [line for name in ("bell", "causes") for line in (ASSERTIONS / f"{name}.told").read_text().splitlines()]
    broken = [f"all/{line}" for line in told if ": broken: " in line]
    status, lines = found()
    last = "0 as wanted, 0 not, 3 without an output; 17 assertions hold, 1 of them by the model, 10 broken, 1 not decided"
    yield "assertions of a folder", (status, [line for line in lines if ": broken: " in line], lines[-1]), (1, broken, last)
    yield "no files of them", sorted(path.name for path in tools.room.iterdir()), ["all"]
    status, lines = found("--worlds", "1")
    yield "few worlds", (status, lines[-1].split("; ")[1]), (5, "0 assertions hold, 0 broken, 28 not decided")
    yield "no orders, no outputs", found("--no-orders")[0], 2
    wanted = (EXAMPLES / "event.zls.stdout").read_text()
    status, lines = found("--update", "--no-orders")
    yield "written", (status, lines[-1], (folder / "event.zls.stdout").read_text()), (
        0, "0 as wanted, 0 not, 0 without an output, 3 written", wanted)
    (folder / "event.zls.stdout").write_text("mine\n")
    (folder / "bell.zlt.stdout").unlink()
    (folder / "bell.zlt.end").write_text("process 5 ended 1\nend schedule\n")
    status, lines = found("--update", "--no-orders")
    yield "not written over", (status, lines[-1], (folder / "event.zls.stdout").read_text()), (
        1, "1 as wanted, 2 not, 0 without an output, 0 written", "mine\n")
    status, lines = found("--update", "--force", "--no-orders")
    # of bell.zlt the last lines: a has sent, and nobody has looked
    yield "by force", (status, lines[-1], (folder / "event.zls.stdout").read_text()), (
        0, "1 as wanted, 0 not, 0 without an output, 2 written", wanted)
    yield "its last lines", (folder / "bell.zlt.end").read_text(), "process 5 ended 0\nprocess 6 ready\nend schedule\n"
    yield "all as wanted", found("--no-orders"), (0, ["3 as wanted, 0 not, 0 without an output"])
    (folder / "wrong.zls").write_text("#? nevr stuck\nevent\n")
    (folder / "event.zls.stdout").write_text("mine\n")
    yield "a wrong assertion", found(), (2, [])
