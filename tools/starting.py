"""How a tool begins and ends: the words that it takes, the program of the lab, and its status."""
import argparse
import os
import re
import signal
import subprocess
import sys
from pathlib import Path

from meaning.lab import Lab
from meaning.trouble import Answered, Trouble
from programs import NO_PROGRAM, TOOLS, TOP, called, installed, is_checkout, is_quick_package

# What the tool is called that runs.
TOOL = Path(sys.argv[0]).name
# The signals by which somebody wants it to end.
ENDINGS = (signal.SIGINT, signal.SIGTERM, signal.SIGHUP)
# What a shell says of a program that was ended as nobody reads any more.
NOBODY_READS = 128 + signal.SIGPIPE
# The proved program, if it is newer than the sources, or else the file of their quick build.
FIND = 'top=$1; . "$top/tools/program.sh"; ' \
       'if is_newer_than_the_sources "$proved"; then echo "$proved"; else quick_of_the_sources; fi'


class Ended(KeyboardInterrupt):
    """Somebody wants this program to end, by the signal of this number."""

    def __init__(self, number):
        super().__init__()
        self.number = number


# ---- words


class Words(argparse.ArgumentParser):
    """The words of a tool, by its own head: what it does, and its form, `: tools/NAME WORDS`; below stands what else is
    told of it. Wrong words are one line."""

    def __init__(self, head):
        first, more = called(head).split("\n\n", 1)
        about, form = re.fullmatch(r"(.*): (\S+ .*)", first, re.DOTALL).groups()
        super().__init__(prog=form.split(" ")[0], usage=form, description=f"{about}.", epilog=more, allow_abbrev=False,
                         formatter_class=argparse.RawDescriptionHelpFormatter)

    def add_lab(self, more=""):
        """The word for the program of the lab."""
        other = "that ./run takes" if is_checkout() else "beside the tools, or on the PATH"
        self.add_argument("--zlab", metavar="PROGRAM", help=f"the lab's program{more}, in place of the one {other}")

    def error(self, message):
        raise Trouble(f"{message}; {self.prog} --help says what it takes")


def number_of(text):
    """The number that a word of the command line is."""
    if not re.fullmatch(r"[0-9]{1,18}", text) or int(text) == 0:
        raise argparse.ArgumentTypeError(f"{text} is no number from 1 on")
    return int(text)


# ---- the program of the lab


def lab_of(program=None):
    """The lab that is named, or the one that there is."""
    lab = Lab(program or find_program())
    if not lab.written(["--version"], b"").startswith(b"zlab "):
        raise Trouble(f"{lab.program} isn't zlab")
    return lab


def find_program():
    """The file of the program that ./run would take; a quick build is made if there is none. Outside of a checkout
    it is the one that is installed."""
    if not is_checkout():
        if is_quick_package():
            say_unproved("an unproved quick build answers")
        return installed_program()
    found = subprocess.run(["bash", "-c", FIND, "bash", TOP], stdout=subprocess.PIPE, text=True)
    program = Path(found.stdout.strip())
    if found.returncode != 0 or not found.stdout.strip():
        raise Trouble("no program: ./build makes one, and --zlab PROGRAM names another")
    if program.parent != TOP / "out/quick":
        return program
    if not program.exists():
        say("makes a quick build, which takes a minute or two and is kept")
        if subprocess.run([TOOLS / "quick-build"], stdout=subprocess.DEVNULL).returncode != 0:
            raise Trouble("no quick build; --zlab PROGRAM names another program")
    say_unproved("an unproved quick build answers (./build proves one, which takes an hour)")
    return program


def installed_program():
    program = installed()
    if program is None:
        raise Trouble(NO_PROGRAM)
    return Path(program)


# ---- the end


def started(main, unwritten=3):
    """Runs main, a function of no arguments that answers the status, and ends the program: one line says what went
    wrong, where something does. `unwritten` is the status where the output can't be written."""
    if sys.stdout is None:
        say("can't write the output: it is closed")
        sys.exit(unwritten)
    for number in ENDINGS:
        # what runs on behind a terminal, say by nohup, stays so
        if signal.getsignal(number) != signal.SIG_IGN:
            signal.signal(number, end)
    try:
        status = main()
        sys.stdout.flush()
    except Trouble as trouble:
        status = complain(trouble, trouble.status)
    except Answered as answered:
        status = answered.status
    except KeyboardInterrupt as interrupt:
        status = complain("interrupted", 128 + getattr(interrupt, "number", signal.SIGINT))
    except BrokenPipeError:
        leave_output()
        status = NOBODY_READS
    except MemoryError:
        status = complain("no memory", 4)
    except OSError as fault:
        status = complain(f"can't write the output: {fault.strerror}", unwritten)
    sys.exit(status)


def end(number, _frame):
    raise Ended(number)


def complain(text, status):
    """The status, once what was written so far and a line that says what went wrong are out."""
    try:
        sys.stdout.flush()
    except OSError:
        leave_output()
    say(text)
    return status


def say(text):
    """A line on standard error, if that is open."""
    try:
        if sys.stderr is not None:
            print(f"{TOOL}: {text}", file=sys.stderr)
    except OSError:
        pass


def say_unproved(text):
    """Says that what answers isn't proved, unless somebody knows that and wants no such line."""
    if os.environ.get("ZLAB_QUIET") != "1":
        say(text)


def leave_output():
    """Nobody takes what is written: what Python still holds of it goes nowhere."""
    os.dup2(os.open(os.devnull, os.O_WRONLY), sys.stdout.fileno())
