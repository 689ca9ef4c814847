"""The lab itself, and its answers."""
import os
import signal
import subprocess
import sys
import threading

from meaning.trouble import Answered, Trouble
from meaning.zlt import taken
from programs import named

# What ./run says at each start of a build that isn't proved.
UNPROVED = b"run: an unproved quick build answers"
# Its statuses where it has searched: all was met, an order has what none may have, memory was refused, it was cut.
SEARCHED = (0, 1, 4, 5)


class Lab:
    """The lab's program, which is started in a folder, and may have so many seconds."""

    def __init__(self, program, room=None, seconds=None):
        self.program = named(program)
        self.room, self.seconds = room, seconds
        # how often it was started for a trace
        self.runs = 0
        # the file with numbers that it took, if that has names
        self.file = None

    @property
    def told(self):
        """How a line of standard error is told, if it has other numbers of lines than the file."""
        return self.file.told if self.file else None

    def start(self, words, given, said=subprocess.PIPE, is_apart=False):
        """Its status, what it writes to these words and this standard input, and what it says on standard error,
        unless that goes elsewhere; none where it doesn't end in time. Apart, in a group of its own, all that it
        starts can be ended with it."""
        try:
            process = subprocess.Popen([self.program, *map(str, words)], cwd=self.room, stdin=subprocess.PIPE,
                                       stdout=subprocess.PIPE, stderr=said, start_new_session=is_apart)
        except OSError as error:
            raise Trouble(f"can't start {self.program}: {error.strerror}") from error
        try:
            output, errors = process.communicate(given, self.seconds)
            return process.returncode, output, errors
        except subprocess.TimeoutExpired:
            stop(process, is_apart)
            return None
        except BaseException:
            stop(process, is_apart)
            raise

    def take(self, path, content):
        """A file as the lab takes it: with numbers, where it has names."""
        try:
            content, self.file = taken(path, content, self)
        except Trouble as trouble:
            raise Trouble(f"{trouble}" if str(path) == "-" else f"{path}: {trouble}", trouble.status) from None
        return content

    def answer(self, words, given, is_told=True, said=None):
        """What it writes to the words and to this standard input, and its status. What it says on standard
        error is passed on, if it is to be told, or its lines become those of `said`."""
        reading, writing = os.pipe()
        telling = threading.Event()
        if is_told:
            telling.set()
        teller = threading.Thread(target=pass_on, args=(reading, telling, said, self.told), daemon=True)
        teller.start()
        try:
            status, output, _ = self.start(words, given, writing, True)
        except BaseException:
            telling.clear()
            raise
        finally:
            os.close(writing)
        teller.join(2)
        if status < 0:
            raise Trouble(f"{self.program} was ended by signal {-status}")
        return status, output

    def must(self, words, given):
        """What it writes, where its status is 0; else its answer is passed on, and that is all."""
        status, output = self.answer(words, given)
        if status:
            sys.stdout.buffer.write(output)
            sys.stdout.flush()
            raise Answered(status)
        return output

    def must_boot(self, scenario):
        """Asks whether it takes a scenario without turns; if not, its answer is passed on, and that is all. That there
        are no turns isn't told."""
        status, _ = self.answer([], scenario, is_told=False)
        if status:
            self.must([], scenario)

    def written(self, words, given, fine=(0,)):
        """What it writes, where its status is fine, and it writes anything if that isn't 0; else Trouble says in its words
        what is wrong."""
        status, output, said = self.start(words, given)
        if status not in fine or status and not output:
            lines = [self.told(line) if self.told else line
                     for line in (output + said).decode(errors="replace").splitlines() if line]
            raise Trouble("; ".join(lines[:2]) or f"{self.program} ended with status {status}")
        return output

    def trace(self, scenario, schedule):
        """The lines of the trace of a scenario, which has no schedule, along the turns of one."""
        self.runs += 1
        return self.written([], b"%s--\n%s" % (scenario, schedule)).decode().splitlines()

    def explored(self, scenario, most, bad):
        """The lines of its search over all orders of a scenario, which has no schedule, up to so many worlds, with what no
        order may have."""
        words = ["explore", "/dev/stdin", "--worlds", most, *(f"--bad={one}" for one in bad)]
        return self.written(words, scenario, SEARCHED).decode().splitlines()


def stop(process, is_apart):
    """Ends the program and waits for its end; apart it can clear up what it made."""
    for stream in (process.stdin, process.stdout, process.stderr):
        try:
            if stream:
                stream.close()
        except OSError:
            pass
    try:
        if is_apart:
            os.killpg(process.pid, signal.SIGTERM)
        else:
            process.kill()
    except ProcessLookupError:
        pass
    process.wait()


def pass_on(reading, telling, said, told):
    """Passes standard error on, line by line."""
    with open(reading, "rb") as lines:
        for line in lines:
            text = line.decode("ascii", "replace")
            if not telling.is_set() or line.startswith(UNPROVED):
                continue
            if said is not None:
                said.append(text.rstrip("\n"))
                continue
            sys.stderr.write(told(text) if told else text)
            sys.stderr.flush()
