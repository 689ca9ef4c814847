"""What programs say as they run: comments `;! got r5` behind instructions, and registers that are watched."""
import re
from dataclasses import dataclass

from meaning.naming import meant
from meaning.texts import REGISTER
from meaning.trouble import Trouble

MARK = ";!"
# A register in a comment, and in front of it perhaps the name by which it is told.
SHOWN = re.compile(rf"(?:\b([A-Za-z]\w*)=)?\b({REGISTER.pattern})\b", re.A)
WATCHED = re.compile(r"(.+)\.(r[0-9]{1,2})")


class Origins:
    """The lines of instructions, as they are told: by the author's file, where the lab's has others."""

    def __init__(self, programs, told):
        self.programs, self.told = programs, told or str
        self.lines = {}

    def told_at(self, program, place):
        lines = self.programs[program].lines
        # a program of digits has no lines of its own
        return self.told(f"line {lines[place]}") if lines else f"instruction {place}"

    def line_of(self, program, place):
        """The line's number, or 0 where the instruction has none."""
        if (program, place) not in self.lines:
            lines = self.programs[program].lines
            has_line = lines and place < len(lines)
            self.lines[program, place] = int(self.told_at(program, place).split()[1]) if has_line else 0
        return self.lines[program, place]


def shown(value):
    return f"{value} ({value:#x})"


def printable(text):
    return "".join(letter if letter.isprintable() else "?" for letter in text)


def says_of(program, origins):
    """What stands behind ;! at the instructions of a program, by their places."""
    found = {}
    places = {line: place for place, line in enumerate(program.lines or [])}
    for line, text in program.source if places else []:
        if line in places and MARK in text:
            found[places[line]] = printable(text.split(MARK, 1)[1].strip())
        elif text.strip().startswith(MARK):
            raise Trouble(f"{origins.told(f'line {line}')}: {MARK} stands behind an instruction")
    return found


@dataclass
class Watch:
    """A register that is watched, and what it had when it was looked at last."""

    pid: int
    register: int
    value: int = 0


class Speaking:
    """A watcher of the instructions of all processes, which writes what is said."""

    def __init__(self, world, telling, origins, says):
        self.world, self.telling, self.origins = world, telling, origins
        self.says = [says_of(program, origins) if says else {} for program in world.programs]
        self.watches = []
        self.item = 0

    @property
    def is_silent(self):
        """Whether nothing can be said."""
        return not self.watches and not any(self.says)

    def watch(self, words):
        """A register of a process, as `client.r5`."""
        found = WATCHED.fullmatch(words)
        if not found or not REGISTER.fullmatch(found[2]):
            raise Trouble(f"--watch {words}: a register is named as client.r5, or 6.r5")
        names = {name: koid for koid, name in self.telling.names.items()}
        who = found[1].removeprefix("@")
        if who not in names and not re.fullmatch("[0-9]{1,7}", who):
            raise Trouble(f"--watch {words}: nobody is called {who}{meant(who, names)}")
        pid = names.get(who) or int(who)
        if pid in self.world.objects and pid not in self.world.processes:
            raise Trouble(f"--watch {words}: {who} is {self.world.objects[pid].kind} {pid}, and no process")
        watch = Watch(pid, int(found[2][1:]))
        if pid in self.world.processes:
            watch.value = self.world.processes[pid].cpu.registers[watch.register]
        self.watches.append(watch)

    def done(self, pid, by, place):
        """An instruction was done: says what its comment says, and which watched registers are new."""
        program = self.world.processes[by].program
        registers = self.world.processes[pid].cpu.registers
        if pid == by and place in self.says[program]:
            said = SHOWN.sub(lambda found: f"{found[1] or found[2]} = {shown(registers[int(found[2][1:])])}",
                             self.says[program][place])
            self.say(pid, program, place, said or self.world.programs[program].texts[place])
        for watch in self.watches:
            if watch.pid == pid and watch.value != registers[watch.register]:
                watch.value = registers[watch.register]
                self.say(pid, program, place, f"r{watch.register} = {shown(watch.value)}")

    def say(self, pid, program, place, text):
        print(f"{self.telling.who(pid)}: {text}   {self.origins.told_at(program, place)}, item {self.item}")

    def check(self):
        """Each process that is watched was there."""
        for watch in self.watches:
            if watch.pid not in self.world.processes:
                raise Trouble(f"--watch: nobody was {self.telling.who(watch.pid)}")
