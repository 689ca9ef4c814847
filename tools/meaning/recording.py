"""What the page of a run shows: its items, and the state behind each of them, as one value for JSON.

A state is a number of records by keys: of a process where it stands (`p`) and its handles (`h`), of an object all that
is known of it (`o`). Each record is kept once, and a state has their numbers. Of long runs each n-th state is kept, and
of the others what changed, from which the page reckons them.
"""
import json
import re

from meaning.about import message_text, packet_text
from meaning.codes import told_ends
from meaning.holding import awaited_text
from meaning.numbers import rights_text, signals_text

# So many states are kept at most, with so many numbers in all of them.
MOST_STATES = 5_000
MOST_NUMBERS = 4_000_000
# Of a queue so many messages or packets are shown.
MOST_LYING = 20
GOES_ON = re.compile(r"\bgoes on at ([0-9]+)$")
LIVING = ("ready", "blocked")


class Table:
    """Values, each once, by their numbers."""

    def __init__(self):
        self.values, self.numbers = [], {}

    def number(self, value):
        text = value if isinstance(value, str) else json.dumps(value)
        if text not in self.numbers:
            self.numbers[text] = len(self.values)
            self.values.append(value)
        return self.numbers[text]


class Recording:
    """Goes along with a follower, and keeps what there is at each stop: at first, and behind each n-th item."""

    def __init__(self, follower, telling, origins, each=1):
        self.follower, self.telling, self.origins, self.each = follower, telling, origins, each
        self.texts, self.records, self.keys = Table(), Table(), Table()
        self.items, self.changes = [], []
        # the number of the record of each key now, and what objects were when theirs was made
        self.state, self.seen = {}, {}
        self.states = {}
        self.stop(None)

    @property
    def world(self):
        return self.follower.world

    # ---- stops

    def add(self, number, followed, is_last):
        """An item was done. Only the stops are kept."""
        if number % self.each == 0 or is_last:
            self.note(number, followed)
            self.stop(followed.item if self.each == 1 else None)

    def note(self, number, followed):
        """An item as the page tells it."""
        item, done = followed.item, followed.done
        program = self.world.processes[item.pid].program
        line, code = self.code(program, followed.place)
        # an end is told with the item
        about = "; ".join(done.operands + [text for text in done.about if not text.startswith("ended ")])
        about = GOES_ON.sub(lambda found: f"goes on at {self.code(program, int(found[1]))[1]}", about)
        told = [self.telling.told(told_ends(item.text)), code, self.telling.told(about)]
        came = [self.texts.number(self.telling.told(one.text)) for one in done.came]
        self.items.append([number, item.pid, line, *map(self.texts.number, told), came])

    def code(self, program, place):
        """The line of an instruction, or 0, and its text behind its line, or else its number."""
        texts = self.world.programs[program].texts
        line = self.origins.line_of(program, place)
        text = texts[place] if place < len(texts) else "no instruction"
        return line, f"line {line}: {text}" if line else f"{place}: {text}"

    def stop(self, item):
        """What is new since the last stop, if that was one item before."""
        changed = {}
        for pid, process in self.world.processes.items():
            is_actor = item is None or item.pid == pid
            if is_actor or self.states.get(pid) != process.state:
                self.states[pid] = process.state
                changed[f"{pid}p"] = self.where(pid, process)
                changed[f"{pid}h"] = self.handles(pid, process)
        # a local instruction changes no object
        if item is None or item.name != "run":
            changed |= self.objects()
        self.keep(changed)

    def keep(self, changed):
        """Notes which records are new, and which keys are gone."""
        news = []
        for key, record in changed.items():
            number = -1 if record is None else self.records.number(record)
            if self.state.get(key, -1) != number:
                self.state[key] = number
                news += [self.keys.number(key), number]
        self.changes.append(news)

    # ---- records

    def where(self, pid, process):
        """Where a process stands."""
        program, place = self.world.programs[process.program], process.cpu.place
        record = {"who": self.telling.who(pid), "name": self.telling.told(f"process {pid}"), "pid": pid,
                  "state": told_ends(process.state_text()),
                  "program": self.telling.told(f"program {process.program}, {'checked' if program.is_checked else 'raw'}")}
        if process.state in LIVING:
            record["line"], record["next"] = self.code(process.program, place)
        if process.awaits:
            record |= {"awaits": process.awaits.koid, "waits": self.telling.told(awaited_text(self.world, process.awaits))}
        return record

    def handles(self, pid, process):
        """The handles of a process: each with its registers, its object and its rights."""
        if process.state not in LIVING:
            return None
        return [[value, self.follower.carrying.told(pid, value), entry.koid, self.title(entry.koid, entry.kind),
                 rights_text(entry.rights, entry.kind)] for value, entry in sorted(process.handles.items())]

    def title(self, koid, kind):
        return self.telling.told(f"{kind} {koid}")

    def objects(self):
        """The records of all objects that aren't as they were, and of those that are gone."""
        changed = {f"{koid}o": None for koid in self.seen.keys() - self.world.objects.keys()}
        for koid in self.seen.keys() - self.world.objects.keys():
            del self.seen[koid]
        for koid, thing in self.world.objects.items():
            now = thing, self.world.active(koid), [wait for wait in self.world.waits if wait.koid == koid]
            before = self.seen.get(koid)
            if before is None or before[0] is not thing or before[1:] != now[1:]:
                self.seen[koid] = now
                changed[f"{koid}o"] = self.thing(koid, *now)
        return changed

    def thing(self, koid, thing, active, waits):
        """All that is known of an object."""
        told = self.telling.told
        record = {"koid": koid, "kind": thing.kind, "title": self.title(koid, thing.kind),
                  "signals": signals_text(active, thing.kind), "raised": bool(thing.raised)}
        if thing.peer:
            record["peer"] = thing.peer
        record |= self.lying("messages", thing.queue, lambda message: [
            self.texts.number(told(f"a message of process {message.sent.by}: {message_text(message)}")),
            [[entry.koid, rights_text(entry.rights, entry.kind)] for entry in message.entries]])
        record |= self.lying("packets", thing.packets, lambda packet: self.texts.number(told(packet_text(packet))))
        if waits:
            record["waits"] = [told(f"process {wait.pid} has a wait, key {wait.key}, port {wait.port},"
                                    f" for {signals_text(wait.mask, thing.kind)}") for wait in waits]
        if thing.policy:
            record["policy"] = [f"{condition} {action}" for condition, action in thing.policy]
        return record

    def lying(self, name, queue, known):
        """What is known of the first things in a queue, and how many more there are."""
        more = {f"more {name}": len(queue) - MOST_LYING} if len(queue) > MOST_LYING else {}
        return ({name: [known(one) for one in queue[:MOST_LYING]]} | more) if queue else {}

    # ---- the whole

    def known(self):
        """All of it: states kept, and changes if some are to be reckoned."""
        stops = len(self.changes)
        apart = max(-(-stops // MOST_STATES), -(-stops * 2 * len(self.keys.values) // MOST_NUMBERS), 1)
        kept, state = [], {}
        for stop, news in enumerate(self.changes):
            state.update(zip(news[::2], news[1::2]))
            if stop % apart == 0:
                kept.append([number for key, record in state.items() if record >= 0 for number in (key, record)])
        return {"texts": self.texts.values, "records": self.records.values, "keys": self.keys.values, "items": self.items,
                "apart": apart, "kept": kept, "changes": self.changes if apart > 1 else []}
