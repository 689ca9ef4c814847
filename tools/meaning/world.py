"""The world of a running lab: its objects and processes, what becomes of those that nobody holds, and who wakes.

It is these programs' own model by the rules of docs/calls, not the lab's, and nothing of it is proved.
"""
from typing import NamedTuple

from meaning.numbers import (
    KILLED, NO_JOBS, NO_PROCESSES, PEER_CLOSED, READABLE, STATUSES, TERMINATED, WRITABLE,
)
from meaning.objects import Object, Packet, Process, Sent, first_entry


class Came(NamedTuple):
    """Something that came of a step: of which object, and what of it.

    over    a process other than the one whose step it is has ended, with what code
    gone    an object is held by nothing any more: what it was
    packet  a registered wait has given its packet: that packet, of the port
    woken   a process goes on: what it had waited for, and the packet if it got one
    """

    kind: str
    koid: int
    what: object


class World:
    """All objects by koid, every process ever made, and waits and blocked processes, the longest there first."""

    def __init__(self, programs):
        self.programs = programs
        self.objects, self.processes = {}, {}
        self.waits, self.blocked = [], []
        self.next_koid = 1
        # something may be held by nothing any more
        self.has_dropped = False
        # where a trace is followed: the number of the item that is being done, and whose item it is
        self.place, self.actor = 0, 0
        self.came = []

    # ---- objects

    def add(self, thing):
        """A new object; its koid."""
        koid = self.next_koid
        self.next_koid += 1
        self.objects[koid] = thing
        return koid

    def change(self, koid, **fields):
        self.objects[koid] = self.objects[koid]._replace(**fields)

    def make(self, kind):
        return self.add(Object(kind))

    def make_pair(self, kind):
        """Two new ends, each the other's peer; their koids."""
        first = self.add(Object(kind))
        second = self.add(Object(kind, peer=first))
        self.change(first, peer=second)
        return first, second

    def make_job(self, job):
        above = self.objects.get(job, Object("job"))
        return self.add(Object("job", job=job, depth=above.depth + 1, policy=above.policy))

    def make_process(self, job, program):
        pid = self.add(Object("process", job=job))
        self.processes[pid] = Process(program, self.programs[program].image)
        return pid

    def first_entry(self, koid):
        return first_entry(koid, self.objects[koid].kind)

    def lives(self, koid):
        """Whether a process or a job lives."""
        return self.processes[koid].lives if koid in self.processes else not self.objects[koid].is_killed

    def has_child(self, job, kind):
        """Whether a living job or process stands directly below the job."""
        return any(thing.job == job and thing.kind == kind and self.lives(koid) for koid, thing in self.objects.items())

    def is_within(self, top, koid):
        """Whether the process or job is the top one, or stands below it."""
        while koid != top and koid in self.objects:
            koid = self.objects[koid].job
        return koid == top

    def action_for(self, job, condition):
        """What the policy of the job says to the condition; unset it allows."""
        return dict(self.objects[job].policy).get(condition, "ALLOW")

    def active(self, koid):
        """The active signals of an object, none where it is gone."""
        thing = self.objects.get(koid)
        if thing is None:
            return 0
        signals = thing.raised
        if thing.kind == "channel":
            signals |= (READABLE if thing.queue else 0) | (WRITABLE if thing.peer in self.objects else PEER_CLOSED)
        elif thing.kind == "eventpair":
            signals |= 0 if thing.peer in self.objects else PEER_CLOSED
        elif thing.kind == "process" and not self.processes[koid].lives:
            signals |= TERMINATED
        elif thing.kind == "job":
            signals |= TERMINATED if thing.is_killed else 0
            signals |= 0 if self.has_child(koid, "job") else NO_JOBS
            signals |= 0 if self.has_child(koid, "process") else NO_PROCESSES
        return signals

    def sent(self, number=0):
        """What is known of a sending where a trace is followed; else nothing, so that worlds can be the same."""
        return Sent(self.actor, self.place, number) if self.place else None

    # ---- processes

    def start(self, pid, entries, word):
        """The process is ready, with handles in register 0 and from 2 on, and the word in 1."""
        process = self.processes[pid]
        process.state = "ready"
        registers = process.cpu.registers
        for register, entry in zip((0, *range(2, 8)), entries):
            registers[register] = process.insert(entry)
        registers[1] = word

    def take_out(self, process, value):
        """The handle leaves the table, if it is live. Its waits end when the world settles."""
        if value in process.handles:
            self.has_dropped = True
            process.freed.append(value)
            del process.handles[value]

    def end(self, pid, code):
        """The process ends, if it lives, and its handles close."""
        process = self.processes[pid]
        if not process.lives:
            return
        self.has_dropped = True
        process.end(code)
        self.blocked = [other for other in self.blocked if other != pid]
        if pid != self.actor:
            self.came.append(Came("over", pid, code))

    def kill(self, koid):
        """Kills a process, or a job and all below it."""
        # what holds the job above it may be gone
        self.has_dropped = True
        if koid in self.processes:
            self.end(koid, KILLED)
        elif not self.objects[koid].is_killed:
            self.change(koid, is_killed=True)
            for below in [other for other, thing in self.objects.items() if thing.job == koid]:
                self.kill(below)

    def answer(self, process, registers, values):
        """The registers get the values, and the next instruction stands next."""
        for register, value in zip(registers, values):
            process.cpu.registers[register] = value
        process.cpu.place += 1

    def last_lines(self):
        """The lines of the processes at the end of a trace, by koid."""
        return [f"process {pid} {process.state_text()}" for pid, process in sorted(self.processes.items())]

    def take_packet(self, port):
        """The first packet of the port leaves it; nothing where there is none."""
        packets = self.objects[port].packets if port in self.objects else ()
        if not packets:
            return None
        self.change(port, packets=packets[1:])
        return packets[0]

    # ---- after a step

    def settle(self):
        """Removes what nothing holds, queues packets of waits, and wakes who waits: what came of the step."""
        if self.has_dropped:
            self.remove()
        if self.waits:
            self.fire()
        if self.blocked:
            self.wake()
        came, self.came = self.came, []
        return came

    def held(self):
        """The koids that a table, a queue, a running process or a living child holds."""
        koids = {entry.koid for process in self.processes.values() for entry in process.handles.values()}
        for koid, thing in self.objects.items():
            if thing.queue:
                koids.update(entry.koid for message in thing.queue for entry in message.entries)
            elif thing.kind == "process":
                if self.processes[koid].state in ("ready", "blocked"):
                    koids.add(koid)
                if self.processes[koid].lives:
                    koids.add(thing.job)
            elif thing.kind == "job" and not thing.is_killed:
                koids.add(thing.job)
        return koids

    def remove(self):
        """Objects that nothing holds go, until none is left, and so do waits without their handle or their port."""
        all_gone = {}
        while gone := self.objects.keys() - self.held():
            for koid in gone:
                all_gone[koid] = self.objects.pop(koid)
                if koid in self.processes and self.processes[koid].state == "created":
                    self.processes[koid].state = "gone"
        self.came += [Came("gone", koid, all_gone[koid]) for koid in sorted(all_gone)]
        self.waits = [wait for wait in self.waits
                      if wait.port in self.objects and wait.value in self.processes[wait.pid].handles]
        self.has_dropped = False

    def fire(self):
        """Each wait that holds gives its packet and is gone."""
        active = {koid: self.active(koid) for koid in {wait.koid for wait in self.waits}}
        left = []
        for wait in self.waits:
            if active[wait.koid] & wait.mask:
                packet = Packet(wait.key, 1, wait.mask, active[wait.koid], wait, self.sent(len(self.came) + 1))
                self.change(wait.port, packets=(*self.objects[wait.port].packets, packet))
                self.came.append(Came("packet", wait.port, packet))
            else:
                left.append(wait)
        self.waits = left

    def what_came(self, awaited):
        """The packet and the values that are there for what is awaited, or nothing."""
        if awaited.mask is None:
            packet = self.take_packet(awaited.koid)
            return packet and (packet, packet.fields)
        active = self.active(awaited.koid)
        return (None, (active,)) if active & awaited.mask else None

    def wake(self):
        """Each blocked process that has what it waits for is ready."""
        for pid in self.blocked[:]:
            process = self.processes[pid]
            awaited = process.awaits
            if there := self.what_came(awaited):
                packet, values = there
                self.blocked.remove(pid)
                process.state, process.awaits = "ready", None
                self.answer(process, awaited.registers, (STATUSES["OK"], *values))
                self.came.append(Came("woken", pid, (awaited, packet)))
