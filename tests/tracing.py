"""Starts a program whose reads and writes of some files are seen, and one of which can fail: for tests/try-devices.

It goes by ptrace of Linux, on x86-64. A read or a write that is to fail isn't done, and the program gets the error in
its place; one that is to move a byte is done with a count of 1, so what is moved is really moved.
"""
import ctypes
import os
import signal
import subprocess
from dataclasses import dataclass

PTRACE = ctypes.CDLL(None, use_errno=True).ptrace
PTRACE.argtypes = (ctypes.c_long, ctypes.c_long, ctypes.c_void_p, ctypes.c_void_p)
PTRACE.restype = ctypes.c_long
TRACEME, GETREGS, SETREGS, SYSCALL, SETOPTIONS = 0, 12, 13, 24, 0x4200
# Stops at system calls are told from signals, and what is traced ends with this script.
OPTIONS = 1 | 0x100000
AT_SYSTEM_CALL = signal.SIGTRAP | 0x80
# read and pread64, write and pwrite64. Another call that reads or writes isn't seen, and its bytes are then missing.
KINDS = {0: "read", 17: "read", 1: "write", 18: "write"}
REGISTERS = ("r15 r14 r13 r12 rbp rbx r11 r10 r9 r8 rax rcx rdx rsi rdi orig_rax rip cs eflags rsp ss fs_base gs_base"
             " ds es fs gs").split()
NO_CALL = 2**64 - 1


class Registers(ctypes.Structure):
    """Those of a process at a system call."""

    _fields_ = [(name, ctypes.c_uint64) for name in REGISTERS]


@dataclass(frozen=True)
class Call:
    """A read or a write that was seen: what of, and what the program got for it."""

    kind: str
    path: str
    result: int


@dataclass(frozen=True)
class Trouble:
    """What is done to the read or write of this number, from 1, or to each where it is 0: it moves a byte, or isn't
    done and gives the result."""

    kind: str
    number: int
    moves_one: bool = False
    result: int = 0


def ptrace(request, pid, data=0):
    """A request of ptrace, which has to be allowed."""
    if PTRACE(request, pid, None, data) == -1:
        number = ctypes.get_errno()
        raise OSError(number, f"ptrace {request}: {os.strerror(number)}")


def registers_of(pid):
    registers = Registers()
    ptrace(GETREGS, pid, ctypes.addressof(registers))
    return registers


class Tracer:
    """Follows a process from one system call to the next."""

    def __init__(self, pid, watched, trouble):
        self.pid, self.watched, self.trouble = pid, watched, trouble
        self.calls, self.counts = [], {"read": 0, "write": 0}
        # the call in which it is: its kind and file, and the result that it is to have, if any
        self.kind, self.path, self.forced = None, None, None

    def path_of(self, number):
        """The path of an open file; none where there is none."""
        try:
            return os.readlink(f"/proc/{self.pid}/fd/{number}")
        except OSError:
            return None

    def enter(self):
        """It begins a call."""
        registers = registers_of(self.pid)
        self.kind, self.forced = KINDS.get(registers.orig_rax), None
        self.path = self.kind and self.path_of(registers.rdi)
        if self.path not in self.watched:
            self.kind = None
            return
        self.counts[self.kind] += 1
        trouble = self.trouble
        if not trouble or trouble.kind != self.kind or trouble.number not in (0, self.counts[self.kind]):
            return
        if trouble.moves_one:
            registers.rdx = min(registers.rdx, 1)
        else:
            registers.orig_rax, self.forced = NO_CALL, trouble.result
        ptrace(SETREGS, self.pid, ctypes.addressof(registers))

    def leave(self):
        """It has done it."""
        if not self.kind:
            return
        registers = registers_of(self.pid)
        if self.forced is not None:
            registers.rax = self.forced % 2**64
            ptrace(SETREGS, self.pid, ctypes.addressof(registers))
        self.calls.append(Call(self.kind, self.path, ctypes.c_int64(registers.rax).value))

    def follow(self):
        """Up to its end, whose status it gives."""
        os.waitpid(self.pid, 0)
        ptrace(SETOPTIONS, self.pid, OPTIONS)
        is_in_call, passed = False, 0
        while True:
            ptrace(SYSCALL, self.pid, passed)
            _, state = os.waitpid(self.pid, 0)
            if not os.WIFSTOPPED(state):
                return os.waitstatus_to_exitcode(state)
            passed = os.WSTOPSIG(state)
            if passed == AT_SYSTEM_CALL:
                passed = 0
                (self.leave if is_in_call else self.enter)()
                is_in_call = not is_in_call


def is_late(*_):
    raise TimeoutError


def traced(words, room, streams, watched, trouble=None, seconds=60):
    """The status with which a program ends in this folder, and its reads and writes of the watched paths; no status
    where it goes on after the seconds. Its streams are files."""
    signal.signal(signal.SIGALRM, is_late)
    started = subprocess.Popen(words, cwd=room, env={}, stdin=streams[0], stdout=streams[1], stderr=streams[2],
                               preexec_fn=lambda: PTRACE(TRACEME, 0, None, None))
    tracer = Tracer(started.pid, watched, trouble)
    signal.setitimer(signal.ITIMER_REAL, seconds)
    try:
        started.returncode = tracer.follow()
    except TimeoutError:
        started.kill()
        os.waitpid(started.pid, 0)
        started.returncode = -signal.SIGKILL
        return None, tracer.calls
    finally:
        signal.setitimer(signal.ITIMER_REAL, 0)
    return started.returncode, tracer.calls


def is_allowed():
    """Whether a program can be followed here."""
    try:
        return traced(("/bin/true",), "/", (subprocess.DEVNULL,) * 3, ())[0] == 0
    except OSError:
        return False
