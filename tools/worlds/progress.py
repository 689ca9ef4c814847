"""How far a search is, on standard error, and what an interrupt does meanwhile."""
import os
import signal
import sys
import time

from starting import ENDINGS


class Progress:
    """How far a search is: on a terminal one line that changes, elsewhere a line each half minute."""
    ON_TERMINAL, ELSEWHERE = 1, 30

    def __init__(self, tool):
        # What it is about, if it isn't one thing alone.
        self.tool, self.about = tool, ""
        self.start = self.last = time.monotonic()
        self.is_terminal = sys.stderr.isatty()
        self.is_shown = self.is_interrupted = self.is_urgent = False

    def seconds(self):
        return time.monotonic() - self.start

    def say(self, text):
        """Says it if it is time to; here a search may be interrupted."""
        if self.is_interrupted:
            raise KeyboardInterrupt
        now = time.monotonic()
        if now - self.last < (self.ON_TERMINAL if self.is_terminal else self.ELSEWHERE):
            return
        self.last = now
        line = f"{self.tool}: {self.seconds():.0f} s: {self.about}{text}"
        if self.is_terminal:
            width = os.get_terminal_size(sys.stderr.fileno()).columns or 80
            print(f"\r{line[:width - 1]}\033[K", end="", file=sys.stderr, flush=True)
            self.is_shown = True
        else:
            print(line, file=sys.stderr)

    def clear(self):
        """Nothing more is said: the line of a terminal is free again."""
        if self.is_shown:
            print("\r\033[K", end="", file=sys.stderr, flush=True)
            self.is_shown = False

    # ---- interrupts

    def __enter__(self):
        """From here on an interrupt ends the search where it says how far it is, and a second one at once."""
        self.is_interrupted = False
        numbers = [number for number in ENDINGS if signal.getsignal(number) != signal.SIG_IGN]
        self.before = {number: signal.signal(number, self.interrupt) for number in numbers}
        return self

    def interrupt(self, *_):
        if self.is_interrupted:
            self.is_urgent = True
            raise KeyboardInterrupt
        self.is_interrupted = True

    def __exit__(self, fault, *_):
        for number, handler in self.before.items():
            signal.signal(number, handler)
        if self.is_interrupted and fault is None:
            raise KeyboardInterrupt
