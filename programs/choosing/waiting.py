"""A line on the terminal that says what the user waits for, where that takes longer than PATIENCE."""
import contextlib
import os
import signal
import sys
import time

from .faults import step
from .words import printable

PATIENCE = 0.2  # seconds
ERASE = b"\r\x1b[K"
lines = []  # what is on the terminal now: one line, or none


def write(data):
    """Writes to standard error at once, as a signal's handler has to. What cannot be written is lost."""
    with contextlib.suppress(OSError):
        while data:
            data = data[os.write(2, data) :]


def erase():
    """Takes the line off the terminal, if it is there."""
    if lines:
        lines.clear()
        write(ERASE)


@contextlib.contextmanager
def waits(words, begun=None):
    """While this block is run, `words` are on the terminal, if the user has waited for that long. `begun` says since when,
    by the clock `time.monotonic`; without it since now."""
    with step(words.rstrip(" .")):
        if sys.stderr and sys.stderr.isatty():
            with shown_later(words, begun):
                yield
        else:
            yield


@contextlib.contextmanager
def shown_later(words, begun):
    """Shows `words` while this block is run, as `waits` says."""

    def show(*_):
        lines.append(words)
        write(ERASE + printable(words).encode(errors="replace"))

    waited = time.monotonic() - begun if begun else 0
    before = signal.signal(signal.SIGALRM, show)
    signal.setitimer(signal.ITIMER_REAL, max(PATIENCE - waited, 0.001))
    try:
        yield
    finally:
        signal.setitimer(signal.ITIMER_REAL, 0)
        signal.signal(signal.SIGALRM, before)
        erase()


def counted(number, noun):
    """Returns a count of things in words, as in `1,000 files`."""
    return "{:,} {}{}".format(number, noun, "" if number == 1 else "s")
