"""The terminal, which a front end has meanwhile: given back as it was, if the front end could not do that itself."""
import contextlib
import os
import signal
import termios

# what a front end does to a terminal is taken back: a frame that is begun, lines that are cut off, a style, marks around what is
# pasted, the mouse, no cursor, the second screen, and the title
GIVE_BACK = b"\x1b[?2026l\x1b[?7h\x1b[0m\x1b[?2004l\x1b[?1000;1002;1003;1006l\x1b[?25h\x1b[?1049l\x1b[23;2t"


@contextlib.contextmanager
def open_terminal():
    """Gives the terminal, or None if there is none."""
    try:
        terminal = os.open("/dev/tty", os.O_RDWR | os.O_NOCTTY | os.O_CLOEXEC)
    except OSError:
        yield None
        return
    try:
        yield terminal
    finally:
        os.close(terminal)


class Kept:
    """The settings of the terminal as they are now."""

    def __init__(self):
        self.settings = None
        with open_terminal() as terminal, contextlib.suppress(OSError, termios.error):
            if terminal is not None:
                self.settings = termios.tcgetattr(terminal)

    def give_back(self):
        """Gives the terminal back with these settings, on its first screen."""
        if not self.settings:
            return
        # a program in the background is not stopped for it
        before = signal.signal(signal.SIGTTOU, signal.SIG_IGN)
        with open_terminal() as terminal, contextlib.suppress(OSError, termios.error):
            if terminal is not None:
                termios.tcsetattr(terminal, termios.TCSADRAIN, self.settings)
                os.write(terminal, GIVE_BACK)
        signal.signal(signal.SIGTTOU, before)
