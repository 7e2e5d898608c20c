#!/usr/bin/env python3
"""at_terminal.py FOLDER: runs the examples of FOLDER, as cargo builds them, at terminals of its own, and types into them. It prints a
line for each try, and the last one counts them."""
import fcntl
import os
import pathlib
import pty
import re
import select
import signal
import struct
import subprocess
import sys
import tempfile
import termios
import time

EXAMPLES = pathlib.Path(sys.argv[1])
TAKEN, GIVEN_BACK, TITLE_BACK = b"\x1b[?1049h", b"\x1b[?1049l", b"\x1b[23;2t"
MOUSE_GIVEN_BACK = b"\x1b[?1000;1002;1006l"
OLD, NEW = "same\nold\nend\n", "same\nnew one\nnew two\nend\n"


class Terminal:
    """A program at a terminal of 24 rows and 80 columns. What it writes is in `shown`."""

    def __init__(self, *words):
        self.shown = b""
        self.program, self.file = pty.fork()
        if self.program == 0:
            signal.signal(signal.SIGINT, signal.SIG_DFL)  # it is ignored where a shell has begun this in the background
            time.sleep(0.1)  # until the size is set
            os.execv(str(EXAMPLES / words[0]), [str(word) for word in words])
        self.resize(24, 80)
        self.settings = termios.tcgetattr(self.file)
        self.wait_for(TAKEN)

    def resize(self, rows, columns):
        fcntl.ioctl(self.file, termios.TIOCSWINSZ, struct.pack("4H", rows, columns, 0, 0))

    def read(self, seconds):
        """Reads what comes within so many seconds. Returns whether anything came."""
        if not select.select([self.file], [], [], seconds)[0]:
            return False
        try:
            came = os.read(self.file, 1 << 16)
        except OSError:  # the program has ended
            came = b""
        self.shown += came
        return bool(came)

    def wait_for(self, text, since=0):
        """Waits for a text behind the place `since`."""
        end = time.monotonic() + 10
        while text not in self.shown[since:] and time.monotonic() < end:
            if not self.read(0.1) and self.has_ended():
                return

    def has_ended(self):
        return os.waitid(os.P_PID, self.program, os.WEXITED | os.WNOHANG | os.WNOWAIT) is not None

    def wait_for_silence(self):
        while self.read(0.25):
            pass

    def type(self, *texts):
        """Types the texts, each once the program has been silent for a while behind the one before."""
        for text in texts:
            self.wait_for_silence()
            os.write(self.file, text.encode())

    def end(self):
        """Returns the status, what stood on the main screen, and whether the terminal is as it was."""
        deadline = time.monotonic() + 10
        while time.monotonic() < deadline and not self.has_ended():
            self.read(0.05)
        if not self.has_ended():
            os.kill(self.program, signal.SIGKILL)
        while self.read(0.05):
            pass
        is_as_before = termios.tcgetattr(self.file) == self.settings
        status = os.waitstatus_to_exitcode(os.waitpid(self.program, 0)[1])
        os.close(self.file)
        return status, self.shown.rpartition(GIVEN_BACK)[2].replace(TITLE_BACK, b"").decode(), is_as_before


def split(*keys, program="split"):
    """Runs `split`, or another splitter, with these keys. Returns its status, what it says, what it writes, and whether the terminal is
    as it was."""
    with tempfile.TemporaryDirectory() as folder:
        old, new, out = (pathlib.Path(folder, name) for name in ("old", "new", "out"))
        old.write_text(OLD)
        new.write_text(NEW)
        terminal = Terminal(program, old, new, out)
        terminal.type(*keys)
        status, said, is_as_before = terminal.end()
        return status, said.strip(), out.read_text() if out.exists() else None, is_as_before


def count(*keys):
    """Runs `count_events` with these keys. Returns its status, its lines, and whether the terminal is as it was."""
    terminal = Terminal("count_events")
    terminal.type(*keys)
    status, said, is_as_before = terminal.end()
    return status, said.split("\r\n"), is_as_before


class Edited:
    """`message` at a terminal, whose editor has begun: a command of the shell. What it writes from then on is behind `place`."""

    def __init__(self, editor, begins_with):
        self.terminal = Terminal("message", editor)
        self.terminal.wait_for_silence()
        self.place = len(self.terminal.shown)
        self.terminal.type("e")
        self.terminal.wait_for(begins_with, self.place)
        # how the terminal is while the editor has it
        self.is_as_before = termios.tcgetattr(self.terminal.file) == self.terminal.settings
        self.is_given_back = self.has_in_order(GIVEN_BACK, begins_with) and MOUSE_GIVEN_BACK in self.shown()

    def shown(self):
        return self.terminal.shown[self.place:]

    def has_in_order(self, *texts):
        return re.search(b".*".join(map(re.escape, texts)), self.shown(), re.S) is not None

    def end(self, *keys):
        """Types keys. Returns the status, what stood on the main screen behind the run, and whether the terminal is as it was."""
        self.terminal.type(*keys)
        return self.terminal.end()


def try_line_editor():
    """An editor that reads a line, as the terminal hands it in at Enter: the screen is taken again and drawn whole behind it."""
    edited = Edited('printf "new message: "; read line; printf %s "$line" > "$1"', b"new message: ")
    edited.terminal.type("a wrod\x7f\x7f\x7ford\r")
    edited.terminal.wait_for_silence()
    is_taken_again = edited.has_in_order(b"new message: ", TAKEN, b"[File]", b"text")
    ended = edited.end("c")
    return edited.is_as_before and edited.is_given_back and is_taken_again and ended == (0, "a word\r\n", True)


def try_interrupted_editor():
    """Ctrl-c is a signal, which ends the example too."""
    edited = Edited("echo begun; exec sleep 20", b"begun")
    status, _, is_as_before = edited.end("\x03")
    return edited.is_as_before and edited.is_given_back and (status, is_as_before) == (-signal.SIGINT, True)


def try_screen_editor():
    """An editor that takes the second screen, and gives it back, as vi does."""
    screen = r'printf "\033[?1049h\033[2Jon a screen of its own"; read line; printf %s "$line" > "$1"; printf "\033[?1049l"'
    edited = Edited(screen, b"on a screen of its own")
    edited.terminal.type("by hand\r")
    edited.terminal.wait_for_silence()
    # the one that ends the editor's screen, and then ours
    is_taken_again = edited.has_in_order(GIVEN_BACK, TAKEN, b"on a screen of its own", GIVEN_BACK, TAKEN, b"[File]", b"text")
    ended = edited.end("c")
    return edited.is_as_before and edited.is_given_back and is_taken_again and ended == (0, "by hand\r\n", True)


def try_failing_editor():
    """The terminal is taken again before the error ends the run, which gives it back."""
    edited = Edited("echo will fail; exit 3", b"will fail")
    status, said, is_as_before = edited.end()
    is_taken_again = edited.has_in_order(GIVEN_BACK, b"will fail", TAKEN, GIVEN_BACK)
    return is_taken_again and status == 1 and said.startswith("message: the editor failed: ") and is_as_before


def try_panic():
    terminal = Terminal("count_events", "panic")
    terminal.type("j", "j")
    status, said, is_as_before = terminal.end()
    return status == 101 and "as it was asked for" in said and is_as_before


def try_new_size():
    terminal = Terminal("count_events")
    terminal.wait_for_silence()
    place = len(terminal.shown)
    terminal.resize(30, 100)
    terminal.wait_for(b"\x1b[30;1H", place)
    is_drawn = b"\x1b[30;1H" in terminal.shown[place:]
    terminal.type("q", "q", "\x03", "\x03")
    return is_drawn and terminal.end()[0] == 1


def try_no_terminal():
    """Runs `split` where there is no terminal."""
    with tempfile.TemporaryDirectory() as folder:
        path = pathlib.Path(folder, "text")
        path.write_text(OLD)
        words = [EXAMPLES / "split", path, path, path.with_name("out")]
        done = subprocess.run(words, stdin=subprocess.DEVNULL, capture_output=True, start_new_session=True, text=True)
        return done.returncode == 1 and done.stderr.startswith("split: failed to set up terminal: ") and not done.stdout


def has_counts(said, keys):
    """Returns whether the line counts these keys."""
    events, _ = map(int, re.fullmatch(r"(\d+) events of (\d+) reads", said[0]).groups())
    return events == keys


def tries():
    yield "all is selected", split("a", "c") == (0, "", NEW, True)
    yield "nothing is selected", split("c") == (0, "", OLD, True)
    yield "one line is selected", split("l", "l", "j", " ", "c") == (0, "", "same\nold\nnew one\nend\n", True)
    yield "arrows are keys", split("\x1b[C", "\x1b[C", "\x1b[B", " ", "c") == (0, "", "same\nold\nnew one\nend\n", True)
    yield "several keys of one read", split("llj c") == (0, "", "same\nold\nnew one\nend\n", True)
    yield "a cancelled run", split("q") == (1, "split: cancelled by user", None, True)
    yield "an escape closes the help", split("?", "\x1b", "a", "c") == (0, "", NEW, True)
    yield "what is pasted is no key", split("\x1b[200~ac\x1b[201~", "c") == (0, "", OLD, True)
    yield "clicks", split("\x1b[<0;2;2M\x1b[<0;2;2m", "c") == (0, "", NEW, True)
    yield "one call, one line is selected", split("l", "l", "j", " ", "c", program="choose") == (0, "", "same\nold\nnew one\nend\n", True)
    yield "one call, cancelled", split("q", program="choose") == (1, "", None, True)
    status, said, is_as_before = count("?", "?", "a", "c")
    yield "events are counted", status == 0 and has_counts(said, 4) and said[1] == "message: True" and is_as_before
    status, said, is_as_before = count("e", "c")
    yield "a message is edited", status == 0 and said[1] == "MESSAGE: False" and is_as_before
    yield "an editor of a message reads a line", try_line_editor()
    yield "ctrl-c is heard while a message is edited", try_interrupted_editor()
    yield "an editor of a message takes the screen", try_screen_editor()
    yield "an editor of a message fails", try_failing_editor()
    yield "a panic gives the terminal back first", try_panic()
    yield "a new size", try_new_size()
    yield "no terminal", try_no_terminal()


def main():
    passed = failed = 0
    for name, is_well in tries():
        print("%s: %s" % ("same" if is_well else "differs", name), flush=True)
        passed, failed = passed + is_well, failed + (not is_well)
    print("%d passed, %d failed" % (passed, failed))
    sys.exit(failed > 0)


main()
