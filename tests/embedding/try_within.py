#!/usr/bin/env python3
"""try_within.py: types into within.py at a pseudo terminal, and looks at each place of its screen: outside of the selector's part nothing is
the selector's, and within it each symbol is at its place. It ends with status 1 if one is not."""
import fcntl
import os
import pathlib
import pty
import re
import select
import struct
import sys
import tempfile
import termios
import time

import scm

HERE = os.path.dirname(os.path.realpath(__file__))
WIDTH, HEIGHT = 60, 16
ABOVE, BELOW, BESIDE = 2, 1, 4
OLD, NEW = "same\nold\nend\n", "same\nnew one\nnew two\nend\n"
# what curses sends to a VT52, which has few commands: each is followed by what `Screen` does
COMMAND = re.compile("\x1bY(.)(.)|\x1b(.)|([\b\t\r\n])|([^\x00-\x1f\x1b])", re.S)


class Screen:
    """A VT52 of any size, with characters of one column."""

    def __init__(self):
        self.resize(WIDTH, HEIGHT)

    def resize(self, width, height):
        self.width, self.height, self.row, self.column = width, height, 0, 0
        self.rows = [[" "] * width for _ in range(height)]

    def feed(self, text):
        """Follows commands. Returns the text behind the last whole one."""
        end = 0
        for command in COMMAND.finditer(text):
            if command.start() != end or (command[3] == "Y"):
                break
            end = command.end()
            if command[1]:
                self.row, self.column = ord(command[1]) - 32, ord(command[2]) - 32
            elif command[3]:
                self.escape(command[3])
            elif command[4]:
                self.control(command[4])
            else:
                self.rows[self.row][self.column] = command[5]
                self.column = min(self.column + 1, self.width - 1)
        return text[end:]

    def escape(self, letter):
        moves = {"A": (-1, 0), "B": (1, 0), "C": (0, 1), "D": (0, -1)}
        if letter in moves:
            self.row, self.column = self.row + moves[letter][0], self.column + moves[letter][1]
        elif letter == "H":
            self.row = self.column = 0
        elif letter in "JK":
            self.rows[self.row][self.column :] = [" "] * (self.width - self.column)
            if letter == "J":
                self.rows[self.row + 1 :] = [[" "] * self.width for _ in range(self.row + 1, self.height)]
        elif letter == "I":
            assert self.row > 0, "a reverse index at the top"
            self.row -= 1
        else:
            assert letter in "FG=>", "an escape sequence that is not followed: %r" % letter

    def control(self, letter):
        if letter == "\n":
            self.row += 1
            assert self.row < self.height, "the screen scrolls"
        elif letter == "\t":
            self.column = (self.column // 8 + 1) * 8
        else:
            self.column = 0 if letter == "\r" else self.column - 1


class Host:
    """within.py at a terminal of its own."""

    def __init__(self, folder):
        self.screen, self.rest, self.said = Screen(), "", ""
        self.process, self.terminal = pty.fork()
        if self.process == 0:
            fcntl.ioctl(1, termios.TIOCSWINSZ, struct.pack("HHHH", HEIGHT, WIDTH, 0, 0))
            environment = {**os.environ, "TERM": "vt52", "LC_ALL": "C.UTF-8", "LINES": str(HEIGHT), "COLUMNS": str(WIDTH)}
            words = [sys.executable, os.path.join(HERE, "../../examples/python/within.py"), os.path.join(folder, "old"), os.path.join(folder, "new")]
            os.execvpe(words[0], words, environment)
        self.wait_for("ctrl-T was typed 0 times")

    def read(self, seconds):
        """Returns what comes within so many seconds: nothing, if nothing does, or the program has ended."""
        if not select.select([self.terminal], [], [], seconds)[0]:
            return ""
        try:
            came = os.read(self.terminal, 1 << 16).decode()
        except OSError:
            came = ""
        self.said += came
        return came

    def draw(self, seconds):
        """Draws what comes within so many seconds. Returns whether something came."""
        came = self.read(seconds)
        self.rest = self.screen.feed(self.rest + came)
        return bool(came)

    def text(self):
        """Returns the rows of the screen."""
        return ["".join(row) for row in self.screen.rows]

    def wait_for(self, text):
        """Waits until the screen shows a text, and then until nothing more comes."""
        deadline = time.monotonic() + 60
        while text not in "\n".join(self.text()):
            assert time.monotonic() < deadline, (text, self.text())
            self.draw(1)
        while self.draw(0.5):
            pass

    def type(self, keys, text):
        os.write(self.terminal, keys.encode())
        self.wait_for(text)

    def end(self, keys):
        """Types keys that end the program. Returns its status, and what it prints behind its screen."""
        begun = len(self.said)
        os.write(self.terminal, keys.encode())
        while self.read(60):
            pass
        os.close(self.terminal)
        return os.waitstatus_to_exitcode(os.waitpid(self.process, 0)[1]), self.said[begun:].replace("\r\n", "\n")


def wanted(words, count):
    """Returns the rows of the host's screen behind words, by a session of the size of its part."""
    with scm.Session() as session:
        session.add_texts("new", OLD, NEW)
        session.begin(WIDTH - 2 * BESIDE, HEIGHT - ABOVE - BELOW)
        session.press(*words.split())
        rows = [" " * BESIDE + row[1:-1] + " " * BESIDE for row in session.text().splitlines()]
    first, last = "-- the host's own screen --", "ctrl-T was typed %d times" % count
    return [first.ljust(WIDTH), " " * WIDTH, *rows, last.ljust(WIDTH)]


def main():
    with tempfile.TemporaryDirectory() as folder:
        pathlib.Path(folder, "old").write_text(OLD)
        pathlib.Path(folder, "new").write_text(NEW)
        host = Host(folder)
        assert host.text() == wanted("", 0), host.text()
        host.type("f", "new one")
        assert host.text() == wanted("f", 0), host.text()
        host.type("\x14\x14", "typed 2 times")
        host.type("jj ", "(\u25cf) - old")
        assert host.text() == wanted("f j j space", 2), host.text()
        host.type("q", "(Quit)")
        assert host.text() == wanted("f j j space q", 2), host.text()
        host.type("\x1b", "new one")
        assert host.text() == wanted("f j j space q esc", 2), host.text()
        status, said = host.end("ac")
        assert status == 0 and said.endswith("same\nold\nnew one\nnew two\nend\n"), (status, said)
        host = Host(folder)
        assert host.end("q")[0] == 1


main()
