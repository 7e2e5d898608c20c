#!/usr/bin/env python3
"""within.py PROGRAM: types into the example of the widget, as cargo builds it, at a pseudo terminal, and looks at each place of its screen. It
ends with status 1 if one is otherwise than it should be."""
import fcntl
import os
import pathlib
import pty
import re
import select
import struct
import sys
import tempfile
import termios

WIDTH, HEIGHT = 60, 16
TOP, LEFT, COLUMNS, ROWS = 3, 5, 50, 10
OLD, NEW = "same\nold\nend\n", "same\nnew\nend\n"
# what the part of the selector shows at first, and behind `f`: each row begins with this
FOLDED = ["[File] [Edit] [Select] [View]", "( ) letter"]
UNFOLDED = [*FOLDED, "        1 same", "  [ ] Section 1/1", "    [ ] - old", "    [ ] + new", "        3 end"]
MARKED = ["[File] [Edit] [Select] [View]", "[\u25cf] letter", "        1 same", "  [\u25cf] Section 1/1", "    [\u25cf] - old", "    [\u25cf] + new", "        3 end"]


class Host:
    """The example at a terminal."""

    def __init__(self, folder):
        self.said = ""
        self.process, self.terminal = pty.fork()
        if self.process == 0:
            fcntl.ioctl(1, termios.TIOCSWINSZ, struct.pack("HHHH", HEIGHT, WIDTH, 0, 0))
            os.execv(sys.argv[1], [sys.argv[1], os.path.join(folder, "old"), os.path.join(folder, "new")])
        self.read(60)

    def read(self, seconds):
        """Reads until nothing comes for a while. Waits `seconds` for the first byte."""
        while select.select([self.terminal], [], [], seconds)[0]:
            try:
                came = os.read(self.terminal, 1 << 16).decode()
            except OSError:
                return
            if not came:
                return
            self.said, seconds = self.said + came, 0.7

    def type(self, keys):
        os.write(self.terminal, keys.encode())
        self.read(60)

    def rows(self):
        """Returns the rows of the last frame."""
        rows = re.split("\x1b\\[[0-9]+;1H", self.said)[-HEIGHT:]
        assert len(rows) == HEIGHT and all(len(row) == WIDTH for row in rows), rows
        return rows

    def end(self):
        os.close(self.terminal)
        return os.waitstatus_to_exitcode(os.waitpid(self.process, 0)[1])


def check(rows, wanted):
    """Outside of the selector's part each place is the host's, and within it rows begin with these texts."""
    for row, text in enumerate(rows):
        is_within = TOP <= row < TOP + ROWS
        part = text[LEFT : LEFT + COLUMNS]
        assert text == ("#" * LEFT + part + "#" * (WIDTH - LEFT - COLUMNS) if is_within else "#" * WIDTH), (row, text)
        if is_within:
            begins = wanted[row - TOP] if row - TOP < len(wanted) else " " * COLUMNS
            assert part.replace("(", "[").replace(")", "]").startswith(begins.replace("(", "[").replace(")", "]")), (row, part, begins)


def main():
    with tempfile.TemporaryDirectory() as folder:
        pathlib.Path(folder, "old").write_text(OLD)
        pathlib.Path(folder, "new").write_text(NEW)
        host = Host(folder)
        check(host.rows(), FOLDED)
        host.type("f")
        check(host.rows(), UNFOLDED)
        host.type("a")
        check(host.rows(), MARKED)
        host.type("c")
        assert host.said.replace("\r\n", "\n").endswith(NEW) and host.end() == 0, host.said[-100:]
        host = Host(folder)
        host.type("q")
        assert host.end() == 0 and not host.said.endswith(NEW)


main()
