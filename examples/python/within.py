#!/usr/bin/env python3
"""within.py OLD NEW: shows the selector within a screen of curses, which has a title above and a clock of keys below, and prints OLD with
the chosen changes.

The host draws the cells of the session at a place of its own, and hands in what is typed: so nothing outside of that place is the
selector's. ctrl-T is a key of the host, which counts its presses in the last line."""
import curses
import os
import sys
from typing import Dict, Tuple

import scm

# where the selector is: so many rows and columns of the host's screen are around it
ABOVE, BELOW, BESIDE = 2, 1, 4
# a silence of so many milliseconds ends an escape sequence
SILENCE = 50
# the key of the host
COUNT = 20  # ctrl-T


def read(path: str) -> bytes:
    with open(path, "rb") as file:
        return file.read()


class Host:
    """A screen of curses, with a session in the middle of it."""

    def __init__(self, window: "curses.window", session: scm.Session) -> None:
        self.window, self.session = window, session
        self.count = 0
        self.pairs: Dict[Tuple[int, int], int] = {}
        curses.raw()
        if curses.has_colors():
            curses.use_default_colors()
        window.keypad(False)  # the session reads what the terminal sends
        session.begin(*self.size())

    def size(self) -> Tuple[int, int]:
        """Returns the columns and rows that the selector has."""
        rows, columns = self.window.getmaxyx()
        return max(columns - 2 * BESIDE, 0), max(rows - ABOVE - BELOW, 0)

    def pair(self, foreground: int, background: int) -> int:
        """Returns the attribute of two colours, counted as the cells count them."""
        colours = foreground - 1, background - 1
        if colours == (-1, -1) or not curses.has_colors():
            return 0
        if colours not in self.pairs:
            self.pairs[colours] = len(self.pairs) + 1
            curses.init_pair(self.pairs[colours], *colours)
        return curses.color_pair(self.pairs[colours])

    def attribute(self, cell: scm.Cell) -> int:
        """Returns the attributes of a place."""
        flags = ((cell.is_bold, curses.A_BOLD), (cell.is_dim, curses.A_DIM), (cell.is_underlined, curses.A_UNDERLINE), (cell.is_reversed, curses.A_REVERSE))
        return self.pair(cell.foreground, cell.background) | sum(flag for is_on, flag in flags if is_on)

    def draw(self) -> None:
        """Draws the host's lines, and the session between them."""
        rows, columns = self.window.getmaxyx()
        self.window.erase()
        self.window.insnstr(0, 0, "-- the host's own screen --", columns)
        self.window.insnstr(rows - 1, 0, "ctrl-T was typed %d times" % self.count, columns)
        for row, cells in enumerate(self.session.cells()):
            for column, cell in enumerate(cells):
                if cell.symbol:
                    self.put(ABOVE + row, BESIDE + column, cell)
        self.window.refresh()

    def put(self, row: int, column: int, cell: scm.Cell) -> None:
        """Draws a place. Curses refuses a symbol that it does not know, which stays blank."""
        try:
            self.window.addstr(row, column, cell.symbol, self.attribute(cell))
        except (curses.error, ValueError):
            pass

    def hear(self) -> None:
        """Hands what is typed to the session, but for the host's key."""
        self.window.timeout(SILENCE if self.session.is_escape_pending else -1)
        code = self.window.getch()
        if code == -1:
            self.session.idle()
        elif code == curses.KEY_RESIZE:
            self.session.resize(*self.size())
        else:
            _, key = self.session.type_to_key(bytes([code]))
            self.count += key == COUNT

    def choose(self) -> None:
        """Has the user choose, until the session waits no more."""
        while self.session.stage == scm.WAITING:
            self.draw()
            self.hear()


def main() -> None:
    if len(sys.argv) != 3:
        sys.exit("usage: within.py OLD NEW")
    with scm.Session() as session:
        session.add_texts(os.path.basename(sys.argv[2]), read(sys.argv[1]), read(sys.argv[2]))
        curses.wrapper(lambda window: Host(window, session).choose())
        if session.stage != scm.ACCEPTED:
            sys.exit(1)
        sys.stdout.buffer.write(session.side_bytes(0))


main()
