"""A side of a file on a screen, as accepting now would write it."""
import ctypes
from typing import TYPE_CHECKING

from ._library import PagerOfC

if TYPE_CHECKING:
    from ._session import Session


class Pager:
    """Shows a side of a file of a session, line by line: `Session.pager` opens one. It reads the session and changes nothing of it.

    What is typed while it is open goes to `type`, and what the terminal shows is `paint`. Once `is_open` is false, `Session.repaint`
    makes the next `Session.paint` return every row. `gabrosty.h` lists its keys."""

    def __init__(self, session: "Session", file: int, is_selected: bool) -> None:
        """Opens it at the top of a file."""
        self._session = session
        self._at = PagerOfC()
        session._call("pager_open", file, is_selected, ctypes.byref(self._at))

    @property
    def file(self) -> int:
        """The index of the file that it shows, counted from 0."""
        return int(self._at.file)

    @property
    def top(self) -> int:
        """The index of the line on the first row, counted from 0."""
        return int(self._at.top)

    @property
    def left(self) -> int:
        """How many columns of each line stand to the left of the screen."""
        return int(self._at.left)

    @property
    def is_selected(self) -> bool:
        """Whether it shows the selected side, and not the other one."""
        return bool(self._at.is_selected)

    @property
    def is_open(self) -> bool:
        """Whether it has not been closed."""
        return bool(self._at.is_open)

    def show(self, section: int, line: int, height: int) -> None:
        """Brings a line of a section of its file, both counted from 0, onto a terminal of `height` rows: a third of a page is above it."""
        self._session._call("pager_show", ctypes.byref(self._at), section, line, height)

    def type(self, given: bytes, width: int, height: int) -> None:
        """Hands in what a terminal of `width` columns and `height` rows sent before a silence."""
        self._session._call("pager_type", ctypes.byref(self._at), given, len(given), width, height)

    def paint(self, width: int, height: int) -> bytes:
        """Returns the bytes that make a terminal of `width` columns and `height` rows show it, whatever that shows before."""
        return self._session._read("pager_paint", ctypes.byref(self._at), width, height)
