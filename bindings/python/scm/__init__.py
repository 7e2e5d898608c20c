"""A change selector for Python, over libgabrosty.so: a user marks changes on a screen, and the program gets both sides of each file.

    with Session() as session:
        session.add_file("letter", 0o100644)
        session.add_context("Dear all,\\n")
        session.add_changes("new\\n", is_added=True)
        session.begin(80, 24)
        session.press("a", "c")
        print(session.side(0).text)

Or it has the user choose, by one call:

    with Session() as session:
        session.add_texts("letter", old, new)
        if session.choose() == "accepted":
            print(session.side_bytes(0))

The library is the one that LIBSCM names, or where `tools/install`, `tools/build --shared` or a wheel puts it, or where the system
looks. `scm.library` is the open library itself."""
from ._blanks import without_blank_changes
from ._library import (
    ABSENT, BY_ITEMS, BY_LINES, BY_ONE_ITEM, CODES, NO_INDEX, OF_NEW, OF_OLD, OF_SIDE, PATH_FAULTS, Error, InTree, Shown, decide, library,
    open_library, path_fault, tree_shown, tree_side, version, words,
)
from ._merge import MergeLine, marked_bytes, merge_texts, merged_bytes, open_conflicts
from ._pager import Pager
from ._session import Session
from ._values import (
    ENDS, FOLDS, OWNERS, THEMES, Cell, Colour, Contents, Dialog, Folds, Item, Key, LinePlace, Mark, Path, Side, Stage, Text, Theme,
)

__version__ = version()

WAITING, EDITING, ACCEPTED = Stage.WAITING, Stage.EDITING, Stage.ACCEPTED
ENDED, NONE, BUILDING = Stage.ENDED, Stage.NONE, Stage.BUILDING
UNCHANGED, TEXT, BINARY = Contents.UNCHANGED, Contents.TEXT, Contents.BINARY
UNCHECKED, PARTLY, CHECKED = Mark.UNCHECKED, Mark.PARTLY, Mark.CHECKED

__all__ = [
    "ABSENT", "ACCEPTED", "BINARY", "BUILDING", "BY_ITEMS", "BY_LINES", "BY_ONE_ITEM", "CHECKED", "CODES", "Cell", "Colour",
    "Contents", "Dialog", "EDITING", "ENDED", "ENDS", "Error", "FOLDS", "Folds", "InTree", "Item", "Key", "LinePlace", "Mark", "MergeLine",
    "NONE", "NO_INDEX", "OF_NEW", "OF_OLD", "OF_SIDE", "OWNERS", "PARTLY", "PATH_FAULTS", "Pager", "Path", "Session", "Shown", "Side", "Stage",
    "TEXT", "THEMES", "Text", "Theme", "UNCHANGED", "UNCHECKED", "WAITING", "__version__", "decide", "library", "marked_bytes",
    "merge_texts", "merged_bytes", "open_conflicts", "open_library", "path_fault", "tree_shown", "tree_side",
    "without_blank_changes", "words",
]
