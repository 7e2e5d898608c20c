#!/usr/bin/env python3
"""try_cells.py: compares the cells of screens with what their paints bring a terminal to, symbol by symbol and style by style. It ends with
status 1 if one differs."""
import os
import sys

import scm

sys.path.insert(1, os.path.join(os.path.dirname(os.path.realpath(__file__)), os.pardir, "terminal"))
from typed import FRAME, Screen  # noqa: E402

OLD = "same\nold one\nend\n" + "far\n" * 9 + "caf\u00e9 \u4e2d\u6587 e\u0301 \U0001f469\u200d\U0001f52c\n"
NEW = "same\nnew one\nend\n" + "far\n" * 9 + "caf\u00e9 \u4e2d\u6587 e\u0301 \U0001f469\u200d\U0001f680\nmore\n"
# keys that lead to what a screen can show: folds, marks, menus, dialogs, both views, a scroll
WORDS = ["", "f", "F space", "F j j space", "click:0:0", "F ctrl-d", "F space q", "?", "shift-h", "F view"]
# what is typed at a layer besides: columns to the right, ranges, a search
TYPED = ["", ">", ">>", "v", "/o", "/new\r"]


def parameters_of(cell):
    """Returns the parameters of the style, as a paint writes them."""
    flags = ((cell.is_bold, ";1"), (cell.is_dim, ";2"), (cell.is_underlined, ";4"), (cell.is_reversed, ";7"))
    colour = ";%d" % (29 + cell.foreground) if cell.foreground else ""
    return "0" + "".join(text for is_on, text in flags if is_on) + colour


def check(session, width, height, where):
    """Compares the cells with the next paint of all rows, and with the symbols that are asked for one by one."""
    session.repaint()
    screen = Screen()
    for frame in FRAME.finditer(session.paint()):
        screen.draw(frame[1].removesuffix(b"\x1b[0m"))
    rows = session.cells()
    assert len(rows) == height and all(len(row) == width for row in rows), where
    for row, cells in enumerate(rows):
        painted = screen.rows.get(row, {})
        for column, cell in enumerate(cells):
            assert cell.columns == (0 if not cell.symbol else 1 + later_columns(cells, column)), (where, row, column)
            assert cell.background == scm.Colour.NONE and (cell.symbol or cell == empty()), (where, row, column)
            if cell.symbol:
                symbol, style = painted[column]
                assert (symbol.decode(), style.decode()) == (cell.symbol, parameters_of(cell)), (where, row, column, symbol, style, cell)
            else:
                assert column not in painted, (where, row, column)


def check_symbols(session, width, is_whole, where):
    """Compares the cells with the symbols that are asked for one by one and with the text of the screen: all of them if `is_whole`, and
    else those of the last row."""
    rows = [[cell.symbol for cell in cells] for cells in session.cells()]
    first = 0 if is_whole else len(rows) - 1
    for row in range(first, len(rows)):
        assert rows[row] == [session.symbol(row, column) for column in range(width)], (where, row)
    assert session.text().endswith('"%s"\n' % "".join(rows[-1])), where
    assert session.symbol(len(rows), 0) == session.symbol(len(rows) - 1, width) == "", where


def empty():
    """Returns the place where no symbol begins."""
    return scm.Cell("", 0, scm.Colour.NONE, scm.Colour.NONE, False, False, False, False)


def later_columns(cells, column):
    """Returns the number of places behind `column` before the next symbol."""
    count = 0
    while column + 1 + count < len(cells) and not cells[column + 1 + count].symbol:
        count += 1
    return count


def made():
    """Returns a session over a state with changes of each kind."""
    session = scm.Session()
    session.add_commit("a message\n")
    session.add_texts("letter", OLD, NEW, new_mode=0o100755)
    session.add_file("image", scm.ABSENT)
    session.add_mode(0o100644)
    session.add_binary("", "abc (3 bytes)")
    return session


def main():
    for width, height in ((60, 20), (80, 5), (13, 9), (9, 4), (1, 1)):
        for words in WORDS:
            with made() as session:
                session.begin(width, height)
                session.press(*words.split())
                check(session, width, height, (width, height, words))
                check_symbols(session, width, True, (width, height, words))
        for theme in scm.THEMES:
            for words, typed in ((words, typed) for words in WORDS[:4] for typed in TYPED):
                with made() as session:
                    session.begin_layer(width, height)
                    session.paint_in(theme)
                    session.say_of_accepting("c commits")
                    session.press(*words.split())
                    session.type(typed)
                    # with labels too, which `symbol` and `text` leave out, the status row is theirs
                    check_symbols(session, width, True, (width, height, theme, words, typed))
                    session.label(0, 2, "theirs \u4e2d")
                    check_symbols(session, width, False, (width, height, theme, words, typed))
                    check(session, width, height, (width, height, theme, words, typed))
    with made() as session:
        assert is_refused(session) == "not_now"
        session.begin(30, 4)
        session.press("c")
        assert is_refused(session) == "not_now"
    assert is_refused(session) == "closed"


def is_refused(session):
    """Returns the code with which the cells are refused."""
    try:
        session.cells()
    except scm.Error as error:
        return error.code
    return None


main()
