#!/usr/bin/env python3
"""try_scm.py: makes a state by calls of the module scm, reads it back by its JSON form, and reads each answer. It ends with status 1
if one is otherwise."""
import errno
import inspect
import json
import os
import pathlib
import pty
import random
import re
import select
import signal
import termios
import threading

import scm

# the sentence of each code
SENTENCES = {
    "done": "the call is done",
    "closed": "the session is closed",
    "not_now": "the session doesn't wait for this now",
    "no_word": "the bytes are no word of an event",
    "not_text": "the bytes are no UTF-8",
    "bad_state": "the text is no state's JSON form",
    "not_accepted": "the state passes a limit: of commits, of files, sections and lines together, or of a text's bytes",
    "too_long": "a text has more than 1,000,000 bytes",
    "no_memory": "there is not enough memory",
    "no_item": "the state has no such file, section, line or commit",
    "no_number": "the number stands for nothing that this call takes",
    "no_key": "a part of the text is no key with what it does, as ctrl-n=j",
}


def fill(session):
    session.add_commit("first\n")
    session.add_commit()
    session.add_file("new/name", 0o100644, "old/name")
    session.add_mode(0o100755, is_checked=True)
    session.add_context("one\n\ntwo\n")
    session.add_context("three\n")
    session.add_changes("x\ny\n", is_added=False, is_checked=True)
    session.add_changes("caf\u00e9", is_added=True)
    session.add_section(is_changed=True)
    session.add_changes("z\n", is_added=True)
    session.add_context("")
    session.add_file("gone", 0o100644)
    session.add_mode(scm.ABSENT, is_checked=True)
    session.add_changes("w\n", is_added=False, is_checked=True)
    session.add_file("image", scm.ABSENT)
    session.add_mode(0o100644)
    session.add_binary("", "abc (3 bytes)", is_checked=True)


def line(text, kind, is_checked):
    return {"is_checked": is_checked, "change_type": kind, "line": text}


def mode_section(mode, is_checked):
    return {"FileMode": {"is_checked": is_checked, "mode": mode}}


WANTED = {
    "is_read_only": False,
    "commits": [{"message": "first\n"}, {"message": None}],
    "files": [
        {"old_path": "old/name", "path": "new/name", "file_mode": {"Unix": 0o100644}, "sections": [
            mode_section({"Unix": 0o100755}, True),
            {"Unchanged": {"lines": ["one\n", "\n", "two\n", "three\n"]}},
            {"Changed": {"lines": [line("x\n", "Removed", True), line("y\n", "Removed", True), line("caf\u00e9", "Added", False)]}},
            {"Changed": {"lines": [line("z\n", "Added", False)]}},
        ]},
        {"old_path": None, "path": "gone", "file_mode": {"Unix": 0o100644}, "sections": [
            mode_section("Absent", True), {"Changed": {"lines": [line("w\n", "Removed", True)]}}]},
        {"old_path": None, "path": "image", "file_mode": "Absent", "sections": [
            mode_section({"Unix": 0o100644}, False),
            {"Binary": {"is_checked": True, "old_description": None, "new_description": "abc (3 bytes)"}}]},
    ],
}


def refused(call, *arguments):
    """Returns the code with which a call is refused. Its error has the sentence of the code as its text."""
    try:
        call(*arguments)
    except scm.Error as error:
        assert str(error) == SENTENCES[error.code], str(error)
        return error.code
    return None


def is_no_number(call, *arguments, **named):
    """Returns whether a call raises ValueError."""
    try:
        call(*arguments, **named)
    except ValueError:
        return True
    return False


def read_answers(session):
    assert len(session) == 3
    assert session.side(0) == (scm.TEXT, 0o100755, b"one\n\ntwo\nthree\n")
    assert session.side(0, is_selected=False) == (scm.TEXT, 0o100644, "one\n\ntwo\nthree\nx\ny\ncaf\u00e9z\n".encode())
    assert session.side(1)[:2] == (scm.UNCHANGED, scm.ABSENT)
    assert session.side(2)[0] == scm.BINARY and session.side(2, False)[0] != scm.BINARY
    assert (session.mark(0), session.mark(0, 0), session.mark(0, 2), session.mark(0, 2, 1)) == (1, 2, 1, 2)
    assert refused(session.mark, 0, 1, 0) == refused(session.side, 3) == refused(session.message, 1) == "no_item"
    assert session.message() == "first\n"
    assert session.marks(0) == [True, True, True, False, False] and session.marks(2) == [False, True]
    assert session.line(0, 1, 1) == b"\n" and session.line(0, 2, 1) == b"y\n"
    assert refused(session.marks, 3) == refused(session.line, 0, 0, 0) == "no_item"


def drive_a_layer():
    with scm.Session() as session:
        session.add_file("f", 0o100644)
        session.add_changes("one\ntwo\nthree\n", True)
        assert refused(session.paint_in, "light") == refused(session.set_keys, "x=undo") == "not_now"
        session.begin_layer(60, 10)
        assert refused(session.begin_layer, 60, 10) == "not_now" and refused(session.set_keys, "x=undo x") == "no_key"
        session.paint_in("none")
        session.say_of_accepting("c stages")
        session.set_keys("x=undo ctrl-n=j")
        session.start("all_open", scm.Key(0, 0, 0, 0))
        assert session.selected_line == scm.LinePlace(file=0, old_line=1, new_line=1)
        assert session.selected.line == 0 and b"c stages" in session.paint() and session.owner(9, 0)[0] == "nobody"
        session.type("v\x0e ")
        assert session.marks(0) == [True, True, False]
        session.type("x")
        assert session.marks(0) == [False, False, False]
        # what a program marks is not the user's to undo
        session.press("space")
        session.type("x")
        assert session.marks(0) == [False, True, False]
        session.press("space")
        # while a text is asked for, no key is told
        typed, told = b"/th\x0cree\r\t", []
        while typed:
            taken, key = session.type_to_key(typed)
            typed, told = typed[taken:], [*told, key]
        assert session.selected.line == 2 and session.selected_line == (0, 1, 3) and [key for key in told if key] == [9]
        session.press("space", "c")
        assert session.end == "accepted" and session.marks(0) == [False, False, True] and refused(session.paint_in, "dark") == "not_now"
    with scm.Session.of_json(json.dumps(WANTED), 80, 24, has_layer=True) as session:
        # the status row is the last one, which clicks and words do not count
        checked = [line["is_checked"] for file in WANTED["files"] for part in file["sections"] for line in part.get("Changed", {}).get("lines", [])]
        last = "".join(session.symbol(23, column) for column in range(80))
        assert len(last) == 80 and f"lines: {sum(checked)}, files: " in last and session.text().split("\n")[23:] == [f'"{last}"', ""]
        session.start()
        session.type("\x03\x03")
        assert session.end == "cancelled"


def owners_of(session):
    """Returns the owner of each place of a terminal of 30 columns and 12 rows."""
    return [session.owner(row, column) for row in range(12) for column in range(30)]


def label_sections():
    with scm.Session() as session:
        session.add_file("f", 0o100644)
        session.add_context("one\n")
        session.add_changes("two\n", True)
        session.add_context("three\n")
        session.add_changes("four\n", True)
        assert refused(session.label, 0, 1, "ours") == "not_now"
        session.begin_layer(30, 12)
        session.start("all_open")
        before, rows, owners = session.paint(), session.text(), owners_of(session)
        assert b"Section 1/2" in before and b"Section 2/2" in before
        session.label(0, 1, "ours (main)")
        # one row is painted anew, and nothing else is another
        after = session.paint()
        assert b"ours (main)" in after and b"Section" not in after and len(after) < len(before) // 3
        assert session.text() == rows and owners_of(session) == owners
        # the last label of a section counts, and those of no header show nothing
        for file, section in ((0, 0), (0, 9), (7, 1)):
            session.label(file, section, "none")
        session.label(0, 1, "theirs")
        session.label(0, 3, "\x1b[31mred\x07 and of more columns than the header has")
        session.repaint()
        painted = session.paint()
        assert b"theirs" in painted and b"ours" not in painted and b"none" not in painted and b"Section" not in painted
        assert b"[31mred" in painted and b"\x1b[31mred" not in painted and b"\x07" not in painted and "\u2026".encode() in painted and b"has" not in painted
        # to the right, the label moves with its row
        session.type(">")
        assert b"theirs" not in session.paint()
        session.type("<")
        # a menu lies over the headers, and without a label they have their numbers
        session.label(0, 3, "")
        painted = session.paint()
        assert b"theirs" in painted and b"Section 2/2" in painted
        assert refused(session.label, 0, 1, b"\xff") == "not_text"


def name_sections():
    with scm.Session() as session:
        session.add_file("f", 0o100644)
        for lines in ("one:\n", " three\n"):
            session.add_context(lines)
            session.add_changes("two\n", True)
        assert refused(session.name_sections) == "not_now"
        session.begin_layer(40, 12)
        session.start("all_open")
        before, rows = session.paint(), session.text()
        session.label(0, 3, "theirs")
        session.name_sections()
        after = session.paint()
        assert b"one:" in before and b"Section 1/2  one:" not in before and b"Section 1/2  one:" in after and b"theirs" in after
        assert b"Section 2/2" not in after and session.text() == rows


def log_a_layer():
    with scm.Session() as session:
        session.add_commit("first\n")
        session.add_file("f", 0o100644)
        session.add_changes("one\ntwo\n", True)
        assert refused(session.log) == refused(session.logged) == "not_now"
        session.begin_layer(60, 10)
        assert refused(session.logged) == "not_now"
        session.log()
        session.log()
        calls = "size 60 9\n"
        assert session.logged() == calls
        session.press_all("shift-F j j")
        session.type("/two\r")
        session.resize(50, 8)
        # the range is the selected line, just below the smaller screen: a jump to it, a toggle, a jump back, and a scroll back
        session.type("v ?")
        calls += "batch shift-F j j \nselect 0 0 1\nsize 50 7\nselect 0 0 1\nbatch space \nselect 0 0 1\nbatch wheel-up \n"
        calls += "batch ? \n"
        assert session.logged() == calls
        session.type("?e")
        calls += "batch ? \nbatch e \n"
        assert session.stage == scm.EDITING and session.logged() == calls
        session.answer('a "b" \\ \n')
        calls += 'answer "a \\"b\\" \\\\ \\u000a"\n'
        assert session.logged() == calls
        session.press("c")
        assert session.end == "accepted" and session.logged() == calls + "batch c \n" and refused(session.log) == "not_now"
    with scm.Session() as session:
        session.begin_layer(60, 10)
        session.log()
        session.press("q")
        assert session.end == "cancelled" and refused(session.logged) == "not_now"
    with scm.Session() as session:
        session.begin_layer(60, 10)
        session.press("none")
        assert refused(session.log) == refused(session.logged) == "not_now"
    assert refused(session.log) == refused(session.logged) == "closed"


def check_codes():
    """Each code has its sentence, also where no call here is refused with it."""
    assert scm.CODES == list(SENTENCES)
    for code, name in enumerate(scm.CODES):
        assert scm.words(code) == str(scm.Error(code)) == SENTENCES[name] and scm.Error(code).code == name
    assert scm.words(len(scm.CODES)) == "" and is_no_number(scm.words, 1 << 32)


def check_numbers():
    """Numbers that C does not have are refused, and the session is as it was."""
    with scm.Session() as session:
        session.add_texts("f", "a\n", "b\n")
        assert is_no_number(session.begin, 65536, 24) and is_no_number(session.begin, 80, -1)
        assert session.stage == scm.BUILDING
        session.begin(80, 24)
        before, selected = session.text(), session.selected
        for call in (session.click, session.owner, session.symbol, session.resize):
            assert is_no_number(call, 65537, 0) and is_no_number(call, 0, 65536) and is_no_number(call, -1, 0)
        for call in (session.side, session.side_bytes, session.marks, session.message, session.mark):
            assert is_no_number(call, 1 << 64) and is_no_number(call, -1) and refused(call, 1) == "no_item"
        assert is_no_number(session.line, 0, 0, 1 << 64) and is_no_number(session.add_mode, 1 << 64)
        for number in (-1, 1 << 64, -(1 << 63)):
            for call in (session.path, session.old_path, session.item, session.run, scm.words):
                assert is_no_number(call, number)
            for call in (session.mark, session.item, session.line):
                assert all(is_no_number(call, *(number if place == at else 0 for at in range(3))) for place in range(3))
            assert all(is_no_number(session.select, scm.Key(*(number if place == at else 0 for at in range(4)))) for place in range(4))
            assert is_no_number(session.label, number, 0, "x") and is_no_number(session.label, 0, number, "x")
            assert is_no_number(session.set_marks, number, [True]) and is_no_number(session.add_file, "g", number)
            assert is_no_number(session.add_texts, "g", "a", "b", old_mode=number) and is_no_number(session.add_texts, "g", "a", "b", new_mode=number)
            assert all(is_no_number(scm.tree_shown, *(number if place == at else 0 for at in range(3))) for place in range(3))
            for place in range(3):
                assert is_no_number(scm.tree_side, 0, 0, 0, tuple(number if place == at else 0 for at in range(3)))
            assert is_no_number(scm.marked_bytes, b"a", b"b", b"c", [], marker_length=number)
        assert (session.text(), session.selected) == (before, selected)
        assert refused(session.start, scm.Folds.ALL_OPEN, scm.Key(0, 0, 0, 0)) == "not_now"
        assert is_no_number(session.start, "all_open", scm.Key(0, 1 << 64, 0, 0))


def check_values():
    """The values of the module: enums that are numbers, and keys that are compared, hashed and printed."""
    assert list(scm.Stage) == list(range(6)) and scm.Stage.EDITING is scm.EDITING == 1
    assert list(scm.Theme) == [0, 1, 2, 3] and scm.THEMES == "dark light sixteen none".split()
    assert list(scm.Folds) == [0, 1, 2, 3] and scm.FOLDS == "as_it_is all_folded all_open open_if_it_fits".split()
    key = scm.Key(0, 2, scm.NO_INDEX, scm.NO_INDEX)
    assert key == scm.Key(0, 2, scm.NO_INDEX, scm.NO_INDEX) != scm.Key(0, 2, 0, 0) and len({key, scm.Key(*key)}) == 1
    assert repr(key) == "Key(commit=0, file=2, section=NO_INDEX, line=NO_INDEX)" and eval(repr(key), vars(scm)) == key
    with scm.Session() as session:
        assert session and len(session) == 0
        session.add_texts("f", "", "a\n")
        session.begin_layer(60, 10)
        assert isinstance(session.stage, scm.Stage) and isinstance(session.side(0).contents, scm.Contents)
        assert isinstance(session.mark(0), scm.Mark) and isinstance(session.selected, scm.Key)
        for theme in (*scm.Theme, *scm.THEMES, 3):
            session.paint_in(theme)
        for folds in (*scm.Folds, *scm.FOLDS, 2):
            session.start(folds)
        assert is_no_number(session.paint_in, "blue") and is_no_number(session.paint_in, 4) and is_no_number(session.start, "wide")
    assert session


def check_paths():
    """A path may be one of pathlib. One that is not UTF-8 is shown with U+FFFD, and comes back byte for byte."""
    with scm.Session() as session:
        session.add_file(pathlib.Path("new", "caf\u00e9"), 0o100644, pathlib.PurePosixPath("old"))
        session.add_texts(pathlib.Path("g"), "a\n", "b\n", old_path=b"h")
        session.add_file(os.fsencode("i"), 0o100644)
        assert refused(session.add_file, "x" * 1000001, 0o100644) == "too_long"
        session.add_file(pathlib.Path(os.fsdecode(b"caf\xe9")), 0o100644)
        session.add_texts(b"\xff/n", "", "a\n", old_path=b"o\xfe")
        session.add_texts(b"k", "", "a\n", old_path=b"\x80")
        session.begin(80, 24)
        session.press("c")
        files = json.loads(session.text().split("\n")[1])["files"]
        paths = [(file["old_path"], file["path"]) for file in files]
        shown = [(None, "caf\ufffd"), ("o\ufffd", "\ufffd/n"), ("\ufffd", "k")]
        assert paths == [("old", "new/caf\u00e9"), ("h", "g"), (None, "i"), *shown], paths
        assert [(session.old_path(file), session.path(file)) for file in range(6)] == paths
        given = [(session.old_path_bytes(file), session.path_bytes(file)) for file in range(6)]
        bytes_given = [(b"old", "new/caf\u00e9".encode()), (b"h", b"g"), (None, b"i"), (None, b"caf\xe9"), (b"o\xfe", b"\xff/n"), (b"\x80", b"k")]
        assert given == bytes_given, given
        assert refused(session.path_bytes, 6) == refused(session.old_path_bytes, 6) == "no_item"


def sides_of(session):
    """Returns both sides of each file, and their bytes."""
    places = [(file, is_selected) for file in range(len(session)) for is_selected in (True, False)]
    return [(session.side(*place), session.side_bytes(*place), session.marks(place[0])) for place in places]


# what stands between the rows of a page: places of the cursor, styles, and how symbols wrap
BETWEEN = re.compile(rb"\x1b\[(\d+);(\d+)H|\x1b\[[0-9;?]*[hlm]")


def rows_of(update):
    """Returns the rows of a page by its update, without blanks at their ends. Each symbol but the sign of a line end is ASCII."""
    rows, row, column, at = {}, 0, 0, 0
    for between in [*BETWEEN.finditer(update), None]:
        text = update[at : between.start() if between else None].decode()
        for symbol in text:
            rows.setdefault(row, {})[column] = symbol
            column += 1
        if between:
            at = between.end()
            if between[1]:
                row, column = int(between[1]) - 1, int(between[2]) - 1
    return ["".join(symbol for _, symbol in sorted(rows[row].items())).rstrip() for row in sorted(rows)]


def lines_of_pages(session, file, is_selected, width, height):
    """Returns the lines of a side as a pager shows them, page by page."""
    pager, lines = session.pager(file, is_selected), []
    while True:
        rows = rows_of(pager.paint(width, height))
        lines[pager.top :] = rows[:-1]
        before = pager.top
        pager.type(b"\x06", width, height)
        if pager.top == before:
            return [line for line in lines if line], rows[-1]


def check_pagers(count):
    """A pager shows the side that accepting gives, whatever is marked: each line once, with a sign if a mark has it there."""
    chance = random.Random(7)
    for _ in range(count):
        old, new = ["".join("%s\n" % chance.choice("abcdefg") for _ in range(chance.randrange(12))) for _ in range(2)]
        with scm.Session() as session:
            session.add_texts("f", old, new)
            session.begin(60, 20)
            session.press(*chance.choices("space j l a A".split(), k=chance.randrange(12)))
            shown = {side: lines_of_pages(session, 0, side, 40, chance.randrange(2, 9)) for side in (True, False)}
            session.press("c")
            for side, (lines, status) in shown.items():
                wanted = session.side_bytes(0, side).decode().splitlines()
                assert [line[2:].rstrip("⏎") for line in lines] == wanted, (old, new, side, lines, wanted)
                assert {line[:2] for line in lines} <= {"  ", "+ " if side else "- "}, lines
                assert status.endswith("p: back") and ("no lines" in status) == (not wanted), (status, wanted)


def check_pager_keys():
    """What is typed goes to the pager, which closes by its key, and a side that is not there is refused."""
    with scm.Session() as session:
        session.add_texts("f", b"", b"".join(b"line %d\n" % number for number in range(9)))
        assert refused(session.pager, 1) == "no_item"
        session.begin(60, 20)
        session.press("a")
        before = session.text()
        pager = session.pager(0)
        for typed, top, left, is_selected, is_open in (
            (b"jj", 2, 0, True, True), (b"G", 5, 0, True, True), (b">", 5, 15, True, True), (b"P", 0, 0, False, True), (b"p", 0, 0, True, True),
            (b"\x1b[B", 1, 0, True, True), (b"\x1bk", 1, 0, True, True), (b"\x1b", 1, 0, True, False), (b"j", 1, 0, True, False),
        ):
            pager.type(typed, 30, 5)
            assert (pager.top, pager.left, pager.is_selected, pager.is_open) == (top, left, is_selected, is_open), typed
        assert pager.file == 0 and session.text() == before
        assert len(rows_of(session.pager(0).paint(0xFFFF, 0xFFFF))) == 1000
        # on 7 rows a page has six, of which two are above the line; the last page begins at line 3
        for line, top in ((0, 0), (2, 0), (3, 1), (4, 2), (8, 3), (9, 3), (scm.NO_INDEX, 3)):
            pager.show(0, line, 7)
            assert pager.top == top, line
        # no such section: the end
        pager.show(1, 0, 7)
        assert pager.top == 3
    assert refused(scm.Session().pager, 0) in ("closed", "no_item")


def check_previews():
    """At each moment the sides are those that accepting gives, also with a layer and beneath its range."""
    words = "space j a shift-F l space l space j space A k".split()
    for has_layer in (False, True):
        for count in range(len(words) + 1):
            with scm.Session() as session:
                fill(session)
                (session.begin_layer if has_layer else session.begin)(80, 24)
                session.press(*words[:count])
                session.type("v" if has_layer else "")
                preview = sides_of(session)
                session.press("c")
                assert session.stage == scm.ACCEPTED and sides_of(session) == preview, (has_layer, count)
    with scm.Session() as session:
        fill(session)
        session.begin(80, 24)
        session.press("e")
        assert session.stage == scm.EDITING and refused(session.side, 0) == refused(session.side_bytes, 0) == "not_now"
        assert session.dialog == scm.Dialog.NONE
        session.answer("other\n")
        before = sides_of(session)
        session.press("?")
        assert session.dialog == scm.Dialog.HELP
        session.press("c")  # the help is open: c closes it
        assert session.stage == scm.WAITING and sides_of(session) == before and session.dialog == scm.Dialog.NONE
        session.press("q", "?")  # the help lies over the question
        assert session.dialog == scm.Dialog.HELP
        session.press("esc")
        assert session.dialog == scm.Dialog.QUESTION


def marked(marks):
    """Returns a session over the state of `fill`, with other marks of its first file."""
    session = scm.Session()
    fill(session)
    session.set_marks(0, marks)
    return session


def check_marks_in():
    """A file has the marks that are handed in, and each other file those that it had. Marks that do not fit change nothing."""
    with scm.Session() as session:
        fill(session)
        before = [session.marks(file) for file in range(3)]
        for marks in ([False, True, False, True, True], [True] * 5, [False] * 5):
            session.set_marks(0, marks)
            assert [session.marks(file) for file in range(3)] == [marks, *before[1:]]
        session.set_marks(2, iter([True, False]))
        assert session.marks(2) == [True, False] and session.line(0, 2, 1) == b"y\n"
        sides = sides_of(session)
        for file, marks in ((0, [True] * 4), (0, [True] * 6), (0, []), (3, []), (scm.NO_INDEX, [True])):
            assert refused(session.set_marks, file, marks) == "no_item" and sides_of(session) == sides
        assert is_no_number(session.set_marks, -1, [])
        session.begin(80, 24)
        assert sides_of(session) == sides and refused(session.set_marks, 0, [True] * 5) == "not_now"
        session.press("c")
        assert sides_of(session) == sides
    assert refused(session.set_marks, 0, []) == "closed"
    # a selection goes on: what one session ended with is what another one begins with
    with marked([False] * 5) as session:
        session.begin(80, 24)
        session.press("l", "space", "j", "space", "c")
        marks, sides = session.marks(0), sides_of(session)
    with marked(marks) as session:
        assert any(marks) and not all(marks) and sides_of(session) == sides


def structure_of(session):
    """Returns all of a session's state, as its JSON form has it, but for descriptions of binary contents and the mode of each part."""
    def lines_of(file, section, count):
        for line in range(count):
            kind, parts = session.item(file, section, line)
            assert parts == 0
            yield session.line(file, section, line).decode(), kind, kind != "context" and session.mark(file, section, line) == 2

    def sections_of(file):
        for section in range(session.item(file).parts):
            kind, count = session.item(file, section)
            yield kind, kind != "context" and session.mark(file, section) == 2, list(lines_of(file, section, count))

    return [(session.old_path(file), session.path(file), list(sections_of(file))) for file in range(len(session))]


def check_structure():
    """The items of a state are those that were added."""
    changed = [("x\n", "removed", True), ("y\n", "removed", True), ("caf\u00e9", "added", False)]
    wanted = [
        ("old/name", "new/name", [
            ("mode", True, []),
            ("context", False, [(text, "context", False) for text in ("one\n", "\n", "two\n", "three\n")]),
            ("section", False, changed),
            ("section", False, [("z\n", "added", False)]),
        ]),
        (None, "gone", [("mode", True, []), ("section", True, [("w\n", "removed", True)])]),
        (None, "image", [("mode", False, []), ("binary", True, [])]),
    ]
    with scm.Session() as session:
        fill(session)
        assert structure_of(session) == wanted and session.item(0) == ("file", 4)
        session.begin(80, 24)
        assert structure_of(session) == wanted
        for place in ((3,), (0, 4), (0, 2, 3), (0, 1, 4), (0, 0, 0), (2, 1, 0)):
            assert refused(session.item, *place) == "no_item", place
        assert refused(session.path, 3) == refused(session.old_path, 3) == "no_item"
        session.press("c")
        assert structure_of(session) == wanted
    assert refused(session.item, 0) == refused(session.path, 0) == "closed"


def check_select():
    """Each item with a checkbox is selected by its key, without a layer and with one. No other key selects anything."""
    none = scm.NO_INDEX
    for has_layer in (False, True):
        with scm.Session() as session:
            fill(session)
            assert refused(session.select, scm.Key(0, 0, none, none)) == "not_now"
            (session.begin_layer if has_layer else session.begin)(80, 24)
            for place in ((0, 2, 1), (2, 1), (1,), (0, 3, 0), (0, 0), (2,)):
                key = scm.Key(0, *place, *[none] * (3 - len(place)))
                session.select(key)
                assert session.selected == key
            for key in (scm.Key(0, 0, 1, none), scm.Key(0, 0, 1, 0), scm.Key(0, 3, none, none), scm.Key(0, 0, 2, 3), scm.Key(*[none] * 4)):
                assert refused(session.select, key) == "no_item" and session.selected.file == 2
            session.press("space", "q")  # the quit dialog asks
            assert session.stage == scm.WAITING and refused(session.select, scm.Key(0, 0, none, none)) == "no_item"
            session.press("ctrl-c")
            assert refused(session.select, scm.Key(0, 0, none, none)) == "not_now"
    assert refused(session.select, scm.Key(0, 0, none, none)) == "closed"


def replay(session, log):
    """Makes the calls of a log: each line is one."""
    for line in log.splitlines():
        name, _, rest = line.partition(" ")
        if name == "size":
            (session.begin if session.stage == scm.BUILDING else session.resize)(*map(int, rest.split()))
        elif name == "batch":
            session.press_all(rest)
        elif name == "select":
            indexes = [int(index) for index in rest.split()]
            session.select(scm.Key(0, *indexes, *[scm.NO_INDEX] * (3 - len(indexes))))
        else:
            session.answer(json.loads(rest))


def check_replay():
    """The log of a layer, made as calls of a session without one, leads to the same screen and the same answer."""
    with scm.Session() as session, scm.Session() as again:
        for each in (session, again):
            fill(each)
        session.begin_layer(60, 10)
        session.log()
        for data in (b"/y\r", b"v", b"j", b" ", b"u", b"U", b"/z\r ", b"F", b"e"):
            session.type(data)
        session.answer("second")
        session.resize(50, 12)
        session.type(b"/w\r ")
        replay(again, session.logged())
        # below the rows of the session the layer has its status row
        rows = again.text().split("\n")[:-1]
        assert session.text().split("\n")[:-2] == rows and (again.selected, sides_of(again)) == (session.selected, sides_of(session))
        session.press("c")
        replay(again, session.logged().splitlines()[-1])
        assert again.stage == scm.ACCEPTED and sides_of(again) == sides_of(session) and again.message() == "second"


def waits_behind(words, message):
    """Whether a session waits for an event behind words, one batch, of which the first message is answered."""
    with scm.Session() as session:
        fill(session)
        session.begin(60, 10)
        session.press_all(" ".join(words))
        if message and session.stage == scm.EDITING:
            session.answer(message)
        return session.stage == scm.WAITING


def counted(words, message=""):
    """How many of words are handled, by batches of their first ones: up to the first behind which no session waits."""
    stops = [count for count in range(1, len(words) + 1) if not waits_behind(words[:count], message)]
    return (stops or [len(words)])[0]


def check_counts():
    """Batches of random words count what they handle, and so do their messages."""
    numbers = random.Random(4)
    for _ in range(150):
        words = numbers.choices("j k l space a f shift-F c q ctrl-c esc ? e e none view ensure".split(), k=numbers.randrange(9))
        with scm.Session() as session:
            fill(session)
            session.begin(60, 10)
            count = session.press_and_count(" ".join(words))
            assert count == counted(words), words
            if session.stage == scm.EDITING:
                assert count + session.answer_and_count("m") == counted(words, "m"), words
    with scm.Session() as layered:
        fill(layered)
        layered.begin_layer(60, 10)
        assert refused(layered.press_and_count, "j") == "not_now"


def check_escape():
    """A silence is awaited behind an ESC alone."""
    with scm.Session() as session:
        for data, is_pending in ((b"", False), (b"j", False), (b"\x1b", True), (b"[", False), (b"A", False), (b"\x1b\x1b", True)):
            session.decode(data) if data else None
            assert session.is_escape_pending == is_pending, data
        assert session.decode(b"") == ["esc"] and not session.is_escape_pending
        session.begin(80, 24)
        session.type(b"?\x1b")
        assert session.is_escape_pending and "Help" in session.text()
        session.idle()
        assert not session.is_escape_pending and "Help" not in session.text()
        session.type(b"\x1b[200~ab\x1b")
        assert not session.is_escape_pending
    assert refused(lambda: session.is_escape_pending) == "closed"


def check_sides():
    """What a tree has of a changed file by a side, and what a state is given of such a file."""
    text, run, link = 0o100644, 0o100755, 0o120000
    found = scm.tree_side(link, text, scm.BY_LINES, (scm.UNCHANGED, scm.ABSENT, 0))
    assert (found.mode, found.old_path_mode, found.contents) == (link, scm.ABSENT, scm.OF_OLD)
    found = scm.tree_side(scm.ABSENT, text, scm.BY_LINES, (scm.TEXT, scm.ABSENT, 5), is_selected=False)
    assert (found.mode, found.contents) == (text, scm.OF_SIDE)
    found = scm.tree_side(run, text, scm.BY_ITEMS, (scm.BINARY, 0o755, 0), is_renamed=True)
    assert (found.mode, found.old_path_mode, found.contents) == (scm.ABSENT, run, scm.OF_NEW)
    shown = scm.tree_shown(scm.ABSENT, text, scm.BY_ONE_ITEM)
    assert (shown.old_mode, shown.new_mode, shown.has_mode, shown.has_contents) == (text, text, False, True)
    assert is_no_number(scm.tree_shown, -1, text, scm.BY_LINES)


def check_trees():
    """What becomes of paths, also of so many that the answer has to be asked for again. And which paths are refused."""
    assert scm.decide(b"-nn a/b\0o-o a\0") == b"o a\0- a/b\0x a/b\0y a\0" and scm.decide(b"") == b""
    many = [b"f%d" % number for number in range(2000)]
    found = scm.decide(b"".join(b"onn %s\0" % path for path in many))
    assert sorted(found.split(b"\0")[:-1]) == sorted(b"n " + path for path in many)
    check_sides()
    assert [scm.path_fault(path) for path in (b"a/b", b"a/../b", b".Git", b"a\0b")] == ["", "dot_dot", "of_git", "with_nul"]


def check_merges():
    """The merge of three files: its lines, what marks make of it, and a session that shows it."""
    base, ours, theirs = b"a\nb\nc\n", b"a\nO\nc\n", b"A\nT\xff\nc\nd"
    lines = [("ours", "a\n"), ("ours", "O\n"), ("base", "a\n"), ("base", "b\n"), ("theirs", "A\n"), ("theirs", "T\U000e00ff\n")]
    lines += [("agreed", "c\n"), ("agreed", "d")]
    assert scm.merge_texts(base, ours, theirs) == lines and scm.merge_texts(b"", b"", b"") == []
    assert scm.merge_texts("", "", "x") == [scm.MergeLine("agreed", "x")] and scm.merged_bytes("", "", "x", []) == b"x"
    many = b"".join(b"%d\n" % number for number in range(5000))
    assert len(scm.merge_texts(b"", many, b"y")) == 5002
    with scm.Session() as session:
        session.add_merge("f", base, ours, theirs)
        session.begin(80, 24)
        marks = session.marks(0)
        assert marks == [False, False, True, True, False, False] and scm.open_conflicts(base, ours, theirs, marks) == 1
        assert scm.merged_bytes(base, ours, theirs, marks) == b"c\nd"
        versions = [b"a\nO\n", b"|||||||\na\nb\n", b"=======\nA\nT\xff\n"]
        assert scm.marked_bytes(base, ours, theirs, marks) == b"<<<<<<<\n%s%s%s>>>>>>>\nc\nd" % tuple(versions)
        labelled = b"<<<<<<< main\n%s|||||||\na\nb\n%s>>>>>>> to\xffpic\nc\nd" % (versions[0], versions[2])
        assert scm.marked_bytes(base, ours, theirs, marks, ours_label="main", base_label="b\nc", theirs_label=b"to\xffpic") == labelled
        longer = [marker * 9 for marker in (b"<", b"|", b"=", b">")]
        asked = b"%s\na\nO\n%s\na\nb\n%s\nA\nT\xff\n%s\nc\nd" % tuple(longer)
        assert scm.marked_bytes(base, ours, theirs, marks, marker_length=9) == asked
        # from the file to the section of theirs, whose two lines are marked at once
        session.press("l", "pagedown", "pagedown", "space", "c")
        marks = session.marks(0)
        assert session.stage == scm.ACCEPTED and marks == [False, False, True, True, True, True]
        assert scm.open_conflicts(base, ours, theirs, marks) == 0 and scm.merged_bytes(base, ours, theirs, marks) == theirs
        assert scm.marked_bytes(base, ours, theirs, marks) == theirs
    long = b"x" * 10000
    assert scm.marked_bytes("", "o", "t", [False, True, False], long, long, long).count(long) == 3
    open_one = "", "o\n", "t\n", [False, True, False]
    assert scm.marked_bytes(*open_one, marker_length=1) == b"<\no\n|\n=\nt\n>\n"
    for length in (-1, 2**64):
        try:
            scm.marked_bytes(*open_one, marker_length=length)
        except ValueError:
            continue
        raise AssertionError("a length of %d is taken" % length)
    for call in (scm.merged_bytes, scm.marked_bytes, scm.open_conflicts):
        assert refused(call, base, ours, theirs, marks[1:]) == "no_item"


def check_blanks():
    """A version without changes of blanks."""
    old, new = b"a\n\tb\nc\xff\nend", b"a \n    b\nnew\nc\xff\r\nend\n"
    assert scm.without_blank_changes(old, new) == (b"a\n\tb\nnew\nc\xff\nend\n", 3)
    assert scm.without_blank_changes(new, old) == (b"a \n    b\nc\xff\r\nend", 3)
    assert scm.without_blank_changes("", "") == (b"", 0) and scm.without_blank_changes("a\u00a0", "a") == (b"a", 0)
    assert scm.without_blank_changes("x" * 9000, "x " * 9000) == (b"x" * 9000, 1)


def check_docstrings():
    """All that is public has a docstring."""
    public = [(name, getattr(scm, name)) for name in scm.__all__]
    things = [(name, thing) for name, thing in public if inspect.isclass(thing) or inspect.isfunction(thing)]
    things += [("scm", scm), *inspect.getmembers(scm.Session, lambda it: inspect.isroutine(it) or isinstance(it, property))]
    own = [(name, thing) for name, thing in things if not name.startswith("__") or name in vars(scm.Session)]
    assert len(own) > 50 and all(thing.__doc__ for _, thing in own), [name for name, thing in own if not thing.__doc__]
    assert [int(part) for part in scm.__version__.split(".")][0] == 1


class AtTerminal(threading.Thread):
    """A thread whose session runs at a terminal of its own. `error` is how the run was refused."""

    def __init__(self):
        super().__init__()
        self.user, self.program = pty.openpty()
        self.settings = termios.tcgetattr(self.program)
        self.shown, self.error, self.end = b"", None, None

    def run(self):
        with scm.Session() as session:
            session.begin(80, 24)
            try:
                session.run(self.program)
            except OSError as error:
                self.error = error.errno
            self.end = session.end

    def wait_for(self, text):
        """Waits until the session has shown a text, or the run is over."""
        while text not in self.shown and (self.is_alive() or select.select([self.user], [], [], 0)[0]):
            if select.select([self.user], [], [], 0.05)[0]:
                self.shown += os.read(self.user, 1 << 16)


def run_in_threads():
    """Of two runs at a time the second one is refused, and leaves its terminal alone. No signal is lost."""
    heard = []
    before = signal.signal(signal.SIGTERM, lambda *_: heard.append(1))
    first, second = AtTerminal(), AtTerminal()
    first.start()
    first.wait_for(b"\x1b[?1049h")
    second.start()
    second.wait_for(b"\x1b[?1049h")
    os.write(second.user, b"q")  # if it is not refused, it ends
    second.join()
    assert (second.error, second.end, second.shown) == (errno.EBUSY, "not_ended", b"")
    assert termios.tcgetattr(second.program) == second.settings
    os.write(first.user, b"q")
    first.join()
    assert (first.error, first.end) == (None, "cancelled")
    signal.raise_signal(signal.SIGTERM)
    assert heard == [1]
    signal.signal(signal.SIGTERM, before)


def main():
    check_codes()
    check_numbers()
    check_values()
    check_paths()
    check_previews()
    check_pagers(int(os.environ.get("PAGERS", 100)))
    check_pager_keys()
    check_marks_in()
    check_structure()
    check_select()
    check_replay()
    check_escape()
    check_counts()
    check_trees()
    check_merges()
    check_blanks()
    check_docstrings()
    run_in_threads()
    drive_a_layer()
    label_sections()
    name_sections()
    log_a_layer()
    with scm.Session() as session:
        assert session.stage == scm.BUILDING and len(session) == 0
        assert refused(session.add_context, "a") == "no_item"
        assert refused(session.add_context, b"\xff") == "not_text"
        assert refused(session.press, "j") == "not_now"
        fill(session)
        assert refused(session.add_commit) == "not_accepted"
        assert refused(session.add_changes, "a\n" + "b" * 1000001, True) == "too_long"
        read_answers(session)
        session.begin(80, 24)
        assert refused(session.add_context, "a") == refused(session.begin, 1, 1) == "not_now"
        assert session.stage == scm.WAITING and session.text().count("\n") == 24
        every_row = session.paint()
        owner, key = session.owner(4, 0)
        assert (owner, key.file, key.section) == ("mark", 0, scm.NO_INDEX) and session.owner(23, 0)[0] == "nobody"
        assert session.symbol(0, 1) == "F" and session.symbol(4, 1) == "\u25d0" and session.symbol(24, 0) == ""
        session.click(23, 79)
        assert session.selected.file == 0 and session.end == "not_ended"
        assert len(session.paint()) < len(every_row)
        assert session.paint() == b""
        session.repaint()
        assert session.paint() == every_row
        read_answers(session)
        assert session.decode(b"j\x1b[<0;3;4M\x1b[") == ["j", "click:3:2"] and session.decode(b"A\x1b") == ["k"]
        assert session.decode(b"") == ["esc"] and session.decode(b"") == []
        assert refused(session.press_all, "j nothing") == "no_word"
        session.press_all("e j e k")
        for _ in range(2):
            assert session.stage == scm.EDITING and refused(session.press_all, "j") == "not_now"
            session.answer(session.text())
        assert session.stage == scm.WAITING
        assert session.press_and_count("") == 0 and session.press_and_count("  j k  ") == 2
        assert refused(session.press_and_count, "j nothing") == "no_word" and refused(session.answer_and_count, "m") == "not_now"
        assert session.press_and_count("j e k e j k") == 2 and session.stage == scm.EDITING
        assert session.answer_and_count(session.text()) == 2 and session.stage == scm.EDITING
        assert session.answer_and_count(session.text()) == 2 and session.stage == scm.WAITING
        session.press_all("  j k  ")
        assert session.type_to_key(b"j\tk") == (2, 9) and session.type_to_key(b"kx\x1a") == (2, 120)
        assert session.type_to_key(b"\x1b[200~\x1a\x1b[201~j") == (14, 0)
        session.press_all("c j")
        assert session.end == "accepted" and refused(lambda: session.selected) == "not_now"
        assert session.stage == scm.ACCEPTED and refused(session.paint) == "not_now"
        read_answers(session)
        assert json.loads(session.text().split("\n")[1]) == WANTED
    session = scm.Session.of_json(json.dumps(WANTED), 80, 24)
    read_answers(session)
    session.press("ctrl-c", "ctrl-c")
    assert session.end == "cancelled" and session.text() == "cancelled by user"
    session.close()
    with scm.Session() as lines:
        lines.add_file("f", 0o100644)
        lines.add_line("")
        lines.add_line("a\nb", is_added=True, is_checked=True)
        lines.add_texts("g", "a\nb", b"a\nc\n")
        assert (lines.side_bytes(1), lines.side_bytes(1, False)) == (b"a\nb", b"a\nc\n")
        lines.add_texts("h", b"\xff\0\n", "\U000e00ff\xe4".encode())
        assert (lines.side_bytes(2), lines.side_bytes(2, False)) == (b"\xff\0\n", "\U000e00ff\xe4".encode())
        assert refused(lines.label, 0, 0, b"\xff") == "not_text"
        assert (lines.line(0, 0, 0), lines.line(0, 1, 0), lines.marks(0)) == (b"", b"a\nb", [True])
    assert session.stage == scm.NONE and refused(session.paint) == "closed"
    try:
        scm.open_library("/there/is/no/library")
        raise AssertionError("a library that is missing was opened")
    except ImportError as error:
        assert "tools/build --shared" in str(error)


main()
