"""gabrosty-merge-tool by itself, as git mergetool and hg resolve call it, and beside git merge-file, for tools/dev/try-tools."""
import contextlib
import os
import random
import re
import shutil
import stat
import subprocess

import changed
import disks
import trying
from places import Repository
from rights import NOBODY, NOT_ROOT
from typed import Typed

NAME = "gabrosty-merge-tool"
BASE, OURS, THEIRS = b"1\nold\n3\n4\n", b"1\nours\n3\n4\n", b"1\ntheirs\nmore\n3\n4\nfive\n"
# what is asked when a conflict is open
ASKED = b"leaves the file as it is: "
ASKED_FOR_MARKERS = b"leaves the file with conflict markers: "
MODE = 0o640


def files_of(place, base=BASE, ours=OURS, theirs=THEIRS, output=b"before\n", name="files"):
    """Makes the four files of a merge, without those that are None. Returns their paths."""
    given = {"base": base, "ours": ours, "theirs": theirs, "output": output}
    folder = place.folder(name, {path: data for path, data in given.items() if data is not None})
    if output is not None:
        os.chmod(os.path.join(folder, "output"), MODE)
    return [os.path.join(folder, path) for path in given]


def read_data(path):
    with open(path, "rb") as file:
        return file.read()


def mode_of(path):
    return stat.S_IMODE(os.stat(path).st_mode)


@contextlib.contextmanager
def shown(place, command, folder=None, width=60, **more):
    """Gives a command that shows a merge, with the layer on and everything unfolded, as a user has it."""
    typed = Typed(command, width, 24, {**place.environment, "SELECT_LAYER": "on", **more}, folder or place.top)
    try:
        yield typed
    finally:
        with contextlib.suppress(ProcessLookupError):
            os.kill(typed.process, 9)


def type_into(place, words, command, folder=None, **more):
    """Types words into a command. Returns its status, and what it said."""
    with shown(place, command, folder, **more) as typed:
        for word in words:
            typed.press(word)
        return typed.end(), typed.said()


def leave_open(typed, letter, asked=ASKED):
    """Accepts with an open conflict, and answers what is asked then by a line. Returns what was asked."""
    begun = len(typed.seen)
    typed.write(b"c")
    typed.wait_for(asked)
    typed.write(letter + b"\n")
    return typed.seen[begun:]


def each_version(place):
    """Ours, the base's, theirs, both, some lines: each by few keys. The file keeps its permissions, and the others stay."""
    ends = []
    # the header of ours is selected first; page down goes on to the next header
    for keys, merged in (
        (["space"], b"1\nours\n3\n4\nfive\n"),
        (["pagedown", "space"], b"1\nold\n3\n4\nfive\n"),
        (["pagedown", "pagedown", "space"], b"1\ntheirs\nmore\n3\n4\nfive\n"),
        (["space", "pagedown", "pagedown", "space"], b"1\nours\ntheirs\nmore\n3\n4\nfive\n"),
        (["pagedown", "pagedown", "j", "j", "space"], b"1\nmore\n3\n4\nfive\n"),
    ):
        paths = files_of(place)
        status, _ = type_into(place, [*keys, "c"], [NAME, *paths])
        found = [read_data(path) for path in paths]
        ends.append((status, found, mode_of(paths[3])) == (0, [BASE, OURS, THEIRS, merged], MODE))
    return all(ends) and place.has_only("files")


def deleted_lines(place):
    """A version without lines has an item of its own: with a mark on it the lines are gone."""
    paths = files_of(place, b"1\n2\n3\n", b"1\n3\n", b"1\ntwo\n3\n")
    is_gone = type_into(place, ["space", "c"], [NAME, *paths])[0] == 0 and read_data(paths[3]) == b"1\n3\n"
    return is_gone and type_into(place, ["l", "space", "c"], [NAME, *paths])[0] == 0 and read_data(paths[3]) == b"1\n3\n"


def open_conflicts(place):
    """With a conflict open, accepting asks, and says how many. The user goes back, with the marks as they were, or leaves the file."""
    base, ours, theirs = b"1\n2\n3\n4\n5\n", b"one\n2\n3\n4\nfive\n", b"eins\n2\n3\n4\nfuenf\n"
    paths = files_of(place, base, ours, theirs)
    with shown(place, [NAME, "--path", "output", *paths]) as typed:
        is_said = b"output\xc2\xa0(2 conflicts)" in typed.screen() and b"]2;gabrosty-merge-tool: 2 conflicts" in typed.seen
        is_named = all(version + b" 1/2 " in typed.screen() for version in (b"ours", b"base", b"theirs"))
        asked = leave_open(typed, b"l")
        status, said = typed.end(), typed.said()
    is_left = status == 1 and b"2 of 2 conflicts are open (1, 2). " in asked
    is_left = is_left and said.endswith("2 of 2 conflicts are open (1, 2): %s stays as it is\n" % paths[3])
    is_left = is_left and read_data(paths[3]) == b"before\n"
    with shown(place, [NAME, "--path", "output", *paths]) as typed:
        typed.press("space")
        count, asked = len(typed.frames), leave_open(typed, b"")
        typed.wait_for_frames(count + 1)
        # the first section of the second conflict is selected
        is_back = b"1 of 2 conflicts is open (2). " in asked and b"(2 conflicts, 1 open)" in typed.screen()
        typed.press("space")
        typed.press("c")
        status = typed.end()
    return is_said and is_named and is_left and is_back and status == 0 and read_data(paths[3]) == ours


def distant_conflicts(count):
    """Returns the base, ours and theirs of a merge with as many conflicts, none of which is on one screen with another one."""
    between = [b"%d\n" % number for number in range(40)]
    return [b"".join(line for number in range(count) for line in [b"%s %d\n" % (name, number), *between]) for name in (b"old", b"ours", b"theirs")]


def ways_to_open_conflicts(place):
    """The status row says after each key how many conflicts are open. `]` and `[` go to the next and the previous one, also from the last to
    the first, and show it. If none is open, they do nothing."""
    texts = distant_conflicts(3)
    paths = files_of(place, *texts)
    steps = (
        ("none", b"open: 3/3  ]: next  c writes the merge", 1),
        ("]", b"open: 3/3", 2), ("space", b"open: 2/3  ]: next", 2), ("space", b"open: 3/3", 2), ("space", b"open: 2/3", 2),
        ("]", b"open: 2/3", 3), ("]", b"open: 2/3", 1), ("[", b"open: 2/3", 3), ("pagedown", b"open: 2/3", 3), ("[", b"open: 2/3", 1), ("[", b"open: 2/3", 3),
        ("space", b"open: 1/3", 3), ("[", b"open: 1/3", 1), ("]", b"open: 1/3", 1), ("pagedown", b"open: 1/3", 1), ("pagedown", b"open: 1/3", 1),
        ("space", b"open: 0/3  c writes the merge", 1), ("]", b"open: 0/3", 1), ("[", b"open: 0/3", 1),
    )
    with shown(place, [NAME, *paths]) as typed:
        for key, row, conflict in steps:
            typed.press(key)
            screen = typed.screen()
            if row not in screen or b" %d/3 " % conflict not in screen:
                print("ways to open conflicts, %s: %s" % (key, screen.decode()))
                return False
        typed.press("c")
        status = typed.end()
    return status == 0 and read_data(paths[3]) == texts[1].replace(b"ours 0", b"theirs 0")


def last_row(typed):
    return typed.screen().decode().strip().split("\n")[-1].strip('"').strip()


def rows_that_are_narrow(place):
    """Where the status row has no columns for all that it says, it still says how many conflicts are open: also after the terminal got another
    width."""
    ends = []
    for count, rows in ((1, {30: "", 32: "open: 1/1", 40: "open: 1/1  ]: next", 58: "open: 1/1  ]: next", 60: "open: 1/1  ]: next  c writes the merge"}),
                        (120, {36: "", 38: "open: 120/120", 46: "open: 120/120  ]: next", 66: "open: 120/120  ]: next  c writes the merge"})):
        for width, words in rows.items():
            paths = files_of(place, *distant_conflicts(count))
            with shown(place, [NAME, *paths], width=width) as typed:
                wanted = "lines: %d, files: 1" % count + ("  " + words if words else "")
                ends.append(last_row(typed) == wanted)
                # another width, and a key
                typed.resize(80, 24)
                typed.press("j")
                ends.append(last_row(typed).endswith("open: %d/%d  ]: next  c writes the merge" % (count, count)))
    return all(ends)


def many_open_conflicts(place):
    """Of many open conflicts the first ones are named. Without the layer there is neither the row nor its keys."""
    paths = files_of(place, *distant_conflicts(12))
    with shown(place, [NAME, *paths]) as typed:
        typed.press("space")
        asked = leave_open(typed, b"l")
        is_named = typed.end() == 1 and b"11 of 12 conflicts are open (2, 3, 4, 5, 6, 7, 8, 9, 10, 11 ..). " in asked
    with shown(place, [NAME, *paths], SELECT_LAYER="off") as typed:
        before = typed.screen()
        typed.press("]")
        return is_named and b"open: " not in before and typed.screen() == before


def conflict_markers(place):
    """With `--markers` open conflicts get the markers that git writes, with the labels, and the status is 1. What is settled has none. `q`
    leaves the file, and so does the end of what is typed."""
    base, ours, theirs = b"1\n2\n3\n4\n5\n", b"one\n2\n3\n4\nfive\n", b"eins\n2\n3\n4\nfuenf\n"
    paths = files_of(place, base, ours, theirs)
    labels = ["--base-label", "the base", "--ours-label", "main", "--theirs-label", "topic"]
    command = [NAME, "--markers", *labels, *paths]
    by_git = ["git", "merge-file", "-p", "--diff3", "-L", "main", "-L", "the base", "-L", "topic", paths[1], paths[0], paths[2]]
    wanted = subprocess.run(by_git, stdout=subprocess.PIPE).stdout
    is_left = type_into(place, ["q", "enter"], command)[0] == 1 and read_data(paths[3]) == b"before\n"
    with shown(place, command) as typed:
        typed.write(b"c")
        typed.wait_for(ASKED_FOR_MARKERS)
        # the end of what is typed is no answer
        typed.write(b"\x04")
        is_left = is_left and typed.end() == 1 and read_data(paths[3]) == b"before\n"
    with shown(place, command) as typed:
        leave_open(typed, b"l", ASKED_FOR_MARKERS)
        is_open = typed.end() == 1 and read_data(paths[3]) == wanted and typed.said().endswith(": %s has conflict markers\n" % paths[3])
    with shown(place, command) as typed:
        typed.press("space")
        leave_open(typed, b"l", ASKED_FOR_MARKERS)
        end = wanted[wanted.rindex(b"<<<<<<< main") :]
        is_half = typed.end() == 1 and read_data(paths[3]) == b"one\n2\n3\n4\n" + end
    is_whole = type_into(place, ["space", "pagedown", "pagedown", "pagedown", "space", "c"], command)[0] == 0 and read_data(paths[3]) == ours
    return is_left and is_open and is_half and is_whole and mode_of(paths[3]) == MODE


def output_with_markers(place, texts, *options):
    """Leaves all conflicts of a merge open, with markers. Returns the status, and what is written."""
    paths = files_of(place, *texts)
    with shown(place, [NAME, "--markers", *options, *paths]) as typed:
        leave_open(typed, b"l", ASKED_FOR_MARKERS)
        return typed.end(), read_data(paths[3])


def lengths_of_markers(place):
    """`--marker-length` says how many signs a marker has, as with git. A line that begins with as many makes it longer. What is no length is
    refused."""
    ends = []
    labels = ["--ours-label", "main", "--base-label", "the base", "--theirs-label", "topic"]
    for length in 1, 7, 12, 40:
        paths = files_of(place)
        names = "-L", "main", "-L", "the base", "-L", "topic"
        by_git = ["git", "merge-file", "-p", "--diff3", "--marker-size=%d" % length, *names, paths[1], paths[0], paths[2]]
        wanted = subprocess.run(by_git, stdout=subprocess.PIPE).stdout
        ends.append(output_with_markers(place, (BASE, OURS, THEIRS), *labels, "--marker-length", str(length)) == (1, wanted))
    ours = OURS + b"|" * 9 + b"\n"
    for length, signs in (7, 10), (9, 10), (10, 10), (11, 11):
        marks = [sign * signs for sign in (b"<", b"|", b"=", b">")]
        wanted = b"1\n%s\nours\n%s\nold\n%s\ntheirs\nmore\n%s\n3\n4\n" % tuple(marks)
        theirs = THEIRS.replace(b"five\n", b"")
        status, written = output_with_markers(place, (BASE, ours, theirs), "--marker-length=%d" % length)
        ends.append((status, written) == (1, wanted + b"|" * 9 + b"\n"))
    paths = files_of(place)
    said = "%s: --marker-length: it takes a number from 1 to 9,999,999\n" % NAME
    for word in "", "0", "x", "7x", "-7", " 7", "+7", "10000000", "9" * 40:
        ends.append(place.call(NAME, "--marker-length", word, *paths) == (2, said) and read_data(paths[3]) == b"before\n")
    return all(ends)


def each_width(place):
    """On screens of 60, 80 and 200 columns the header of each section names its version, and a choice is written."""
    ends = []
    for width in 60, 80, 200:
        paths = files_of(place)
        labels = ["--ours-label", "main", "--theirs-label", "topic"]
        with shown(place, [NAME, "--path", "src/a.txt", *labels, *paths], width=width) as typed:
            rows = typed.screen()
            named = b"src/a.txt\xc2\xa0(1 conflict)", b"ours 1/1 (main) ", b"base 1/1 ", b"theirs 1/1 (topic) ", b"open: 1/1"
            is_wide = all(max(row) < width for row in typed.shown.rows.values() if row)
            typed.press("pagedown")
            typed.press("pagedown")
            typed.press("space")
            is_counted = b"open: 0/1" in typed.screen()
            typed.press("c")
            is_written = typed.end() == 0 and read_data(paths[3]) == b"1\ntheirs\nmore\n3\n4\nfive\n"
        ends.append(all(words in rows for words in named) and is_wide and is_counted and is_written)
    return all(ends)


def labels_of_versions(place):
    """The header of each section has the label of its version. What of a label is not seen is written out there, and a label with a line end
    is behind no marker."""
    paths = files_of(place)
    labels = ["--ours-label", "ma\x1b[31min", "--theirs-label", "topic\n>>>>>>> x"]
    with shown(place, [NAME, "--markers", *labels, *paths]) as typed:
        rows = typed.screen()
        leave_open(typed, b"l", ASKED_FOR_MARKERS)
        status = typed.end()
    named = b"ours 1/1 (ma\\x1b[31min) ", b"base 1/1  ", b"theirs 1/1 (topic\\x0a>>>>>>> x) "
    conflict = b"<<<<<<< ma\x1b[31min\nours\n|||||||\nold\n=======\ntheirs\nmore\n>>>>>>>\n"
    return status == 1 and all(words in rows for words in named) and read_data(paths[3]) == b"1\n" + conflict + b"3\n4\nfive\n"


def long_labels(place):
    """Labels of 100,000 bytes are cut on any screen, also where no column of them is left, and are whole behind the markers. What is no UTF-8
    comes back."""
    ends = []
    ours, theirs = b"\xff" + b"x" * 99_999, "\u6f22".encode() * 33_333
    marks = [b"<<<<<<< " + ours, b"|||||||", b"=======", b">>>>>>> " + theirs]
    wanted = b"1\n%s\nours\n%s\nold\n%s\ntheirs\nmore\n%s\n3\n4\nfive\n" % tuple(marks)
    for width, row in (10, "  ( ) \u2026(-)"), (20, "  ( ) ours 1/1 (\u2026(-)"), (40, "  ( ) ours 1/1 (\\xffxxxxxxxxxxxxxxxx\u2026(-)"):
        paths = files_of(place)
        with shown(place, [NAME, "--markers", "--ours-label", ours, "--theirs-label", theirs, *paths], width=width) as typed:
            rows = typed.screen()
            is_narrow = all(max(row) < width for row in typed.shown.rows.values() if row)
            leave_open(typed, b"l", ASKED_FOR_MARKERS)
            ends.append(typed.end() == 1 and is_narrow and row.encode() in rows and read_data(paths[3]) == wanted)
    return all(ends)


def narrow_headers(place):
    """From 11 columns on the header of each section begins with its version, so the three can be told apart."""
    wanted = {
        11: ("o\u2026", "b\u2026", "t\u2026"),
        13: ("our\u2026", "bas\u2026", "the\u2026"),
        17: ("ours 1/1", "base 1/1", "theirs \u2026"),
        20: ("ours 1/1", "base 1/1", "theirs 1/1"),
    }
    for width, names in wanted.items():
        with shown(place, [NAME, *files_of(place)], width=width) as typed:
            rows = re.findall(r'"  .{4}(.*?) *[(\[]-[)\]]"', typed.screen().decode())
            typed.press("space")
            typed.press("c")
            status = typed.end()
        if status or tuple(rows) != names:
            print("narrow headers, on %d columns: %r, status %d" % (width, rows, status))
            return False
    return True


def keys_on_a_page(place):
    """A second `?` shows all keys, with what this program does at `]` and `[`. The merge goes on behind it."""
    paths = files_of(place)
    with shown(place, [NAME, *paths], width=90) as typed:
        typed.press("?")
        typed.press("?")
        rows = typed.screen()
        for word in "q", "space", "c":
            typed.press(word)
        status = typed.end()
    is_named = b"], [                      goes to the next or the previous open conflict" in rows and b"next or the previous section" not in rows
    return is_named and status == 0 and read_data(paths[3]) == b"1\nours\n3\n4\nfive\n"


def outputs_that_are_versions(place):
    """OUTPUT may be one of the other three also where there is a conflict: it gets the merge, or the markers, or stays."""
    versions = [BASE, OURS, THEIRS]
    left = b"1\n<<<<<<<\nours\n|||||||\nold\n=======\ntheirs\nmore\n>>>>>>>\n3\n4\nfive\n"
    ends = []
    for place_of in range(3):
        for options, merged in ([], b"1\nours\n3\n4\nfive\n"), (["--markers"], left), ([], None):
            paths = files_of(place)[:3]
            command = [NAME, *options, *paths, paths[place_of]]
            if options:
                with shown(place, command) as typed:
                    leave_open(typed, b"l", ASKED_FOR_MARKERS)
                    status = typed.end()
            else:
                status, _ = type_into(place, ["space", "c"] if merged else ["q", "enter"], command)
            wanted = versions[:place_of] + [merged or versions[place_of]] + versions[place_of + 1 :]
            ends.append((status, [read_data(path) for path in paths]) == (0 if merged and not options else 1, wanted))
    return all(ends)


# conflicts where line ends differ, or a side has no line: the base, ours and theirs
ODD_ENDS = (
    (b"1\n2", b"1\no", b"1\nt\n"), (b"1\n2", b"1\no\n", b"1\nt"), (b"1\n2\n", b"1\no", b"1\nt"), (b"", b"o", b"t\n"), (b"1\n2\n", b"", b"1\nt\n"), (b"1\n2", b"1\nt", b""),
    (b"1\r\n2\r\n", b"1\r\no\r\n", b"1\r\nt\r\n"), (b"1\r\n2\r\n", b"1\r\no", b"1\r\nt\r\n"), (b"1\r\n2\r\n", b"1\r\no\r\n", b"1\r\nt"),
)


def markers_by_line_ends(place):
    """Where a last line has no line end, line ends are CR and LF, or a side is empty, the markers are those that git writes."""
    for texts in ODD_ENDS:
        found = output_with_markers(place, texts)
        paths = files_of(place, *texts)
        by_git = ["git", "merge-file", "-p", "-q", "--diff3", "-L", "", "-L", "", "-L", "", paths[1], paths[0], paths[2]]
        # git has a blank behind a marker without a label
        wanted = re.sub(rb"(?m)^((<|\||>)\2{6}) (\r?)$", rb"\1\3", subprocess.run(by_git, stdout=subprocess.PIPE).stdout)
        if found != (1, wanted):
            print("markers by line ends, %r: %r and not %r" % (texts, found, wanted))
            return False
    return True


def a_thousand_conflicts(place):
    """Of a thousand conflicts in 100,000 lines each is open at first. `[` goes to the last one, which is settled, and the others have markers."""
    count, between = 1000, b"".join(b"%d\n" % number for number in range(99))
    texts = [b"".join(b"%s %d\n" % (name, number) + between for number in range(count)) for name in (b"old", b"ours", b"theirs")]
    paths = files_of(place, *texts)
    with shown(place, [NAME, "--markers", *paths]) as typed:
        is_all = b"open: 1000/1000" in typed.screen()
        typed.press("[")
        typed.press("space")
        is_last = b" 1000/1000 " in typed.screen() and b"open: 999/1000" in typed.screen()
        asked = leave_open(typed, b"l", ASKED_FOR_MARKERS)
        status = typed.end()
    is_named = b"999 of 1000 conflicts are open (1, 2, 3, 4, 5, 6, 7, 8, 9, 10 ..). " in asked
    rows = b"<<<<<<<\nours %d\n|||||||\nold %d\n=======\ntheirs %d\n>>>>>>>\n"
    wanted = b"".join((rows % (number, number, number) if number < count - 1 else b"ours %d\n" % number) + between for number in range(count))
    return status == 1 and is_all and is_last and is_named and read_data(paths[3]) == wanted


def left_by_the_user(place):
    """`q` leaves the file as it is: at once if no mark was changed, and else after a question. So does a signal."""
    paths = files_of(place)
    ends = [type_into(place, words, [NAME, *paths]) for words in (["q"], ["space", "q", "enter"])]
    is_left = all(status == 1 and said.endswith(NAME + ": cancelled by user\n") for status, said in ends)
    with shown(place, [NAME, *paths]) as typed:
        typed.press("space")
        os.kill(typed.process, 15)
        is_ended = typed.end() == -15
    return is_left and is_ended and read_data(paths[3]) == b"before\n" and place.has_only("files")


# merges without a conflict: the base, ours, theirs, and the merge
UNSEEN = {
    "one side": (BASE, OURS, BASE, OURS),
    "the other side": (BASE, BASE, THEIRS, THEIRS),
    "the same on both": (BASE, OURS, OURS, OURS),
    "other lines": (b"1\n2\n3\n", b"one\n2\n3\n", b"1\n2\nthree\n", b"one\n2\nthree\n"),
    "nothing": (b"", b"", b"", b""),
    "all lines gone": (b"1\n", b"", b"1\n", b""),
    "the same file added": (b"", b"1\n", b"1\n", b"1\n"),
    "no base": (None, b"1\n", b"1\n", b"1\n"),
    "no line end": (b"1\n2\n3", b"one\n2\n3", b"1\n2\n3\n4", b"one\n2\n3\n4"),
    "CR and LF": (b"1\r\n2\r\n3\r\n", b"one\r\n2\r\n3\r\n", b"1\r\n2\r\n3\r\n4\n", b"one\r\n2\r\n3\r\n4\n"),
    "bytes that are no UTF-8": (b"\xff\n2\n3\n", b"\xff\n2\n\xfe\n", b"\xf3\xa0\x82\x80\n2\n3\n", b"\xf3\xa0\x82\x80\n2\n\xfe\n"),
    "lines like markers": (b"<<<<<<< a\n2\n=======\n", b"<<<<<<< a\n2\n", b"<<<<<<< b\n2\n=======\n", b"<<<<<<< b\n2\n"),
    "a long line": (b"1\n2\n3\n", b"x" * 2_000_000 + b"\n2\n3\n", b"1\n2\nthree\n", b"x" * 2_000_000 + b"\n2\nthree\n"),
}


def without_a_conflict(place):
    """Without a conflict the merge is written unseen, where there is no terminal. OUTPUT may be new, or one of the other files."""
    ends = []
    for name, (base, ours, theirs, merged) in UNSEEN.items():
        paths = files_of(place, base, ours, theirs)
        end = place.call(NAME, *paths), read_data(paths[3]), mode_of(paths[3])
        if end != ((0, ""), merged, MODE):
            print("%s: %s" % (name, end))
        ends.append(end == ((0, ""), merged, MODE))
        paths = files_of(place, base, ours, theirs, None)
        os.chmod(paths[1], 0o600)
        ends.append(place.call(NAME, *paths) == (0, "") and read_data(paths[3]) == merged and mode_of(paths[3]) == 0o600)
        ends.append(place.call(NAME, *paths[:3], paths[1]) == (0, "") and read_data(paths[1]) == merged)
    return all(ends)


def what_comes_to_output_meanwhile(place):
    """A file that another user puts where OUTPUT is to be, while the user chooses, is named, and stays. One of the user's is replaced, and
    gives no permissions: the merge has those of what it is made of."""
    if os.geteuid():
        return NOT_ROOT
    ends = []
    for name, owner, mode in (("mine", 0, 0o666), ("theirs", NOBODY, 0o666)):
        paths = files_of(place, output=None, name=name)
        for path in paths[:3]:
            os.chmod(path, 0o600)
        os.chmod(os.path.dirname(paths[3]), 0o1777)
        with shown(place, [NAME, *paths]) as typed:
            changed.write_file(paths[3], b"meanwhile\n")
            os.chmod(paths[3], mode)
            os.chown(paths[3], owner, owner)
            typed.press("space")
            typed.press("c")
            ends.append((typed.end(), typed.said(), read_data(paths[3]), mode_of(paths[3])))
    refused = "%s: %s: it changed meanwhile\n" % (NAME, paths[3])
    return ends == [(0, "", b"1\nours\n3\n4\nfive\n", 0o600), (2, refused, b"meanwhile\n", 0o666)]


def outputs_with_names_of_options(place):
    """A file whose name is that of an option is a file behind the first path: the merge is written to it."""
    ends = []
    for name in "--help", "--version", "-h", "--markers", "--path=x", "--":
        paths = files_of(place, b"1\n2\n3\n", b"one\n2\n3\n", b"1\n2\nthree\n", None)
        folder = os.path.dirname(paths[0])
        end = place.call(NAME, *paths[:3], name, folder=folder)
        ends.append(end == (0, "") and changed.read_file(os.path.join(folder, name)) == b"one\n2\nthree\n")
    return all(ends)


def refused_files(place):
    """What cannot be merged is named, with status 2, and OUTPUT stays: no control character of a name is printed."""
    paths = files_of(place)
    binary, folder = os.path.join(place.folder("more", {"\x1b[31m": b"1\0\n"}), "\x1b[31m"), place.folder("folder")
    long = os.path.join(place.folder("long", {"a": b"x" * 1_000_001 + b"\n"}), "a")
    shown_name = binary.replace("\x1b", "\\x1b")
    base, ours, theirs, output = paths
    tries = "wrong arguments: try %s --help" % NAME
    cases = [
        ([base, binary, theirs, output], shown_name + ": it has a NUL byte, as no text has: nothing was written"),
        ([base, ours, "/nowhere", output], "/nowhere: No such file or directory"),
        ([base, folder, theirs, output], folder + ": Is a directory"),
        # before the user chooses, and where nothing is chosen
        ([base, ours, theirs, "/nowhere/x"], "/nowhere/x: No such file or directory"),
        ([base, base, theirs, "/nowhere/x"], "/nowhere/x: No such file or directory"),
        (paths, "there is no terminal: No such device or address"),
        (paths[:3], tries), ([*paths, base], tries), (["--nothing", *paths], tries),
    ]
    ends = [place.call(NAME, *words) == (2, "%s: %s\n" % (NAME, line)) for words, line in cases]
    status, said = type_into(place, [], [NAME, base, long, theirs, output])
    ends.append(status == 2 and said.endswith(output + ": a line is too long to be shown: nothing was written\n"))
    return all(ends) and read_data(output) == b"before\n"


def named_in_another_way(place):
    """`--path` names the file that is shown, with what is not seen written out."""
    paths = files_of(place)
    with shown(place, [NAME, "--path", "in\x1b[31m/b\\c", *paths]) as typed:
        is_named = b"in\\x1b[31m/b\\\\c\xc2\xa0(1 conflict)" in typed.screen()
        typed.press("space")
        typed.press("c")
        return typed.end() == 0 and is_named


# ---- git and hg

TOOL = {"merge.tool": "gabrosty", "mergetool.gabrosty.cmd": NAME + ' "$BASE" "$LOCAL" "$REMOTE" "$MERGED"', "mergetool.gabrosty.trustExitCode": "true"}
SETTINGS = [word for name, value in TOOL.items() for word in ("-c", "%s=%s" % (name, value))]
MERGETOOL = ["git", *SETTINGS, "mergetool", "--no-prompt"]


def conflict_in(place, old, ours, theirs, name="repository"):
    """Returns a repository where a merge of two branches has stopped with conflicts."""
    repository = Repository(place, old, theirs, name)
    repository.git("checkout", "--quiet", "-b", "theirs")
    repository.commit()
    repository.git("checkout", "--quiet", "-b", "ours", "HEAD^")
    changed.write(repository.folder, ours)
    repository.commit()
    repository.git("merge", "--quiet", "theirs")
    return repository


def is_resolved(repository, files):
    """Whether the index and the working tree have these files, and no conflict is left."""
    return not repository.git("ls-files", "--unmerged") and repository.index_files() == files == repository.files()


def git_mergetool(place):
    """One side takes a whole version, another one single lines: git stages what was written, with the mode of the file. Without backups
    no file is left beside it."""
    repository = conflict_in(place, {"a": ("run", BASE), "b": BASE}, {"a": ("run", OURS), "b": OURS}, {"a": ("run", THEIRS), "b": THEIRS})
    repository.git("config", "mergetool.keepBackup", "false")
    with shown(place, MERGETOOL, repository.folder) as typed:
        typed.press("space")
        count = len(typed.frames)
        typed.write(b"c")
        typed.wait_for_frames(count + 1)
        typed.press("pagedown")
        typed.press("pagedown")
        typed.press("space")
        typed.press("c")
        status = typed.end()
    return status == 0 and is_resolved(repository, {"a": ("run", b"1\nours\n3\n4\nfive\n"), "b": b"1\ntheirs\nmore\n3\n4\nfive\n"})


def git_mergetool_on_a_changed_mode(place):
    """One side alone let the file be run: git stages the merge with that mode."""
    repository = conflict_in(place, {"a": BASE}, {"a": OURS}, {"a": ("run", THEIRS)})
    repository.git("config", "mergetool.keepBackup", "false")
    status, _ = type_into(place, ["space", "c"], MERGETOOL, repository.folder)
    return status == 0 and is_resolved(repository, {"a": ("run", b"1\nours\n3\n4\nfive\n")})


def git_mergetool_that_is_left(place):
    """If the merge is left, or a conflict is open, git keeps the conflict, and the file has its markers as before."""
    repository = conflict_in(place, {"a": BASE}, {"a": OURS}, {"a": THEIRS})
    before = repository.files(), repository.index()
    status, _ = type_into(place, ["q", "enter"], [*MERGETOOL, "a"], repository.folder)
    is_left = status != 0 and (repository.files(), repository.index()) == before
    with shown(place, [*MERGETOOL, "a"], repository.folder) as typed:
        leave_open(typed, b"l")
        is_open = typed.end() != 0
    return is_left and is_open and (repository.files(), repository.index()) == before


def git_mergetool_with_backups(place):
    """With `mergetool.keepBackup` git keeps the file with its markers beside the merge."""
    repository = conflict_in(place, {"a": BASE}, {"a": OURS}, {"a": THEIRS})
    marked = repository.files()["a"]
    status, _ = type_into(place, ["space", "c"], [*MERGETOOL, "a"], repository.folder)
    return status == 0 and repository.files() == {"a": b"1\nours\n3\n4\nfive\n", "a.orig": marked}


def git_mergetool_on_an_added_file(place):
    """Both sides added the file: there is no base."""
    repository = conflict_in(place, {"x": b"1\n"}, {"x": b"1\n", "a": b"1\nours\n"}, {"x": b"1\n", "a": b"1\ntheirs\n"})
    repository.git("config", "mergetool.keepBackup", "false")
    status, _ = type_into(place, ["pagedown", "pagedown", "space", "c"], MERGETOOL, repository.folder)
    return status == 0 and is_resolved(repository, {"x": b"1\n", "a": b"1\ntheirs\n"})


def git_mergetool_on_a_deleted_file(place):
    """One side deleted what the other one changed: git asks about it by itself, and then shows the conflict of the other file."""
    repository = conflict_in(place, {"a": BASE, "b": BASE}, {"b": OURS}, {"a": THEIRS, "b": THEIRS})
    repository.git("config", "mergetool.keepBackup", "false")
    typed = Typed(["sh", "-c", 'printf "\\033[?2026h\\033[?2026l"; exec "$@"', "sh", *MERGETOOL], 60, 24,
                  {**place.environment, "SELECT_LAYER": "on"}, repository.folder)
    # it may have come with the first frame already
    while b"(m)odified or (d)eleted file" not in typed.seen and typed.read():
        pass
    count = len(typed.frames)
    typed.write(b"m\n")
    typed.wait_for_frames(count + 1)
    typed.press("space")
    typed.press("c")
    return typed.end() == 0 and is_resolved(repository, {"a": THEIRS, "b": b"1\nours\n3\n4\nfive\n"})


def git_mergetool_on_a_renamed_file(place):
    """One side renamed the file: the conflict is at its new path."""
    old = {"a": changed.NUMBERS}
    ours, theirs = changed.NUMBERS.replace(b"5\n", b"ours\n"), changed.NUMBERS.replace(b"5\n", b"theirs\n")
    repository = conflict_in(place, old, {"b c": ours}, {"a": theirs})
    repository.git("config", "mergetool.keepBackup", "false")
    status, _ = type_into(place, ["space", "c"], MERGETOOL, repository.folder)
    return status == 0 and is_resolved(repository, {"b c": ours})


# a file of this repository that has changed often
OFTEN_CHANGED = ".ci/run"


def real_conflict(place):
    """Returns a version of a file of this repository, the one before and the one after, between which git finds two or three conflicts, and the
    merge with ours in each; or None if the history has none."""

    def git(*words):
        return subprocess.run(["git", *words], cwd=trying.ROOT, stdout=subprocess.PIPE, check=True).stdout

    log = git("log", "--raw", "--no-abbrev", "--no-renames", "--format=", "--diff-filter=AM", "--", OFTEN_CHANGED).decode()
    names = [line.split(" ")[3] for line in log.splitlines()]
    # the first ones come first, so that a later commit changes nothing here
    for old, base, new in zip(names[::-1], names[-2::-1], names[-3::-1]):
        texts = [git("cat-file", "blob", name) for name in (base, old, new)]
        paths = files_of(place, *texts)
        if merged_by_git(paths)[0] in (2, 3):
            words = ["git", "merge-file", "-p", "--ours", paths[1], paths[0], paths[2]]
            return texts, subprocess.run(words, stdout=subprocess.PIPE).stdout
    return None


def git_mergetool_on_a_real_conflict(place):
    """Conflicts of a file of this repository are settled by fewer than ten keys."""
    found = real_conflict(place)
    if not found:
        return "the history is not there"
    (base, ours, theirs), merged = found
    repository = conflict_in(place, {"file": base}, {"file": ours}, {"file": theirs})
    repository.git("config", "mergetool.keepBackup", "false")
    count = 0
    with shown(place, MERGETOOL, repository.folder) as typed:
        while b"open: 0/" not in typed.screen() and count < 8:
            typed.press("space")
            typed.press("]")
            count += 2
        typed.press("c")
        status = typed.end()
    return status == 0 and count + 1 < 10 and is_resolved(repository, {"file": merged})


def git_merge_driver(place):
    """As a merge driver it writes markers of the length that the attribute `conflict-marker-size` asks for, and settles what is chosen."""
    asked = {".gitattributes": b"a merge=gabrosty conflict-marker-size=12\n"}
    repository = conflict_in(place, {**asked, "a": BASE}, {**asked, "a": OURS}, {**asked, "a": THEIRS})
    repository.git("merge", "--abort")
    repository.git("config", "merge.gabrosty.driver", NAME + " --markers --marker-length %L --path %P %O %A %B %A")
    merge = ["git", "merge", "--quiet", "--no-edit", "theirs"]
    with shown(place, merge, repository.folder) as typed:
        is_named = b"a\xc2\xa0(1 conflict)" in typed.screen()
        leave_open(typed, b"l", ASKED_FOR_MARKERS)
        is_left = typed.end() == 1
    marks = [sign * 12 for sign in (b"<", b"|", b"=", b">")]
    wanted = b"1\n%s\nours\n%s\nold\n%s\ntheirs\nmore\n%s\n3\n4\nfive\n" % tuple(marks)
    is_open = repository.files()["a"] == wanted and repository.git("ls-files", "--unmerged")
    repository.git("merge", "--abort")
    status, _ = type_into(place, ["space", "c"], merge, repository.folder)
    return bool(is_named and is_left and is_open) and status == 0 and repository.files()["a"] == b"1\nours\n3\n4\nfive\n"


def git_rerere(place):
    """git records what was chosen, and does it again by itself the next time."""
    repository = conflict_in(place, {"a": BASE}, {"a": OURS}, {"a": THEIRS})
    repository.git("merge", "--abort")
    for name, value in (("rerere.enabled", "true"), ("mergetool.keepBackup", "false")):
        repository.git("config", name, value)
    repository.git("merge", "--quiet", "theirs")
    status, _ = type_into(place, ["space", "c"], MERGETOOL, repository.folder)
    merged = repository.files()
    repository.git("commit", "--quiet", "--message", "merged")
    repository.git("reset", "--quiet", "--hard", "HEAD^")
    repository.git("merge", "--quiet", "theirs")
    return status == 0 and merged == {"a": b"1\nours\n3\n4\nfive\n"} == repository.files()


def hg_resolve(place):
    """hg calls the program by its settings, and knows from its status whether the file is resolved."""
    if not shutil.which("hg"):
        return "there is no hg"
    lines = b"%s.args = $base $local $other $output\n%s.executable = %s\n%s.premerge = False\n%s.gui = False\n"
    lines = lines.replace(b"%s.e", b"gabrosty.e").replace(b"= %s\n", b"= %s\n" % NAME.encode()).replace(b"%s", b"gabrosty")
    settings = b"[ui]\nusername = n\nmerge = gabrosty\n[merge-tools]\n" + lines
    hgrc = os.path.join(place.folder("settings", {"hgrc": settings}), "hgrc")
    folder = place.folder("hg", {"a": BASE})
    environment = {**os.environ, **place.environment, "HGRCPATH": hgrc}

    def hg(*words, **more):
        return subprocess.run(["hg", *words], cwd=folder, env=environment, stdout=subprocess.PIPE, **more).stdout

    def commit(data):
        changed.write_file(os.path.join(folder, "a"), data)
        hg("commit", "--addremove", "--quiet", "--message", "m", check=True)

    hg("init", check=True)
    commit(BASE)
    commit(THEIRS)
    hg("update", "--quiet", "--rev", "0", check=True)
    commit(OURS)
    hg("merge", "--quiet", "--tool", ":fail", "1")
    status, _ = type_into(place, ["q", "enter"], ["hg", "resolve", "a"], folder, HGRCPATH=hgrc)
    is_left = status != 0 and hg("resolve", "--list") == b"U a\n"
    status, _ = type_into(place, ["space", "c"], ["hg", "resolve", "a"], folder, HGRCPATH=hgrc)
    return is_left and status == 0 and hg("resolve", "--list") == b"R a\n" and read_data(os.path.join(folder, "a")) == b"1\nours\n3\n4\nfive\n"


# ---- beside git merge-file, and a plain model

class Edited:
    """A random base of lines that are all different, and two sides of it. No line moves, so the lines that differ are known: of each
    line of the base, and of the place before it, what each side has there."""

    def __init__(self, seed):
        chance = random.Random(seed)
        self.base = [b"b%d\n" % number for number in range(chance.randrange(12))]
        self.before = [self.inserted(chance, number) for number in range(len(self.base) + 1)]
        self.kept = [self.kept_by(chance) for _ in self.base]

    @staticmethod
    def inserted(chance, number):
        """Returns the lines that each side adds at a place: often none, and sometimes the same ones."""
        sides = [[b"%s%d.%d\n" % (name, number, i) for i in range(chance.randrange(3))] if chance.random() < 0.2 else [] for name in (b"o", b"t")]
        shared = [b"s%d\n" % number] if chance.random() < 0.1 else []
        return [shared + side for side in sides]

    @staticmethod
    def kept_by(chance):
        """Returns whether each side keeps a line of the base."""
        return [chance.random() < 0.8 for _ in range(2)]

    def side(self, which):
        lines = []
        for number in range(len(self.base) + 1):
            lines += self.before[number][which]
            lines += [self.base[number]] if number < len(self.base) and self.kept[number][which] else []
        return lines

    def parts(self):
        """Yields the parts of the merge, each with the lines of the base, ours and theirs: at least a line that both keep is between two."""
        part = [], [], []
        for number in range(len(self.base) + 1):
            for which in range(2):
                part[1 + which].extend(self.before[number][which])
            if number == len(self.base):
                break
            line, kept = self.base[number], self.kept[number]
            if all(kept):
                yield part
                yield [line], [line], [line]
                part = [], [], []
                continue
            part[0].append(line)
            for which in range(2):
                part[1 + which].extend([line] if kept[which] else [])
        yield part

    def outcomes(self):
        """Yields what becomes of each part: lines that are taken, or the three versions of a conflict."""
        for base, ours, theirs in self.parts():
            if base == ours or base == theirs or ours == theirs:
                yield (theirs if base == ours else ours), None
                continue
            start = len(os.path.commonprefix([ours, theirs]))
            end = len(os.path.commonprefix([ours[start:][::-1], theirs[start:][::-1]]))
            yield ours[:start], None
            yield None, (ours[start : len(ours) - end], base, theirs[start : len(theirs) - end])
            yield ours[len(ours) - end :], None


def jj_settings():
    """Returns the settings for jj that the program's page names."""
    import tomllib

    page = (trying.ROOT / "programs/merge-tool/README.md").read_text()
    return tomllib.loads(re.search(r"```toml\n(.*?)```", page, re.S)[1])


class AsJj:
    """Stands for jj, which is not installed here, as its documents have `jj resolve`: it hands in the versions as files that nobody may write
    to, and an empty output. It refuses a status that is not named, and an output that is empty. With a status that means conflicts it reads them
    from the markers."""

    def __init__(self, place, path, versions):
        settings = jj_settings()
        self.tool = settings["merge-tools"][settings["ui"]["merge-editor"]]
        name = path.rpartition("/")[2]
        names = {role: role + "_" + name for role in (*versions, "output")}
        folder = place.folder("jj-resolve", {names[role]: versions.get(role, b"") for role in names})
        self.paths = {role: os.path.join(folder, names[role]) for role in names}
        for role in versions:
            os.chmod(self.paths[role], 0o444)
        # jj takes as many signs as no line of a version begins with: four more than the longest run of them, and seven at least
        runs = [len(run) for text in versions.values() for run in re.findall(rb"^(?:<+|\|+|=+|>+)", text, re.M)]
        self.length = max([7, *(run + 4 for run in runs)])
        given = {**self.paths, "path": path, "marker_length": str(self.length)}
        self.command = [self.tool["program"], *(given[word[1:]] if word.startswith("$") else word for word in self.tool["merge-args"])]

    def resolved(self, status):
        """Returns the parts that jj takes: texts, and of each conflict that is left our version, that of the base, and theirs. Returns None if it
        takes nothing."""
        data = read_data(self.paths["output"])
        is_left = status in self.tool["merge-conflict-exit-codes"]
        if (status and not is_left) or not data:
            return None
        return parts_by_markers(data, self.length) if is_left else [data]


def parts_by_markers(data, length):
    """Returns the texts and the conflicts of a file with markers of `length` signs or more in the style of git."""
    parts, at = [b""], None
    for line in data.splitlines(keepends=True):
        sign = re.match(rb"([<|=>])\1{%d,}( |\r?\n|$)" % (length - 1), line)
        if sign is None and at is None:
            parts[-1] += line
        elif sign is None:
            parts[-1][at] += line
        elif sign[1] == b"<":
            parts.append([b"", b"", b""])
            at = 0
        elif sign[1] == b">":
            parts.append(b"")
            at = None
        else:
            at = b"<|=".index(sign[1])
    return parts


def jj_resolve(place):
    """By the settings for jj that its page names, the program hands back what was chosen, and what is left open as conflict markers."""
    try:
        import tomllib  # noqa: F401
    except ImportError:
        return "there is no tomllib"
    versions = {"base": b"1\n2\n3\n4\n5\n", "left": b"one\n2\n3\n4\nfive\n", "right": b"eins\n2\n3\n4\nfuenf\n"}
    jj = AsJj(place, "src/a.txt", versions)
    is_left = jj.resolved(type_into(place, ["q", "enter"], jj.command)[0]) is None
    with shown(place, jj.command) as typed:
        is_named = b"src/a.txt" in typed.screen()
        typed.press("space")
        leave_open(typed, b"l", ASKED_FOR_MARKERS)
        parts = jj.resolved(typed.end())
    is_half = parts == [b"one\n2\n3\n4\n", [b"five\n", b"5\n", b"fuenf\n"], b""]
    keys = ["space", "pagedown", "pagedown", "pagedown", "space", "c"]
    is_whole = jj.resolved(type_into(place, keys, jj.command)[0]) == [versions["left"]]
    return is_left and is_named and is_half and is_whole and all(read_data(jj.paths[role]) == versions[role] for role in versions)


def jj_resolve_of_lines_like_markers(place):
    """In a file that has lines like conflict markers jj takes only those markers for ones that are as long as it asked for."""
    try:
        import tomllib  # noqa: F401
    except ImportError:
        return "there is no tomllib"
    lines = b"=======\n>>>>>>> x\n"
    jj = AsJj(place, "a.md", {"base": b"1\n" + lines, "left": b"one\n" + lines, "right": b"eins\n" + lines})
    with shown(place, jj.command) as typed:
        leave_open(typed, b"l", ASKED_FOR_MARKERS)
        parts = jj.resolved(typed.end())
    return jj.length == 11 and parts == [b"", [b"one\n", b"1\n", b"eins\n"], lines]


def keys_for(chance, conflicts):
    """Returns keys that mark random items from the header of the first section on, what is taken then of each conflict, and how many of
    them are open."""
    keys, taken, count = [], [], 0
    for versions in conflicts:
        lines, is_open = [], True
        for version in versions:
            keys += ["j"] if keys else []
            for line in version or [b""]:
                is_marked = chance.random() < 0.4
                keys += ["j", "space"] if is_marked else ["j"]
                lines += [line] if is_marked else []
                is_open = is_open and not is_marked
        taken.append(lines)
        count += is_open
    return keys, taken, count


def random_choices(place):
    """Random marks in random merges give what a plain model gives, and what is open is counted. Without a conflict nothing is shown."""
    for seed in range(40):
        edited, chance = Edited(seed), random.Random(seed)
        outcomes = list(edited.outcomes())
        conflicts = [versions for _, versions in outcomes if versions]
        keys, taken, count = keys_for(chance, conflicts)
        left = iter(taken)
        merged = b"".join(line for lines, versions in outcomes for line in (next(left) if versions else lines))
        paths = files_of(place, *(b"".join(lines) for lines in (edited.base, edited.side(0), edited.side(1))))
        if not conflicts:
            status = place.call(NAME, *paths)[0]
        else:
            with shown(place, [NAME, *paths]) as typed:
                for key in keys:
                    typed.press(key)
                if count:
                    is_counted = b"%d of %d conflicts" % (count, len(conflicts)) in leave_open(typed, b"l")
                    status = typed.end() - 1 if is_counted else "not counted"
                else:
                    typed.press("c")
                    status = typed.end()
        if (status, read_data(paths[3])) != (0, b"before\n" if count else merged):
            print("random choices, by %d: %s" % (seed, status))
            return False
    return True


def merged_by_git(paths):
    """Returns the status and the merge of git merge-file."""
    done = subprocess.run(["git", "merge-file", "-p", "--diff3", paths[1], paths[0], paths[2]], stdout=subprocess.PIPE, stderr=subprocess.DEVNULL)
    return done.returncode, done.stdout


def beside_git_merge_file(place):
    """Random texts whose lines are all different are in conflict here just if they are for git, and else the merges are equal."""
    for seed in range(300):
        edited = Edited(1000 + seed)
        chance = random.Random(seed)
        texts = [b"".join(lines) for lines in (edited.base, edited.side(0), edited.side(1))]
        texts = [text[:-1] if chance.random() < 0.1 else text for text in texts]
        paths = files_of(place, *texts)
        status, said = place.call(NAME, *paths)
        by_git, merged = merged_by_git(paths)
        is_same = read_data(paths[3]) == merged if by_git == 0 else "there is no terminal" in said
        if (status != 0) != (by_git != 0) or not is_same:
            print("beside git merge-file, by %d: %s and %s" % (seed, status, by_git))
            return False
    return True


def library_beside_git_merge_file(place):
    """Random merges of the library, and those of this repository's history, are those of git, also with markers (tools/dev/compare-merges)."""
    environment = {**os.environ, "LIBSCM": os.path.join(place.prefix, "lib/libgabrosty.so")}
    command = [trying.ROOT / "tools/dev/compare-merges", "300", "20"]
    done = subprocess.run(command, env=environment, stdout=subprocess.PIPE, stderr=subprocess.STDOUT, text=True)
    if done.returncode:
        print(done.stdout)
    return done.returncode == 0


# ---- faults

# the calls by which it writes
WRITES = "openat", "write", "fsync", "renameat", "fchmod", "fchown", "fsetxattr", "fremovexattr", "close", "getrandom", "unlinkat"


def calls_behind(log):
    """Returns the calls of a run from the one on that chooses the name of the file beside OUTPUT, which is the last one of its kind: their names,
    and their numbers among those of the name."""
    counts, found = {}, []
    with open(log, errors="replace") as lines:
        for line in lines:
            name = line.partition("(")[0]
            counts[name] = counts.get(name, 0) + 1
            found = [] if name == "getrandom" else found
            found += [(name, counts[name])] if name in WRITES else []
    return found


def each_call_that_fails(place):
    """A call that writes fails, or the program is killed before it: OUTPUT is as before or whole, and with status 0 it is whole. A file
    beside it is left only by who is killed."""
    if not shutil.which("strace"):
        return "there is no strace"
    merged = b"one\n2\nthree\n"
    program, log = os.path.join(place.prefix, "bin", NAME), os.path.join(place.top, "log")

    def run(*inject):
        paths = files_of(place, b"1\n2\n3\n", b"one\n2\n3\n", b"1\n2\nthree\n")
        how = {"stdout": subprocess.DEVNULL, "stderr": subprocess.PIPE, "start_new_session": True}
        done = subprocess.run(["strace", "-qq", "-o", log, *inject, program, *paths], **how)
        beside = [name for name in os.listdir(os.path.dirname(paths[3])) if name.startswith(".")]
        return done.returncode, read_data(paths[3]), mode_of(paths[3]), beside, done.stderr

    whole = run("-e", "trace=" + ",".join(WRITES))
    calls = calls_behind(log)
    is_well = whole[:4] == (0, merged, MODE, []) and len(calls) > 6
    for name, number in calls:
        for what in ("error=ENOSPC", "error=EIO", "signal=SIGKILL"):
            status, data, mode, beside, said = run("-e", "trace=" + name, "-e", "inject=%s:%s:when=%d" % (name, what, number))
            is_killed = what == "signal=SIGKILL"
            # a disk that tells nothing of access lists may give nobody but the owner anything
            modes = (MODE, MODE & 0o600) if name == "fremovexattr" else (MODE,)
            is_right = mode in modes and (data == merged or (data == b"before\n" and status != 0)) and (is_killed or (not beside and status in (0, 2)))
            is_right = is_right and (status != 2 or said.startswith(NAME.encode()))
            if not is_right:
                print("%s, %s: %s" % (name, what, (status, data, mode, beside, said)))
                is_well = False
    return is_well


def each_call_that_fails_behind_a_choice(place):
    """The same where the user has settled a conflict, and where one is left with markers: OUTPUT is as before or whole."""
    if not shutil.which("strace"):
        return "there is no strace"
    program, log, is_well = os.path.join(place.prefix, "bin", NAME), os.path.join(place.top, "log"), True
    left = b"1\n<<<<<<<\nours\n|||||||\nold\n=======\ntheirs\nmore\n>>>>>>>\n3\n4\nfive\n"
    for options, merged, done in ([], b"1\nours\n3\n4\nfive\n", 0), (["--markers"], left, 1):

        def run(*inject):
            paths = files_of(place)
            # who is killed leaves the marks, and a file of them is one call more
            for name in os.listdir(place.temporary):
                os.unlink(os.path.join(place.temporary, name))
            with shown(place, ["strace", "-qq", "-o", log, *inject, program, *options, *paths]) as typed:
                if options:
                    leave_open(typed, b"l", ASKED_FOR_MARKERS)
                else:
                    typed.press("space")
                    typed.press("c")
                status = typed.end()
            beside = [name for name in os.listdir(os.path.dirname(paths[3])) if name.startswith(".")]
            return status, read_data(paths[3]), beside

        is_well = run("-e", "trace=" + ",".join(WRITES)) == (done, merged, []) and is_well
        # how often it writes to the terminal differs, so no write is told by its number: full_disk fails that
        for name, number in [call for call in calls_behind(log) if call[0] != "write"]:
            for what in ("error=ENOSPC", "signal=SIGKILL"):
                status, data, beside = run("-e", "trace=" + name, "-e", "inject=%s:%s:when=%d" % (name, what, number))
                is_killed = what == "signal=SIGKILL"
                is_right = data == merged or (data == b"before\n" and status not in (0, done))
                if not (is_right and (is_killed or (not beside and status in (done, 2)))):
                    print("%s %s, %s: %s" % (name, number, what, (status, data, beside)))
                    is_well = False
    return is_well


def full_disk(place):
    """On a full disk OUTPUT stays, and that is said, also where the user has settled a conflict or leaves one with markers."""
    with disks.disk(place) as folder:
        if not folder:
            return "no disk can be made here"
        text = b"".join(b"%d\n" % number for number in range(50_000))
        paths = files_of(place, text, b"one\n" + text, text + b"more\n", b"before\n", "disk/files")
        disks.fill(folder, 4096)
        status, said = place.call(NAME, *paths)
        names = sorted(os.listdir(os.path.dirname(paths[3])))
        lacks = "%s: %s: No space left on device\n" % (NAME, paths[3])
        ends = [(status, said) == (2, lacks) and names == ["base", "ours", "output", "theirs"] and read_data(paths[3]) == b"before\n"]
        versions = files_of(place, text, b"one\n" + text, b"eins\n" + text)[:3]
        with shown(place, [NAME, *versions, paths[3]]) as typed:
            typed.press("space")
            typed.press("c")
            ends.append(typed.end() == 2 and typed.said().endswith(lacks))
        with shown(place, [NAME, "--markers", *versions, paths[3]]) as typed:
            leave_open(typed, b"l", ASKED_FOR_MARKERS)
            ends.append(typed.end() == 2 and typed.said().endswith(lacks))
        return all(ends) and sorted(os.listdir(os.path.dirname(paths[3]))) == names and read_data(paths[3]) == b"before\n"


# how bash completes the last one of some words
BASH = 'source "$1"; shift; COMP_WORDS=("$@"); COMP_CWORD=$(($# - 1)); _gabrosty_merge_tool; printf "%s\\n" "${COMPREPLY[@]}"'
FILES = {"bash": "bash-completion/completions/" + NAME, "zsh": "zsh/site-functions/_" + NAME, "fish": "fish/vendor_completions.d/%s.fish" % NAME}


def options_that_shells_complete(place):
    """The help has each option, bash completes each one, and the other shells can read their files."""
    said = place.call(NAME, "--help")[1]
    options = set(re.findall(r"--[a-z-]+", said))
    is_well = {"--path", "--version", "--help"} <= options and place.call(NAME, "-h")[1] == said
    files = {shell: os.path.join(place.prefix, "share", path) for shell, path in FILES.items()}
    if shutil.which("bash"):
        found = place.call("bash", "--norc", "-c", BASH, "bash", files["bash"], NAME, "--")[1].split()
        is_well = is_well and set(found) == options
    for shell, how in (("bash", "-n"), ("zsh", "-n"), ("fish", "--no-execute")):
        is_well = is_well and (not shutil.which(shell) or place.call(shell, how, files[shell])[0] == 0)
    return is_well


ALL = (
    each_version, each_width, deleted_lines, open_conflicts, ways_to_open_conflicts, rows_that_are_narrow, many_open_conflicts, conflict_markers, lengths_of_markers, labels_of_versions, long_labels, narrow_headers, keys_on_a_page,
    markers_by_line_ends, outputs_that_are_versions, a_thousand_conflicts, left_by_the_user, without_a_conflict,
    what_comes_to_output_meanwhile, outputs_with_names_of_options, refused_files, named_in_another_way, git_mergetool, git_mergetool_on_a_changed_mode, git_mergetool_that_is_left, git_mergetool_with_backups,
    git_mergetool_on_an_added_file, git_mergetool_on_a_deleted_file, git_mergetool_on_a_renamed_file, git_mergetool_on_a_real_conflict, git_merge_driver, git_rerere, hg_resolve, jj_resolve, jj_resolve_of_lines_like_markers, random_choices,
    beside_git_merge_file, library_beside_git_merge_file, each_call_that_fails, each_call_that_fails_behind_a_choice, full_disk,
    options_that_shells_complete,
)
