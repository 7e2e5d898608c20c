"""scm-select on two files and on two folders, for tools/dev/try-tools."""
import json
import os
import pathlib
import shutil
import signal
import subprocess
import threading
import time

import changed
from typed import Typed

OLD, NEW = b"1\n2\n3\n", b"one\n2\nthree\n"
# the first section of a file alone is marked
FIRST, SOME = ["shift-F", "j", "space", "c"], b"one\n2\n3\n"
LATIN = "Stra\u00dfe\n\u00e4\n".encode("latin-1")


def type_into(place, keys, *words):
    """Types `keys` into scm-select, and returns its status, what it said on the terminal, and its standard output."""
    printed = os.path.join(place.top, "printed")
    status, said = place.type(["sh", "-c", 'exec scm-select "$@" > "$0"', printed, *words], keys)
    with open(printed, "rb") as file:
        return status, said, file.read()


def two(place, old=OLD, new=NEW):
    """Makes two files, and returns their paths."""
    paths = [os.path.join(place.top, name) for name in ("old", "new")]
    for path, data in zip(paths, (old, new)):
        changed.write_file(path, data)
    return paths


def data_of(path):
    with open(path, "rb") as file:
        return file.read()


def two_files_alone(place):
    """The selected side goes to standard output, or to the file of -o, and both files stay but for one that -o names."""
    old, new = two(place)
    output, ends = os.path.join(place.top, "output"), []
    for keys, wanted in ((FIRST, SOME), (["c"], OLD), (["a", "c"], NEW)):
        ends.append(type_into(place, keys, old, new)[::2] == (0, wanted))
        ends.append(type_into(place, keys, "-o", output, old, new)[::2] == (0, b"") and data_of(output) == wanted)
        ends.append(type_into(place, keys, "--output=" + new, old, new)[0] == 0 and data_of(new) == wanted)
        changed.write_file(new, NEW)
    given_up = type_into(place, ["q"], "-o", output, old, new)
    ends.append(given_up[::2] == (1, b"") and data_of(output) == NEW)
    return all(ends) and (data_of(old), data_of(new)) == (OLD, NEW) and place.has_left_nothing()


def contents_of_all_kinds(place):
    """Bytes that are no UTF-8 come back as they are, line by line; a file with a NUL or with a line that is too long is one item."""
    ends = []
    for old, new, some in (
        (LATIN, LATIN.replace(b"\xdf", b"ss") + b"\xf6", LATIN.replace(b"\xdf", b"ss")),
        (b"1\r2\r3", b"1\r2\r4", b"1\r2\r4"), (b"", b"1", b"1"), (b"1", b"", b""), (b"\0", b"\0\1", b"\0\1"),
        (b"x" * 1_000_001 + b"\n1\n", b"x" * 1_000_001 + b"\n2\n", b"x" * 1_000_001 + b"\n2\n"),
        (b"1\n\\ No newline at end of file\n2", b"1\n\\ No newline at end of file\n2\n", b"1\n\\ No newline at end of file\n2\n"),
    ):
        paths = two(place, old, new)
        found = [type_into(place, keys, *paths) for keys in (FIRST, ["c"], ["a", "c"])]
        ends.append([it[::2] for it in found] == [(0, some), (0, old), (0, new)])
        ends.append(("too long to be shown" in found[0][1]) == (len(old) > 1_000_000))
    return all(ends)


def two_equal_files(place):
    """There is nothing to choose: the file itself is the output."""
    old, new = two(place, OLD, OLD)
    status, said = place.call("scm-select", "-o", os.path.join(place.top, "output"), old, new)
    is_told = (status, said) == (0, "scm-select: %s and %s are equal: there is nothing to choose\n" % (old, new))
    folders = [place.folder(name, {"a": OLD}) for name in ("left", "right")]
    both = place.call("scm-select", "-d", *folders)
    is_told = is_told and both == (0, "scm-select: %s and %s are equal: there is nothing to choose\n" % tuple(folders))
    return is_told and data_of(os.path.join(place.top, "output")) == OLD


def what_is_wrong(place):
    """What is not there, what is no folder, and wrong words: each is named, with status 2, and nothing is shown."""
    old, new = two(place)
    lost = place.call("scm-select", old, new + "x"), place.call("scm-select", "-d", place.folder("left"), new)
    ends = [said == "scm-select: %s: %s\n" % it for (_, said), it in
            zip(lost, ((new + "x", "No such file or directory"), (new, "Not a directory")))]
    wrong = [[], ["-x", old, new], [old, new, old], ["-d", old], ["-o"], ["-d", "-o", "x", old, new], ["--changes", old]]
    said = [place.call("scm-select", *words) for words in wrong]
    state = place.call("scm-select", "--changes", old, new)
    is_malformed = state == (2, "scm-select: %s: it has no records of changes: see the man page\n" % old)
    return all(ends) and said == [(2, "scm-select: wrong arguments: try scm-select --help\n")] * len(wrong) and is_malformed


def a_path_like_an_option(place):
    """A file whose name is that of an option is a file behind the first path: what it names is not written to."""
    files = {"old": OLD, "-oother": OLD, "--json": OLD, "--": OLD, "other": b"mine\n"}
    folder = place.folder("files", files)
    for name in "-oother", "--json", "--":
        end = place.call("scm-select", "old", name, folder=folder)
        if end != (0, "scm-select: old and %s are equal: there is nothing to choose\n" % name + OLD.decode()):
            return False
    return changed.read(folder) == files


def as_json(place):
    """With --json what is accepted is written as JSON, of files and of folders, and RIGHT stays."""
    left, right = place.folder("left", {"a": OLD}), place.folder("right", {"a": NEW})
    ends = []
    for words in (two(place), ["-d", left, right]):
        status, _, printed = type_into(place, FIRST, "--json", *words)
        lines = printed.decode().splitlines()
        files = json.loads(lines[1])["files"]
        ends.append(status == 0 and lines[3] == 'selected 100644 text "one\\n2\\n3\\n"' and len(files) == 1)
    return all(ends) and changed.read(right) == {"a": NEW}


def folders_of_each_kind(place, old, new):
    """RIGHT stays with everything marked, and becomes LEFT with nothing marked. If the user gives up it stays too."""
    ends = []
    for keys, status, wanted in ((["a", "c"], 0, new), (["c"], 0, old), (["q"], 1, new)):
        left, right = place.folder("left", old), place.folder("right", new)
        found = place.type(["scm-select", "-d", left, right], keys)[0], changed.read(right), changed.read(left)
        ends.append(found == (status, wanted, old))
    return all(ends) and place.has_left_nothing() and place.has_only("left", "right")


def folders_with_more(place):
    """A file that changed meanwhile, and one that would have to lie in another: each is named, and nothing is written. What is no
    file is left out, links out of RIGHT are not followed, and what git and jj keep for themselves is not shown."""
    old = {"a": OLD, "b/c": b"1\n", "d": b"1\n"}
    new = {"a": NEW, "b": ("link", place.folder("outside", {"c": b"2\n"})), "d": b"1\n", ".git/x": b"1\n", "JJ-INSTRUCTIONS": b"x\n"}
    left, right = place.folder("left", old), place.folder("right", new)
    command = ["scm-select", "-d", left, right]
    # the link alone is marked, so it stays; the file in the folder comes back
    status, said = place.type(command, ["j", "space", "c"])
    is_named = status == 2 and "scm-select: b/c: it cannot be there beside a file that it would lie in: nothing was written\n" in said
    is_left = is_named and changed.read(right) == {name: it for name, it in new.items() if name != ".git/x"}
    status, said = place.type(command, ["c"], before_last=lambda: changed.write_file(os.path.join(right, "a"), b"3\n"))
    is_left = is_left and status == 2 and "scm-select: a: it changed meanwhile: nothing was written\n" in said
    os.mkfifo(os.path.join(right, "pipe"))
    status, said = place.type(command, ["c"])
    is_left = is_left and status == 0 and "scm-select: pipe is left out: it is neither a file nor a link\n" in said
    os.unlink(os.path.join(right, "pipe"))
    is_back = changed.read(right) == {**old, "JJ-INSTRUCTIONS": b"x\n"} and os.path.exists(os.path.join(right, ".git/x"))
    return is_left and is_back and changed.read(os.path.join(place.top, "outside")) == {"c": b"2\n"}


def permissions_of(path):
    return os.lstat(path).st_mode & 0o7777


def permissions_of_what_is_new(place):
    """What is new has no more permissions than what it is made of, and nothing that is written has a set-user-ID bit."""
    old, new = two(place)
    output = os.path.join(place.top, "output")
    ends = []
    for path in (old, new):
        os.chmod(path, 0o600)
        ends.append(type_into(place, ["c"], "-o", output, old, new)[0] == 0 and permissions_of(output) == 0o600)
        os.chmod(path, 0o644)
        os.unlink(output)
    os.chmod(new, 0o4755)
    ends.append(type_into(place, ["c"], "-o", new, old, new)[0] == 0 and permissions_of(new) == 0o755)
    left, right = place.folder("left", {"a": OLD, "b/c": OLD, "d": ("run", OLD)}), place.folder("right", {"a": NEW})
    for path, mode in ((left + "/b/c", 0o600), (left + "/b", 0o700), (left + "/d", 0o700), (right + "/a", 0o6755)):
        os.chmod(path, mode)
    ends.append(place.type(["scm-select", "-d", left, right], ["c"])[0] == 0)
    found = [permissions_of(os.path.join(right, path)) for path in ("b/c", "b", "d", "a")]
    return all(ends) and found == [0o600, 0o700, 0o700, 0o644]


def links_in_the_way(place):
    """A folder of RIGHT that becomes a link while the screen is open is not followed, and a link of LEFT is none of its folders."""
    ends = []
    for new, keys in (({"a/b": NEW}, ["c"]), ({"a/b": NEW, "a/c": NEW}, ["c"])):
        outside = place.folder("outside", {"b": NEW, "c": NEW})
        left, right = place.folder("left", {"a/b": OLD}), place.folder("right", new)

        def change(right=right, outside=outside):
            changed.write(right, {"a": ("link", outside)})

        status, said = place.type(["scm-select", "-d", left, right], keys, before_last=change)
        is_named = status == 2 and "scm-select: a/b: it changed meanwhile: nothing was written\n" in said
        ends.append(is_named and changed.read(right) == {"a": ("link", outside)} and changed.read(outside) == {"b": NEW, "c": NEW})
    # a private file, which the link of LEFT leads to, is no version of a/b
    left, right = place.folder("left", {"a": ("link", place.folder("private", {"b": OLD}))}), place.folder("right", {"a/b": NEW})
    status, said = place.type(["scm-select", "-d", left, right], ["c"])
    ends.append(status == 0 and changed.read(right) == {"a": ("link", os.path.join(place.top, "private"))})
    return all(ends) and changed.read(os.path.join(place.top, "private")) == {"b": OLD}


def a_spare_folder_that_is_swapped(place):
    """The folder for what comes has a name that nobody foresees, is its owner's alone, and is used by its descriptor: swapped for a
    link while files are made, it leaves nothing elsewhere."""
    if not shutil.which("strace"):
        return "there is no strace"
    left, right = place.folder("left", {"%03d" % i: OLD for i in range(20)}), place.folder("right", {"%03d" % i: NEW for i in range(20)})
    outside, log = place.folder("outside"), os.path.join(place.top, "log")
    slow = ["strace", "-f", "-o", log, "-e", "trace=mkdirat,mkdir,openat,fsync", "-e", "inject=fsync:delay_enter=50000"]
    swapped = []

    def swap():
        names = []
        while not names:
            names = [name for name in os.listdir(right) if name.startswith(".choosing-")]
        path = os.path.join(right, names[0])
        swapped.append(permissions_of(path))
        os.rename(path, os.path.join(place.top, "moved"))
        os.symlink(outside, path)

    thread = threading.Thread(target=swap)
    status, said = place.type([*slow, "scm-select", "-d", left, right], ["c"], before_last=thread.start)
    thread.join()
    is_named = ".choosing-" in said and "cannot be removed" in said
    is_written = status == 0 and {path: it for path, it in changed.read(right).items() if ".choosing-" not in path} == changed.read(left)
    return is_named and is_written and swapped == [0o700] and os.listdir(outside) == []


def names_that_hide_nothing(place):
    """A file is hidden by no name that a stranger can give: `.choosing-1` is shown and handled. A folder that looks as what a run left is
    named."""
    old, new = {"a": OLD, ".choosing-1": OLD}, {"a": OLD, ".choosing-1": NEW, ".choosing-2/old-0": NEW}
    left, right = place.folder("left", old), place.folder("right", new)
    status, _ = place.type(["scm-select", "-d", left, right], ["c"])
    is_back = status == 0 and changed.read(right) == old and os.listdir(right).count(".choosing-2") == 0
    spare = ".choosing-0123456789abcdef"
    changed.write(right, {**old, spare + "/0": NEW})
    os.chmod(os.path.join(right, spare), 0o700)
    status, said = place.type(["scm-select", "-d", left, right], ["c"])
    is_named = "scm-select: %s may be left of a run that was cut off: its files are shown as all others\n" % spare in said
    return is_back and status == 0 and is_named and changed.read(right) == old


def names_of_git_and_jj(place):
    """What git and jj keep for themselves is left alone, also in the spellings that file systems fold. What has another name is not."""
    kept = ".git", ".GIT", ".Jj", "git~1", "GIT~2", "jj~1", ".git. ", ".git...", ".git::$INDEX_ALLOCATION", ".g\u200cit", ".jj\ufeff", "a\\.git"
    others = ".github", ".gitignore", "git", "git~", "git~x", ".jjx", "x.git"
    right = place.folder("right", {**{name + "/hooks/x": NEW for name in kept}, **{name: NEW for name in others}, "b/.GIT": NEW})
    left = place.folder("left")
    status, said = place.type(["scm-select", "-d", left, right], ["c"])
    found = sorted(changed.read(right))
    wanted = sorted([*(name + "/hooks/x" for name in kept if name != ".git"), "b/.GIT"])
    is_named = "scm-select: b/.GIT is left out: a file system may take it for .git or .jj\n" in said and ": .git is left" not in said
    return status == 0 and found == wanted and os.path.exists(os.path.join(right, ".git/hooks/x")) and is_named


def a_deep_tree(place):
    """A tree of 1,500 folders is shown and written, with few open files."""
    names = ["%04d" % number for number in range(1500)]
    left, right = place.folder("left"), place.folder("right")
    for top, data in ((left, OLD), (right, NEW)):
        folder = os.open(top, os.O_RDONLY)
        for name in names:
            os.mkdir(name, dir_fd=folder)
            below = os.open(name, os.O_RDONLY, dir_fd=folder)
            os.close(folder)
            folder = below
        with open(os.open("a", os.O_WRONLY | os.O_CREAT, dir_fd=folder), "wb") as file:
            file.write(data)
        os.close(folder)
    command = ["sh", "-c", 'ulimit -n 32; exec scm-select -d "$@"', "sh", left, right]
    status, said = place.type(command, ["c"])
    folder = os.open(right, os.O_RDONLY)
    for name in names:
        below = os.open(name, os.O_RDONLY, dir_fd=folder)
        os.close(folder)
        folder = below
    with open(os.open("a", os.O_RDONLY, dir_fd=folder), "rb") as file:
        is_back = file.read() == OLD
    os.close(folder)
    subprocess.run(["rm", "-rf", left, right], check=True)
    return status == 0 and is_back


def files_that_change_while_they_are_read(place):
    """A file that grows is read as it was when it was opened; a pipe in the place of a file is not waited for; a file of more than
    a gibibyte is refused by name."""
    left, right = place.folder("left", {"a": OLD}), place.folder("right", {"a": NEW})
    command = ["scm-select", "-d", left, right]

    def swap():
        os.unlink(os.path.join(right, "a"))
        os.mkfifo(os.path.join(right, "a"))

    status, said = place.type(command, ["c"], before_last=swap)
    is_named = status == 2 and "scm-select: a: it changed meanwhile: nothing was written\n" in said
    os.unlink(os.path.join(right, "a"))
    if not shutil.which("strace"):
        return "there is no strace"
    is_named = is_named and is_read_without_a_wait(place, command, right) and is_read_to_its_size(place)
    with open(os.path.join(right, "a"), "wb") as file:
        file.truncate((1 << 30) + 1)
    said = place.call(*command)
    return is_named and said == (2, "scm-select: a: it has more than 1,073,741,824 bytes\n")


def is_soon(is_so):
    """Waits until something is so, but not for longer than twenty seconds. Returns whether it is."""
    end = time.monotonic() + 20
    while not is_so() and time.monotonic() < end:
        time.sleep(0.01)
    return is_so()


def is_read_without_a_wait(place, command, right):
    """Whether a pipe that comes between the look at a file and its opening is named. Its opening waits until the pipe is there."""
    path, log = os.path.join(right, "a"), os.path.join(place.top, "log")
    changed.write_file(path, NEW)
    # each folder is listed and then looked into, the right one last
    held = ["strace", "-o", log, "-P", "a", "-e", "trace=newfstatat,openat", "-e", "inject=openat:delay_enter=2000000:when=2"]
    environment = {**os.environ, **place.environment}
    process = subprocess.Popen([*held, *command], cwd=place.top, env=environment, stderr=subprocess.PIPE, start_new_session=True)
    is_held = is_soon(lambda: os.path.exists(log) and pathlib.Path(log).read_text().count("newfstatat(") == 4)
    os.unlink(path)
    os.mkfifo(path)
    try:
        said = process.communicate(timeout=30)[1].decode()
    except subprocess.TimeoutExpired:
        said = ""
    finally:
        process.kill()
        os.unlink(path)
    return is_held and process.returncode == 2 and "scm-select: a: it changed meanwhile\n" in said


def is_read_to_its_size(place):
    """Whether a file that grows for as long as it is read has an end. Each read of it waits until it has grown."""
    old, new = two(place)
    is_over = threading.Event()

    def grow():
        end = time.monotonic() + 20
        with open(new, "ab", buffering=0) as file:
            while not is_over.is_set() and time.monotonic() < end:
                file.write(b"more\n")
                time.sleep(0.005)

    thread = threading.Thread(target=grow)
    thread.start()
    slow = ["strace", "-o", os.devnull, "-P", new, "-e", "trace=read", "-e", "inject=read:delay_enter=50000"]
    end = place.type([*slow, "scm-select", old, new], ["q"], before_last=lambda: is_over.set() if thread.is_alive() else None)[0]
    was_growing = is_over.is_set()
    is_over.set()
    thread.join()
    return was_growing and end == 1


KINDS = (
    {"binary": b"\0", "gone": ("link", "gone target"), "link": ("link", "one"), "text": ("link", "a link"), "to link": b"1\n2\n",
     "to binary": ("link", "a")},
    {"binary": b"\0" * 12345, "link": ("link", "two"), "new binary": b"\0" * 12345, "new link": ("link", "a\x1bb"), "text": b"1\n2\n",
     "to binary": b"\0", "to link": ("link", "target")},
)
# titles with what each file is, and the items below
SHOWN = (
    "binary (binary, 12,345 bytes)", "(binary contents: 1 byte -> 12,345 bytes)",
    "gone (deleted, link to gone target)", "File deleted",
    "link (link to two)", "(binary contents: link to one -> link to two)",
    "new binary (new, binary, 12,345 bytes)", "(binary contents: 12,345 bytes)",
    "new link (new, link to a\\x1bb)", "(binary contents: link to a\\x1bb)",
    "text (was a link to a link, +2 -0)", "+ 1", "+ 2",
    "to binary (was a link to a, binary, 1 byte)", "(binary contents: link to a -> 1 byte)",
    "to link (link to target, +0 -2)", "- 1", "- 2",
)


def what_is_said_of_each_kind(place):
    """Each kind of change says what is chosen: what a link names, how large a binary file is, and the lines of a text that took the
    place of a link, or whose place a link took."""
    left, right = (place.folder(name, files) for name, files in zip(("left", "right"), KINDS))
    typed = Typed(["scm-select", "-d", left, right], 120, 60, place.environment, place.top)
    typed.press("shift-F")
    shown = typed.screen().decode().replace("\N{NO-BREAK SPACE}", " ")
    place_of = [shown.find(text) for text in SHOWN]
    typed.press("q")
    is_known = -1 not in place_of and typed.end() == 1
    if not is_known:
        print(shown)
    return is_known


def a_text_in_the_place_of_a_link(place):
    """Each choice among the lines of a text that took the place of a link, or whose place a link took, leaves the link whole or a text of
    these lines; and never a link without its target."""
    link, text = ("link", "target"), b"1\n2\n"
    mode, first, second = ["l"], ["l", "j", "j"], ["l", "j", "j", "j"]
    ends = []
    for old, new, keys, wanted in (
        (link, text, [], link), (link, text, ["space"], text), (link, text, [*mode, "space"], b""),
        (link, text, [*first, "space"], b"1\n"), (link, text, [*second, "space"], b"2\n"),
        (text, link, [], text), (text, link, ["space"], link), (text, link, [*first, "space"], b"2\n"),
        (text, link, [*first, "space", "j", "space"], b""), (link, b"", [], link), (link, b"", ["space"], b""), (b"", link, ["space"], link),
    ):
        left, right = place.folder("left", {"a": old}), place.folder("right", {"a": new})
        status, _ = place.type(["scm-select", "-d", left, right], ["shift-F", *keys, "c"])
        ends.append(status == 0 and changed.read(right) == {"a": wanted})
        if not ends[-1]:
            print(old, new, keys, changed.read(right), "in the place of", wanted)
    return all(ends)


def what_accepting_does(place):
    """The status row has the whole text of SELECT_ACCEPT, where the terminal has room for it."""
    text = "c commits, with 3 files staged before"
    environment = {**place.environment, "SELECT_LAYER": "on", "SELECT_ACCEPT": text}
    typed = Typed(["scm-select", *two(place)], 80, 24, environment, place.top)
    rows = typed.screen().decode().splitlines()
    typed.press("q")
    return rows[-1].rstrip('"').rstrip().endswith(text) and typed.end() == 1


def links_as_json(place):
    """With --json each mode is told as it is: a link that becomes a text, and the other way round, are one item."""
    text, link = {"a": b"1\n", "b": ("link", "x")}, {"a": ("link", "x"), "b": b"1\n", "c": ("link", "y")}
    left, right = place.folder("left", text), place.folder("right", link)
    _, _, printed = type_into(place, ["a", "c"], "--json", "-d", left, right)
    sides = [line.split()[1] for line in printed.decode().splitlines() if line.startswith(("selected ", "unselected "))]
    return sides == ["120000", "100644", "100644", "120000", "120000", "<absent>"] and changed.read(right) == link


def cut_off(place, number, *command):
    """Types `space` into a command, and kills it by a signal. Returns what it said, and the file in which its marks are."""
    # at the first conflict, or the first file
    typed = Typed(command, 60, 24, {**place.environment, "SELECT_LAYER": "on"}, place.top)
    typed.press("space")
    # the marks are kept where the user rests
    time.sleep(1)
    os.kill(typed.process, number)
    is_killed = typed.end() == -number
    kept = [os.path.join(place.temporary, name) for name in os.listdir(place.temporary)]
    is_given_back = number == signal.SIGKILL or typed.seen.rpartition(b"\x1b[?1049l")[1]
    return typed.said() if is_killed and is_given_back else "", kept[0] if len(kept) == 1 else "none"


def is_named(place, said, program, path, words, command):
    """Whether the file of the marks is named where the program failed, or where it was killed by the next call."""
    kept = "%s: your marks are kept; to take them up: --marks %s\n" % (program, path)
    left = "%s: a run was cut off, and its marks are kept; to take them up: --marks %s\n" % (program, path)
    return words in said and kept in said if words else left in place.type(command, ["q", "enter"])[1]


def marks_of_a_run_that_was_cut_off(place):
    """Where a check fails, where the program itself does, and where it is killed: another run takes up the marks. Where what is shown has
    changed, it says so. At the end no file is left."""
    left, right = place.folder("left", {"a": OLD, "b": OLD}), place.folder("right", {"a": NEW, "b": NEW})
    versions = [os.path.join(place.top, name) for name in ("base", "ours", "theirs", "merged")]
    for path, data in zip(versions, (b"1\n", b"2\n", b"3\n", b"")):
        changed.write_file(path, data)
    # each with other paths, of which the marks are not
    calls = {"scm-select": (["-d", left, right], ["-d", right, left]), "gabrosty-merge-tool": (versions, [versions[1], versions[0], *versions[2:]])}
    ends, words = [], {signal.SIGILL: "a check that is compiled in failed", signal.SIGSEGV: "the program failed, and ends", signal.SIGKILL: ""}
    for program, (paths, others) in calls.items():
        for number in words:
            changed.write(right, {"a": NEW, "b": NEW})
            changed.write_file(versions[3], b"")
            said, path = cut_off(place, number, program, *paths)
            ends.append(is_named(place, said, program, path, words[number], [program, *paths]))
            ends.append(place.type([program, "--marks", path, *others], [])[0] == 2 and os.path.exists(path))
            ends.append(place.type([program, "--marks", path, *paths], ["c"])[0] == 0)
            os.unlink(path)
            is_chosen = (changed.read(right), data_of(versions[3])) in (({"a": NEW, "b": OLD}, b""), ({"a": NEW, "b": NEW}, b"2\n"))
            ends.append(is_chosen and not os.listdir(place.temporary))
    return all(ends)


def a_check_that_fails_while_it_writes(place):
    """It ends the program with a sentence, before the next step: the file stays."""
    if not shutil.which("strace"):
        return "there is no strace"
    old, new = two(place)
    ends = []
    for number, words in (signal.SIGILL, "a check that is compiled in failed"), (signal.SIGSEGV, "the program failed, and ends"):
        traced = ["strace", "-o", os.devnull, "-e", "trace=fsync", "-e", "inject=fsync:signal=%d" % number]
        status, said = place.type([*traced, "scm-select", "-o", new, old, new], ["c"])
        ends.append(status == -number and words in said and data_of(new) == NEW)
    return all(ends)


ALL = (
    two_files_alone, contents_of_all_kinds, two_equal_files, what_is_wrong, a_path_like_an_option, as_json, folders_with_more,
    permissions_of_what_is_new, links_in_the_way, a_spare_folder_that_is_swapped, names_that_hide_nothing, names_of_git_and_jj,
    a_deep_tree, files_that_change_while_they_are_read, what_is_said_of_each_kind, a_text_in_the_place_of_a_link,
    what_accepting_does, links_as_json, marks_of_a_run_that_was_cut_off,
    a_check_that_fails_while_it_writes,
)
EACH = folders_of_each_kind,
