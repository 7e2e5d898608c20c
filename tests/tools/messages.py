"""What scm-select says of texts of others, for tools/dev/try-tools: nothing of them reaches the terminal as it is."""
import os
import re
import shutil
import signal
import time

import changed
import trying
from typed import Typed

# ESC with what follows, BEL, a byte that is no UTF-8, controls of the upper half, and marks of the reading order
HOSTILE = os.fsdecode(b"\x1b]0;x\x07\x1b[31m\x9b31m" + "\x9b31m\x85\u061c\u200e\u200f\u202a\u202b\u202c\u202d\u202e\u2066\u2067\u2068\u2069\u2028".encode())
FORBIDDEN = re.compile("[\x00-\x09\x0b-\x1f\x7f-\x9f\u061c\u200e\u200f\u2028-\u202e\u2066-\u2069\ufffd\ud800-\udfff]")
OLD, NEW = b"1\n2\n3\n", b"one\n2\nthree\n"
# the folders of the program's sources, and of the merge tool's own
SOURCES, MERGE_TOOL = ("programs/scm-select", "programs/shared"), ("programs/merge-tool",)
# a call that prints, and its form
SAYS = re.compile(r'\b(?:say\(|print_shown\("[^"]*", )"((?:[^"\\]|\\.)*)"')
PRINTS = re.compile(r"\b(?:fprintf|fputs|puts|printf|vprintf|vfprintf|dprintf|perror|psignal|putc|fputc|fwrite|write_words)\(")
# what prints no text of others: help and version, what erases a line, and the one function that prints all else
OWN = 'return fputs(words, stdout)', 'fputs("\\r\\x1b[K", stderr)', 'fputs(is_made ? shown.bytes'


def sources_in(folders):
    """Returns the sources in these folders, by name."""
    return {path.stem: path.read_text() for folder in folders for path in sorted((trying.ROOT / folder).glob("*.c"))}


def forms_in(sources):
    """Returns the forms of all messages."""
    return {form for text in sources.values() for form in SAYS.findall(text)}


def prints_of_others(sources):
    """Returns the lines that print in another way."""
    lines = [line.strip() for text in sources.values() for line in text.splitlines() if PRINTS.search(line)]
    return [line for line in lines if not any(own in line for own in OWN)]


def typed(place, command, words, before_last=None, **more):
    """Types into a command, and returns what it said on the main screen, also on lines that it erased."""
    run = Typed(command, 60, 24, {**place.environment, **more}, place.top)
    for number, word in enumerate(words):
        if before_last and number == len(words) - 1:
            before_last()
        run.press(word)
    run.end()
    return run.said().replace("\r\x1b[K", "\n")


def record(word, data):
    return b"%s %d\n%s\n" % (word, len(data), data)


def of_files(place):
    """What two files say: one is not there, both are equal, and settings have other values."""
    old, new = (os.path.join(place.top, name + HOSTILE) for name in ("old", "new"))
    for path in (old, new):
        changed.write_file(path, OLD)
    yield place.call("scm-select", old, new + "x")[1]
    yield place.call("scm-select", "-o", os.path.join(place.top, HOSTILE, "x"), old, new)[1]
    yield place.call("scm-select", "-o", "/dev/null", old, new)[1]
    yield place.call("env", "SELECT_THEME=" + HOSTILE, "scm-select", old, new)[1]
    changed.write_file(new, NEW)
    yield typed(place, ["scm-select", old, new], ["q"])
    keys = os.path.join(place.top, "keys" + HOSTILE)
    changed.write_file(keys, os.fsencode("x " + HOSTILE + "\n"))
    on = {"SELECT_LAYER": "on", "SELECT_KEYS": keys}
    yield typed(place, ["scm-select", old, new], [], **on)


def of_folders(place):
    """What two folders say: one is none, both are equal, what is left out, and what changed meanwhile."""
    left, right = place.folder("left" + HOSTILE, {HOSTILE: OLD}), place.folder("right" + HOSTILE, {HOSTILE: OLD})
    yield place.call("scm-select", "-d", left, right + "x")[1]
    yield place.call("scm-select", "-d", left, os.path.join(right, HOSTILE))[1]
    yield place.call("scm-select", "-d", left, right)[1]
    changed.write(right, {HOSTILE: NEW, HOSTILE + "x/.GIT": NEW, ".choosing-0123456789abcdef/0": NEW})
    os.chmod(os.path.join(right, ".choosing-0123456789abcdef"), 0o700)
    os.mkfifo(os.path.join(right, "pipe" + HOSTILE))
    command = ["scm-select", "-d", left, right]
    yield typed(place, command, ["c"], before_last=lambda: changed.write_file(os.path.join(right, HOSTILE), b"3\n"))
    if shutil.which("strace"):
        left, right = place.folder("left", {"a": OLD}), place.folder("right", {"a": NEW})
        yield typed(place, ["strace", "-o", os.devnull, "-e", "inject=unlinkat:error=EIO", "scm-select", "-d", left, right], ["c"])


def of_records(place):
    """What changes that were handed in say: a path, with lines that are too long and many."""
    handed, accepted = (os.path.join(place.top, name) for name in ("handed", "accepted"))
    data = b"x" * 5_000_000 + b"\n"
    parts = ((b"path", os.fsencode(HOSTILE)), (b"old-mode", b"100644"), (b"old", b""), (b"new-mode", b"100644"), (b"new", data))
    changed.write_file(handed, b"".join(record(*part) for part in parts))
    yield place.call("scm-select", "--changes", handed, accepted)[1]
    parts = ((b"path", HOSTILE.encode("utf-8", "ignore")), *parts[1:])
    changed.write_file(handed, b"".join(record(*part) for part in parts))
    yield typed(place, ["scm-select", "--changes", handed, accepted], ["q"])


def of_marks(place):
    """What is said of marks that are kept in a folder: where a check fails, and behind a run that was killed."""
    old, new = (os.path.join(place.top, name) for name in ("old", "new"))
    changed.write_file(old, OLD)
    changed.write_file(new, NEW)
    on = {"SELECT_LAYER": "on", "TMPDIR": place.folder("own" + HOSTILE)}
    for number in signal.SIGILL, signal.SIGKILL:
        for name in os.listdir(on["TMPDIR"]):
            os.unlink(os.path.join(on["TMPDIR"], name))
        run = Typed(["scm-select", old, new], 60, 24, {**place.environment, **on}, place.top)
        run.press("space")
        # the marks are kept where the user rests
        time.sleep(1)
        os.kill(run.process, number)
        run.end()
        yield run.said() if number == signal.SIGILL else typed(place, ["scm-select", old, new], ["q"], **on)


def is_of_form(said, form):
    """Whether a line has the form of a message."""
    parts = re.split(r"%(?:\.\*)?s", form)
    return re.search("^(?:scm-select: )?%s$" % ".*".join(map(re.escape, parts)), said, re.M) is not None


def every_message(place):
    """Each message that the sources have is said of hostile paths, values and lines: what is said is printable, and one function
    prints all. The list of messages is made from the sources."""
    sources = sources_in(SOURCES)
    said = [text for attempt in (of_files, of_folders, of_records, of_marks) for text in attempt(place)]
    whole = "\n".join(said)
    missing = [form for form in forms_in(sources) if not is_of_form(whole, form)]
    if not shutil.which("strace"):
        missing = [form for form in missing if "cannot be removed" not in form]
    raw = [text for text in said if FORBIDDEN.search(text.replace("\r", ""))]
    others = prints_of_others({**sources, **sources_in(MERGE_TOOL)})
    for problem in (*missing, *others, *raw):
        print("every message: %r" % problem)
    is_whole = len(forms_in(sources)) >= 10 and all(said)
    return is_whole and not missing and not raw and not others


ALL = every_message,
