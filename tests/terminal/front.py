"""What the tries of the front end share. The first two words of a try are the paths of the front end, and of replay.c, built."""
import json
import os
import re
import subprocess
import sys
import tempfile

from typed import GIVE_BACK, Typed

FRONT_END, REPLAY = os.path.abspath(sys.argv[1]), os.path.abspath(sys.argv[2])
LINES = [{"is_checked": number % 3 == 0, "change_type": "Added", "line": "line %d\n" % number} for number in range(12)]


def state_of(*files, message=None):
    """A state of files, each a path with its changed lines."""
    return json.dumps({"is_read_only": False, "commits": [{"message": message}], "files": [
        {"old_path": None, "path": path, "file_mode": {"Unix": 0o100644}, "sections": [{"Changed": {"lines": lines}}]}
        for path, lines in files
    ]})


STATE = state_of(("long.txt", LINES), ("short.txt", LINES[:1]))


def start(width, height, state=STATE, environment=None):
    """The front end over a state, on a terminal of `width` columns and `height` rows."""
    with tempfile.NamedTemporaryFile("w", suffix=".json") as file:
        file.write(state)
        file.flush()
        return Typed([FRONT_END, file.name], width, height, environment)


def is_given_back(typed):
    """Whether the last that the front end sent gives the terminal back."""
    return bool(re.search(GIVE_BACK + rb"[^\x1b]*$", typed.seen, re.S))


def give_up(typed):
    """Gives up: ctrl-c asks, and the second one cancels."""
    typed.press("ctrl-c")
    typed.write(b"\x03")


def leave(typed):
    """Gives up, and says whether the front end ends as it does then, with the terminal given back."""
    while not typed.has_ended:
        typed.press("ctrl-c")
    return typed.end() == 1 and is_given_back(typed)


def replayed(width, height, words, state=STATE):
    """The screen that is shown after these words."""
    lines = ["size %d %d" % (width, height), state, "script", *("batch " + word for word in [*words, "shot"]), ""]
    output = subprocess.run([REPLAY], input="\n".join(lines).encode(), capture_output=True).stdout
    return b"".join(line for line in output.splitlines(True) if line.startswith(b'"'))


def try_each(name, attempts):
    """Tries each, and prints a line for it. Returns the status: 1 where one is not as it must be."""
    failed = 0
    for attempt in attempts:
        is_well = attempt()
        failed += not is_well
        print("%s: %s, %s" % ("same" if is_well else "differs", name, attempt.__name__.replace("_", " ")), flush=True)
    return int(failed != 0)
