#!/usr/bin/env python3
"""try_choose.py COMMAND..: types into a splitter of examples/ at a terminal, where it has the user choose.

It ends with status 1 if anything is otherwise than it should be."""
import os
import pathlib
import signal
import sys
import tempfile
import termios

sys.path.insert(1, os.path.join(os.path.dirname(os.path.realpath(__file__)), os.pardir, "terminal"))
from typed import Typed  # noqa: E402


def run(folder, *keys):
    """Types keys. Returns the status, and what the splitter prints."""
    typed = Typed([*sys.argv[1:], str(folder / "old"), str(folder / "new")], 60, 12)
    for key in keys:
        typed.press(key)
    return typed.end(), typed.said()


def interrupted(folder):
    """A signal ends the splitter, once the terminal is as it was. The one in C says then that nothing was chosen."""
    typed = Typed([*sys.argv[1:], str(folder / "old"), str(folder / "new")], 60, 12)
    is_raw = not termios.tcgetattr(typed.terminal)[3] & termios.ICANON
    os.kill(typed.process, signal.SIGTERM)
    typed.wait_for(b"\x1b[23;2t")
    return is_raw and os.waitstatus_to_exitcode(os.waitpid(typed.process, 0)[1]) in (1, -signal.SIGTERM)


def main():
    with tempfile.TemporaryDirectory() as name:
        folder = pathlib.Path(name)
        (folder / "old").write_text("same\nold\n")
        (folder / "new").write_text("same\nnew\nmore\n")
        assert run(folder, "a", "c") == (0, "same\nnew\nmore\n")
        assert run(folder, "l", "l", "j", "space", "c") == (0, "same\nold\nnew\n")
        assert run(folder, "q") == (1, "")
        assert interrupted(folder)


main()
