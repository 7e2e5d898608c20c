"""How a program begins and ends: its folder for temporary files, signals, and what is said where it fails."""
import contextlib
import errno
import os
import signal
import sys

from .faults import reason_of
from .folders import IS_FOLDER, closing, remove_opened
from .said import program, say, take_standard_files
from .signals import SIGNALS, Stopped, ignore, stop_on_signals
from .temporary import new_folder
from .words import shown


@contextlib.contextmanager
def temporary_folder():
    """Gives a folder for temporary files, which is removed in the end. If that fails, it is said, and undoes nothing. Another folder that has
    its name by then stays."""
    folder = new_folder(program() + "-")
    with closing(os.open(folder, IS_FOLDER)) as opened:
        check_new(opened)
        try:
            yield folder
        finally:
            # what removes the folder is not cut off
            ignore(SIGNALS)
            try:
                remove_opened(folder, opened)
            except OSError as error:
                say("%s stays: %s" % (shown(folder), error.strerror))


def check_new(opened):
    """Raises OSError if an open folder is another one than this user has just made."""
    with os.scandir(opened) as found:
        is_empty = next(found, None) is None
    if not is_empty or os.fstat(opened).st_uid != os.geteuid():
        raise PermissionError(errno.EPERM, "another folder is in the place of the one for temporary files")


def run(work):
    """Calls `work` with a folder for temporary files. Returns the program's status. What fails is said in one line."""
    try:
        take_standard_files()
        stop_on_signals()
        with temporary_folder() as folder:
            return work(folder)
    except Stopped as stopped:
        number = stopped.args[0]
        signal.signal(number, signal.SIG_DFL)
        os.kill(os.getpid(), number)
    except Exception as error:
        say(reason_of(error))
        return 1


def leave(status):
    """Ends the program with a status, without taking apart what it has in memory: the system does that sooner. All that was begun is at its end
    by then: files are closed, no thread runs, and what was said is written or lost."""
    for file in filter(None, (sys.stdout, sys.stderr)):
        with contextlib.suppress(OSError, ValueError):
            file.flush()
    os._exit(status or 0)
