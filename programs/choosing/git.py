"""Git, as the programs call it."""
import contextlib
import functools
import itertools
import os
import re
import signal
import subprocess

from .packs import name_of, pack_of
from .signals import signals_wait, waiting
from .words import Stop, printable


# how many objects are taken as one file, as git does with what it fetches
MANY, PACKING = 100, ("index-pack", "--stdin")
# has what a command says go where standard error does, and keeps standard output for the editor that it opens
APART = 'exec 9>&1 >&2 "$@"'
# the editor, with standard output as it was; git adds the file's name
EDITOR = 'gabrosty_editor() {\n%s "$@"\n}\ngabrosty_editor >&9 2>&9'


@contextlib.contextmanager
def begun(command, **settings):
    """Gives the process of a command. If a signal ends this program, the command is ended first, so that it can tidy up."""
    they_wait = waiting[-1]
    # a command that was begun, but is not known yet, could not be ended
    with signals_wait(), subprocess.Popen(command, **settings) as process:
        try:
            with signals_wait(they_wait):
                yield process
        except BaseException:
            process.terminate()
            raise


def run_to_end(command, given=None, **settings):
    """Runs `command` to its end."""
    with begun(command, **settings) as process:
        output, words = process.communicate(given)
    return process.returncode, output, words


def run_within(command, most, **settings):
    """Runs a command that writes no more than `most` bytes to a file: else it fails. Returns its status, or None if the system has no such
    limit."""
    import resource

    limit = getattr(resource, "prlimit", None)
    if not limit:
        return None
    # what is beyond the limit is an error of the write, as signals that Python ignores stay ignored
    with begun(command, restore_signals=False, **settings) as process:
        with contextlib.suppress(ProcessLookupError):
            limit(process.pid, resource.RLIMIT_FSIZE, (most, most))
        return process.wait()


def reason_in(said, last=False):
    """Returns why git failed: the first line of what it said that is no warning, or the last one, without the word before it."""
    lines = [line for line in os.fsdecode(said).splitlines() if line and not line.startswith(("warning: ", "hint: "))]
    return printable(re.sub("^(error|fatal): ", "", lines[-1 if last else 0])) if lines else "git failed"


def split_by_zeros(output):
    return os.fsdecode(output).split("\0")[:-1]


def run_in_terminal(command, environment, **settings):
    """Runs a command that has the terminal meanwhile, so what Ctrl-C does then is its matter. Returns what run_to_end does."""
    before = signal.signal(signal.SIGINT, lambda *_: None)
    try:
        return run_to_end(command, env=environment, **settings)
    finally:
        signal.signal(signal.SIGINT, before)


class Git:
    """Runs git in the folder `top`, with an environment of its own. `opened` has folders that are open, by path: git runs in these,
    whatever their names lead to by then."""

    options = ()
    taking = "unpack-objects", "-q"

    def __init__(self, top, environment, opened=None):
        self.top, self.environment, self.opened = top, environment, opened or {}

    def inside(self, path):
        """Returns the settings of a command that runs in the folder `path`."""
        if path not in self.opened:
            return {"cwd": path}
        opened = self.opened[path]
        by_number = "/proc/self/fd/%d" % opened
        # where the system names open folders, the process of git begins without a copy of this one's memory
        return {"cwd": by_number} if os.path.isdir(by_number) else {"preexec_fn": functools.partial(os.fchdir, opened)}

    def run(self, *words, given=None, folder=None, **more):
        """Returns git's status, its output and what it said, both as bytes. `more` are variables of the environment."""
        pipes = dict.fromkeys(("stdin", "stdout", "stderr"), subprocess.PIPE)
        pipes.update(self.inside(folder or self.top), env={**self.environment, **more})
        try:
            return run_to_end(["git", *self.options, *words], given, **pipes)
        except FileNotFoundError:
            raise Stop("it needs git, and there is no such program") from None

    def editor(self):
        """Returns the editor that git opens, or None."""
        status, editor, _ = self.run("var", "GIT_EDITOR")
        return None if status else os.fsdecode(editor).strip()

    def with_editor(self, *words, **more):
        """Runs git where it opens its editor, which has the terminal. Returns git's status, and what git and its hooks said."""
        editor = self.editor()
        # by `:` git opens none
        apart = {} if editor in (None, ":") else {"GIT_EDITOR": EDITOR % editor}
        command = ["sh", "-c", APART, "sh", "git", *self.options, *words]
        settings = {"stderr": subprocess.PIPE, **self.inside(self.top)}
        status, _, said = run_in_terminal(command, {**self.environment, **more, **apart}, **settings)
        # an editor that fails is named as the user has set it
        return status, said.replace(os.fsencode(apart.get("GIT_EDITOR", "")), os.fsencode(editor)) if apart else said

    def git(self, *words, **settings):
        """Returns git's output. Stops with git's reason if it fails."""
        status, output, said = self.run(*words, **settings)
        if status:
            raise Stop(reason_in(said))
        return output

    @functools.cached_property
    def algorithm(self):
        """The name of the algorithm that names objects."""
        return self.git("rev-parse", "--show-object-format").decode().strip()

    def store(self, contents, known=()):
        """Stores each of `contents` as an object. Returns the names of the objects. `known` are those that are known already, each
        of the others being None."""
        if not contents:
            return []
        names = [name or name_of(data, self.algorithm) for data, name in itertools.zip_longest(contents, known)]
        different = dict(zip(names, contents))
        words = self.taking if len(different) < MANY else PACKING
        self.git(*words, given=pack_of(different.values(), self.algorithm))
        return names

    def named(self, contents):
        """Returns the name of an object for each of `contents`: bytes, with the name of an object that has them, or None."""
        stored = iter(self.store([data for data, name in contents if not name]))
        return [name or next(stored) for _, name in contents]
