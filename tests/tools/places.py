"""Temporary folders and repositories, in which the installed programs are typed into."""
import os
import re
import shutil
import subprocess
import sys
import tempfile

import changed
import trying

sys.path.insert(0, str(trying.ROOT / "tests/terminal"))
from apart import SETTINGS  # noqa: E402
from typed import Typed  # noqa: E402


class Place:
    """A temporary folder, in which programs are run and typed into. With `path` they get that PATH, and no variable of others."""

    def __init__(self, prefix, path=None):
        self.prefix = prefix
        self.top = tempfile.mkdtemp(prefix="try-tools-")
        self.temporary = self.folder("temporary")
        folders = os.path.join(prefix, "bin") + os.pathsep + (path or os.environ["PATH"])
        self.state = self.folder("state")
        own = {"PATH": folders, "TMPDIR": self.temporary, "XDG_STATE_HOME": self.state}
        self.environment = {**SETTINGS, "PYTHONDONTWRITEBYTECODE": "1", **own}
        self.head = ["env", "-i", *("%s=%s" % it for it in self.environment.items())] if path else []

    def folder(self, name, files=()):
        path = os.path.join(self.top, name)
        os.makedirs(path, exist_ok=True)
        changed.write(path, dict(files))
        return path

    def type(self, command, words, folder=None, before_last=None, **more):
        """Types `words` into a command. Returns its status, and what it said."""
        typed = Typed([*self.head, *command], 60, 24, {**self.environment, **more}, folder or self.top)
        for number, word in enumerate(words):
            if before_last and number == len(words) - 1:
                before_last()
            typed.press(word)
        # without the lines that said what was waited for, and were erased
        return typed.end(), re.sub(r"[^\n]*\r\x1b\[K", "", typed.said())

    def call(self, *command, folder=None, given=b""):
        """Returns the status and all that a command wrote, which is typed into by nobody."""
        how = {"stdout": subprocess.PIPE, "stderr": subprocess.STDOUT, "start_new_session": True, "timeout": 120}
        environment = {**os.environ, **self.environment}
        done = subprocess.run(command, input=given, cwd=folder or self.top, env=environment, **how)
        return done.returncode, os.fsdecode(done.stdout)

    def has_only(self, *names):
        """Whether the folder has just these names beside the folders that each place has."""
        return set(os.listdir(self.top)) - {os.path.basename(it) for it in (self.temporary, self.state)} == set(names)

    def has_left_nothing(self):
        """Whether no temporary file and no plan was left."""
        plans = os.path.join(self.state, "gabrosty")
        return not os.listdir(self.temporary) and not (os.path.exists(plans) and os.listdir(plans))

    def forget_marks(self):
        """Removes the marks that were kept where something was refused."""
        for name in os.listdir(self.temporary):
            if name.endswith(".marks"):
                os.unlink(os.path.join(self.temporary, name))

    def close(self):
        shutil.rmtree(self.top, ignore_errors=True)


class Repository:
    """A repository with a commit of the files `old`, of which the working tree now has the files `new`."""

    def __init__(self, place, old, new, name="repository"):
        self.place, self.folder = place, place.folder(name)
        self.git("init", "--quiet")
        changed.write(self.folder, old)
        self.commit()
        changed.write(self.folder, new)

    @classmethod
    def at(cls, place, folder):
        """Returns the repository that is in `folder` already."""
        found = cls.__new__(cls)
        found.place, found.folder = place, folder
        return found

    def git(self, *words, given=b"", check=True, **more):
        environment = {**os.environ, **self.place.environment, **more}
        how = {"capture_output": True, "cwd": self.folder, "env": environment}
        done = subprocess.run(["git", *words], input=given, **how)
        if check and done.returncode and words[0] != "merge":
            raise RuntimeError("git %s: %s" % (" ".join(words), os.fsdecode(done.stderr)))
        return os.fsdecode(done.stdout)

    def commit(self):
        self.git("add", "--all", "--force")
        self.git("commit", "--quiet", "--allow-empty", "--message=base")

    def select(self, *words, keys, **more):
        """Types `keys` into git select. Returns its status, and what it said."""
        return self.place.type(["git", "select", *words], keys, more.pop("folder", self.folder), **more)

    def index(self):
        return self.git("ls-files", "-z", "--stage")

    def index_of(self, *words):
        """Returns what the index would be after a git command."""
        copy = {"GIT_INDEX_FILE": os.path.join(self.place.top, "copy")}
        self.git("read-tree", "HEAD", **copy)
        if words:
            self.git(*words, **copy)
        return self.git("ls-files", "-z", "--stage", **copy)

    def index_files(self, **more):
        """Returns the table of the files of the index."""
        folder = self.place.folder("index")
        self.git("checkout-index", "--all", "--prefix=%s/" % folder, **more)
        return changed.read(folder)

    def files_of(self, commit):
        """Returns the table of the files of a commit."""
        copy = {"GIT_INDEX_FILE": os.path.join(self.place.top, "copy")}
        self.git("read-tree", commit, **copy)
        return self.index_files(**copy)

    def files(self):
        return changed.read(self.folder)

    def is_sound(self):
        return not self.git("fsck", "--strict", "--no-dangling") and self.place.has_left_nothing()
