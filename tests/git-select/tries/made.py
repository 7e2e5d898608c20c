"""A repository that is made for a try, and git-select typed into in it."""
import os
import stat
import subprocess
import sys

HERE = os.path.dirname(os.path.abspath(__file__))
sys.path[:0] = [os.path.join(HERE, "..", "..", "terminal"), os.path.join(HERE, "..", "..", "..", "programs")]
from apart import SETTINGS  # noqa: E402
from choosing.words import VERSION  # noqa: E402, F401
from typed import Typed  # noqa: E402

PROGRAM = os.path.join(HERE, "..", "..", "..", "programs", "git-select", "git-select")
for name in list(os.environ):
    if name.startswith("GIT_"):
        del os.environ[name]
ENVIRONMENT = {**SETTINGS, "SELECT": os.path.abspath(sys.argv[1])}


def git(*words, given=b"", environment=None):
    """Returns git's output. A merge may end with conflicts, every other call must succeed."""
    settings = {"capture_output": True, "env": {**os.environ, **ENVIRONMENT, **(environment or {})}}
    done = subprocess.run(["git", *words], input=given, **settings)
    if done.returncode and words[0] != "merge":
        raise RuntimeError(done.stderr.decode(errors="replace"))
    return done.stdout.decode(errors="surrogateescape")


def write(path, data, mode=0o644):
    os.makedirs(os.path.dirname(path) or ".", exist_ok=True)
    with open(path, "wb") as file:
        file.write(data)
    os.chmod(path, mode)


def commit():
    git("add", "--all")
    git("commit", "--quiet", "--message=base")


def tree():
    """Returns all files of the working tree, with their modes and bytes."""
    found = {}
    for folder, folders, names in os.walk("."):
        folders[:] = [name for name in folders if name != ".git"]
        for path in (os.path.join(folder, name) for name in names):
            mode = os.lstat(path).st_mode
            can_be_read = stat.S_ISREG(mode) and os.access(path, os.R_OK)
            found[path] = mode, open(path, "rb").read() if can_be_read else stat.S_ISLNK(mode) and os.readlink(path)
    return found


def typed_into(words, paths=(), before_last=lambda: None, command=(PROGRAM,), folder=None, **environment):
    """Types `words` into git-select. Returns its status, and what it said. The working tree must stay."""
    typed = Typed([*command, *paths], 60, 24, {**ENVIRONMENT, **environment}, folder)
    for word in words[:-1]:
        typed.press(word)
    before_last()
    files = tree()
    for word in words[-1:]:
        typed.press(word)
    status = typed.end()
    return status if typed.frames and tree() == files else "nothing was shown, or the working tree changed", typed.said()


def called(*words, **environment):
    """Runs git-select where it ends before it shows anything. Returns its status, and all that it wrote."""
    settings = {"stdin": subprocess.DEVNULL, "stdout": subprocess.PIPE, "stderr": subprocess.STDOUT}
    environment = {**os.environ, **ENVIRONMENT, **environment}
    done = subprocess.run([PROGRAM, *words], env=environment, start_new_session=True, timeout=60, **settings)
    return done.returncode, done.stdout.decode()


def staged(*words):
    """Returns what differs between the last commit and the index, without the names of objects."""
    lines = git("diff", "--cached", "--no-renames", *words).splitlines(True)
    return "".join(line for line in lines if not line.startswith("index "))


def is_as_added():
    """Whether the index is what `git add` makes of the last commit, and nothing is wrong with the repository."""
    environment = {"GIT_INDEX_FILE": os.path.abspath(".git/added")}
    git("read-tree", "HEAD", environment=environment)
    git("add", "--all", environment=environment)
    added = git("ls-files", "-z", "--stage", environment=environment)
    return git("ls-files", "-z", "--stage") == added and not git("fsck", "--strict", "--no-dangling")


def objects():
    """Returns how many objects the repository has."""
    return git("count-objects")


def kept_marks():
    """Returns the files of marks that git-select kept, or None if it left anything else in the folder for such files."""
    folder = os.environ["TMPDIR"]
    names = os.listdir(folder)
    return [os.path.join(folder, name) for name in names] if all(name.endswith(".marks") for name in names) else None
