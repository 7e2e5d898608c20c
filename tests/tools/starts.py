"""How the programs in Python start, what they say of hostile texts, and what they leave of the terminal, for tools/dev/try-tools."""
import ast
import json
import os
import re
import shutil
import signal
import subprocess
import sys
import time

import changed
from faults import ACCEPTS, select
from places import Repository, Typed
from settings import configure, write_hook

FOLDERS = "choosing", "git-select", "diff-editor"
# what a terminal obeys: ESC, CSI, OSC, BEL, C1 controls; and what turns the direction of a text
HOSTILE = "\x1b[31m\x1b]0;x\x07\x9b1m\x9dy\x9c\u202a\u202b\u202c\u202d\u202e\u2066\u2067\u2068\u2069\u200e\u200f\r\x08\x7f"
FORBIDDEN = set(HOSTILE) - set("[31m]0;xy") | set("\udc9b\udc9c\udc9d")
# the functions that say what they are given, and those that write at all
SAYS, WRITES = ("say", "tell", "waits", "Stop", "HalfDone", "half_done", "error"), ("print", "write")


def is_clean(said):
    """Whether nothing in a text is obeyed by a terminal."""
    return not FORBIDDEN & set(said.replace("\r\x1b[K", ""))


def a_module_of_the_clone(place):
    """A clone has modules that are named as those of Python. None of them is read, whatever PYTHONPATH says."""
    names = "json", "argparse", "os", "sitecustomize", "usercustomize", "lock", "ways", "choosing", "tempfile"
    planted = {name + ".py": b"import builtins\nbuiltins.open('ran', 'w')\nraise SystemExit(9)\n" for name in names}
    repository = Repository(place, {"a": b"1\n", **planted}, {"a": b"2\n", **planted})
    settings = (
        {"PYTHONPATH": ""}, {"PYTHONPATH": ":"}, {"PYTHONPATH": ".:/nowhere"}, {"PYTHONSAFEPATH": "1"},
        {"PYTHONSTARTUP": "json.py", "PYTHONINSPECT": "1"}, {"PYTHONHOME": "/nowhere"}, {"PYTHONWARNINGS": "error::json.x"}, {"PYTHONIOENCODING": "idna"},
        {"PYTHONIOENCODING": "rot13"},
    )
    front = os.path.join(place.top, "front")
    changed.write_file(front, b'#!/bin/sh\nexec python3 -IB "$NEXT" "$@"\n')
    os.chmod(front, 0o755)
    for more in settings:
        more = {**more, "SELECT": front, "NEXT": ACCEPTS["SELECT"]}
        ends = [select(repository, "--version", **more), select(repository, "-h", **more), select(repository, **more)]
        editor = subprocess.run(
            ["gabrosty-diff-editor", "--version"], cwd=repository.folder, env={**os.environ, **place.environment, **more},
            stdout=subprocess.PIPE, stderr=subprocess.STDOUT, stdin=subprocess.DEVNULL)
        is_well = [status for status, _ in ends] == [0, 0, 0] and editor.returncode == 0
        if not is_well or os.path.exists(os.path.join(repository.folder, "ran")):
            print(more, ends, editor.stdout)
            return False
        repository.git("reset", "--quiet")
    return repository.is_sound()


def standard_files_that_are_closed(place):
    """No file of a program comes in the place of a standard file, and the work is done."""
    for closed in "<&-", ">&-", "2>&-", "<&- >&- 2>&-":
        repository = Repository(place, {"a": b"1\n"}, {"a": b"2\n"}, "closed")
        environment = {**os.environ, **place.environment, **ACCEPTS}
        command = ["sh", "-c", 'exec git-select "$@" ' + closed, "sh", "--commit", "-m", "x"]
        how = {"stdout": subprocess.PIPE, "stderr": subprocess.STDOUT, "stdin": subprocess.DEVNULL, "start_new_session": True}
        done = subprocess.run(command, cwd=repository.folder, env=environment, **how)
        if done.returncode or b"Traceback" in done.stdout or repository.git("status", "--porcelain") or not repository.is_sound():
            print(closed, done)
            return False
        shutil.rmtree(repository.folder)
    return True


def ends_that_are_ignored(place):
    """Whoever began the program ignores how those end that it runs. What git could not do does not count as done: no file is taken back
    that git has no stash of, and the front end that gave up wrote nothing."""
    ignore = "import os, signal, sys; signal.signal(signal.SIGCHLD, signal.SIG_IGN); os.execvp(sys.argv[1], sys.argv[1:])"
    how = {"stdout": subprocess.PIPE, "stderr": subprocess.STDOUT, "stdin": subprocess.DEVNULL, "start_new_session": True}
    repository, ends = Repository(place, {"a": b"1\n"}, {"a": b"2\n"}), []
    changed.write_file(os.path.join(repository.folder, ".git/refs/stash.lock"), b"")
    for way, more in (("--stash", ACCEPTS), ("--restore", {"SELECT": "false"})):
        # a shell may hear them again, so there is none
        program = [sys.executable, "-IS", os.path.join(place.prefix, "bin/git-select"), way]
        environment = {**os.environ, **place.environment, **more}
        done = subprocess.run([sys.executable, "-c", ignore, *program], cwd=repository.folder, env=environment, **how)
        ends.append(done.returncode == 1 and repository.files() == {"a": b"2\n"})
    place.forget_marks()
    return all(ends) and repository.is_sound()


def a_help_that_cannot_be_written(place):
    """It is one line, and the status is 1."""
    ends = []
    for name in "git-select", "gabrosty-diff-editor":
        for word in "-h", "--version":
            ends.append(place.call("sh", "-c", '"$@" > /dev/full', "sh", name, word))
            ends.append(place.call("sh", "-c", '"$@" > /dev/full 2>&1', "sh", name, "--nothing"))
    wanted = "the output cannot be written: No space left on device\n"
    return all(status == 1 and said.endswith(wanted) for status, said in ends[::2]) and all(it[0] in (1, 2) for it in ends[1::2])


def sources(place):
    """Yields the path and the parsed source of each file of the programs in Python."""
    top = os.path.join(place.prefix, "lib/gabrosty")
    for folder in FOLDERS:
        for name in sorted(os.listdir(os.path.join(top, folder))):
            path = os.path.join(top, folder, name)
            if os.path.isfile(path) and (name.endswith(".py") or "." not in name):
                with open(path, encoding="utf-8") as file:
                    yield os.path.relpath(path, top), ast.parse(file.read())


def name_of(call):
    """Returns the name by which a function is called."""
    return call.func.attr if isinstance(call.func, ast.Attribute) else getattr(call.func, "id", "")


def texts_in(node):
    """Returns the constant texts of an expression that have a place for another one."""
    found = [it.value for it in ast.walk(node) if isinstance(it, ast.Constant) and isinstance(it.value, str)]
    return [text for text in found if "%s" in text or " " in text]


def messages(place):
    """Returns each text that a program says, from its sources: what is given to the functions SAYS, and all texts with a place for
    another one."""
    found = set()
    for _, tree in sources(place):
        calls = [it for it in ast.walk(tree) if isinstance(it, ast.Call)]
        for call in calls:
            if name_of(call) in SAYS:
                found.update(text for given in call.args for text in texts_in(given))
        found.update(text for text in texts_in(tree) if "%s" in text)
    return sorted(found)


def calls_that_write(place):
    """Returns where the sources write to standard output or standard error: the file and the function that does."""
    found = set()
    for path, tree in sources(place):
        for function in (it for it in ast.walk(tree) if isinstance(it, ast.FunctionDef)):
            for call in (it for it in ast.walk(function) if isinstance(it, ast.Call)):
                is_print = name_of(call) == "print"
                is_write = name_of(call) == "write" and isinstance(call.args[0], ast.Constant) and call.args[0].value in (1, 2)
                is_stream = isinstance(call.func, ast.Attribute) and ast.unparse(call.func.value) in ("sys.stdout", "sys.stderr")
                if is_print or is_write or is_stream and name_of(call) in ("write", "writelines"):
                    found.add((path, function.name))
    return found


ONE_BY_ONE = """
import json, sys
sys.path[:0] = json.loads(sys.argv[1])
from choosing.said import say, tell
from choosing.words import Stop, HalfDone, printable, shown
from choosing.faults import ending, reason_of
from choosing import waiting
hostile, texts = json.loads(sys.stdin.read())
for text in texts:
    whole = text.replace("%s", hostile).replace("%d", "1") + hostile
    say(whole)
    tell([whole], "")
    for error in Stop(whole), HalfDone(whole), OSError(5, whole, whole), ValueError(whole):
        try:
            raise error
        except Exception as caught:
            say(ending(caught, whole))
            say(reason_of(caught))
    for name in printable(whole), shown(whole):
        sys.stdout.write(name + "\\n")
"""


def each_message(place):
    """Each message of the sources, with a text that a terminal would obey in each of its places, is said without that. One file alone
    writes what is said, so no message goes another way."""
    writers = {
        ("choosing/said.py", "tell"), ("choosing/waiting.py", "write"), ("choosing/arguments.py", "_print_message"),
    }
    found = messages(place)
    top = os.path.join(place.prefix, "lib/gabrosty")
    command = [sys.executable, "-I", "-c", ONE_BY_ONE, json.dumps([top])]
    given = json.dumps([HOSTILE, found]).encode()
    done = subprocess.run(command, input=given, stdout=subprocess.PIPE, stderr=subprocess.PIPE)
    is_said = done.returncode == 0 and all(is_clean(text.decode()) for text in (done.stdout, done.stderr))
    if calls_that_write(place) != writers:
        print(calls_that_write(place))
    return is_said and len(found) > 80 and calls_that_write(place) == writers


# a path with each of them, where what stands alone is a byte that is no UTF-8
NAME = HOSTILE.replace("\x9b", "\udc9b").replace("\x9d", "\udc9d").replace("\x9c", "\udc9c")


def hostile_repository(place):
    """Returns a repository with such paths, a hook that says such a text, and files that are left out."""
    old = {NAME: b"1\n", "b": b"1\n", "d" + NAME + "/x": b"1\n"}
    repository = Repository(place, old, {NAME: b"2\n", "b": b"2\n", "d" + NAME: b"2\n"}, "hostile")
    write_hook(repository, "pre-commit", "printf '%s' '" + HOSTILE + "'\nexit 1\n")
    os.mkfifo(os.path.join(repository.folder, "f" + HOSTILE))
    return repository


def said_in_repositories(place):
    """Yields what git select says there, with arguments and variables of the kind too."""
    kept = os.path.join(place.top, "kept")
    marks = {"messages": [], "files": [{"path": path, "sides": [], "marks": "1"} for path in (HOSTILE, "\ud800")]}
    changed.write_file(kept, json.dumps(marks).encode())
    for words in (
        [], ["--restore"], ["--stash"], ["--commit", "-m", "x" + HOSTILE], ["--amend"], ["--split", NAME], ["--fixup", HOSTILE],
        ["--marks", HOSTILE], ["--marks", kept], [HOSTILE], ["--" + HOSTILE], ["--undo", HOSTILE], ["--commit", "-m", NAME],
    ):
        repository = hostile_repository(place)
        yield select(repository, *words)[1]
        os.mkdir(os.path.join(repository.folder, HOSTILE.replace("/", "")))
        yield select(repository, *words, GIT_AUTHOR_NAME="", GIT_COMMITTER_NAME="x" + HOSTILE, SELECT="/no" + HOSTILE)[1]
        shutil.rmtree(repository.folder)


def said_by_an_editor(place):
    """Yields what the diff editor says of such folders and arguments."""
    left, right = place.folder("left", {NAME: b"1\n"}), place.folder("right", {NAME: b"2\n"})
    os.mkfifo(os.path.join(right, "f" + HOSTILE))
    environment = {**os.environ, **place.environment, **ACCEPTS}
    how = {"stdin": subprocess.DEVNULL, "stdout": subprocess.PIPE, "stderr": subprocess.STDOUT, "start_new_session": True}
    for words in ["--dry-run", left, right], [left, right + HOSTILE], [left, HOSTILE], ["--" + HOSTILE], ["--undo", left, right]:
        yield os.fsdecode(subprocess.run(["gabrosty-diff-editor", *words], env=environment, **how).stdout)


def hostile_names(place):
    """Paths, arguments, a hook, a setting and marks have what a terminal would obey. Nothing of it is said as it is."""
    said = [*said_in_repositories(place), *said_by_an_editor(place)]
    place.forget_marks()
    wrong = [text for text in said if not is_clean(text.replace("\n", "")) or "Traceback" in text or "a fault of" in text]
    for text in wrong:
        print(repr(text))
    return not wrong and any("\\x1b" in text for text in said)


def a_front_end_that_is_killed(place):
    """The terminal is given back: its settings, its first screen, no mouse, and the cursor. It is said which signal it was. SIGILL is that of
    a check that fails. The marks are kept, and can be taken up."""
    repository = Repository(place, {"a": b"1\n"}, {"a": b"2\n"})
    script, pid = os.path.join(place.top, "front"), os.path.join(place.top, "pid")
    changed.write_file(script, b'#!/bin/sh\necho $$ > "$PID_FILE"\nexec scm-select "$@"\n')
    os.chmod(script, 0o755)
    for number in signal.SIGKILL, signal.SIGSEGV, signal.SIGILL:
        shell = "stty -a > before; git select; echo status $?; stty -a > after"
        environment = {**place.environment, "SELECT": script, "PID_FILE": pid}
        typed = Typed(["sh", "-c", shell], 80, 24, environment, repository.folder)
        typed.press("a")
        # the marks are kept where the user rests
        time.sleep(1)
        os.kill(int(changed.read_file(pid)), number)
        typed.end()
        said = typed.seen.partition(b"the front end was killed")[0]
        is_back = all(code in said for code in (b"\x1b[?1049l", b"\x1b[?25h", b"\x1b[?2004l", b"\x1b[?7h"))
        settings = [changed.read_file(os.path.join(repository.folder, name)) for name in ("before", "after")]
        words = b"the front end was killed by %s\r\n" % signal.Signals(number).name.encode()
        is_said = words in typed.seen and b"status 1" in typed.seen and b"nothing changed" in typed.seen
        kept = re.search(rb"your marks are kept; to take them up: git-select --marks (\S+)\r\n", typed.seen)
        for name in "before", "after":
            os.unlink(os.path.join(repository.folder, name))
        if not is_back or settings[0] != settings[1] or not is_said or not kept:
            print(settings, typed.seen[-600:])
            return False
        again = Typed(["git", "select", "--marks", os.fsdecode(kept[1])], 80, 24, place.environment, repository.folder)
        again.press("c")
        if again.end() or repository.index_files() != {"a": b"2\n"}:
            print(again.said())
            return False
        repository.git("reset", "--quiet")
        os.unlink(os.fsdecode(kept[1]))
    return repository.is_sound()


def a_front_end_that_leaves_no_marks(place):
    """If nothing is marked, or the front end is another one, which keeps none, it is said that they are lost. A file of marks that is not whole
    counts as none."""
    repository = Repository(place, {"a": b"1\n"}, {"a": b"2\n"})
    ends = []
    for left in b"", b"kept 0\n\nmarks 2\n00\n", b"kept 0\n\nmarks 2\n1", b"kept 0\n\n", b"marks 2\n11\n", b"accepted 0\n\nmarks 2\n11\n":
        script = os.path.join(place.top, "front")
        changed.write_file(script, b'#!/bin/sh\nprintf "%%s" \'%s\' > "$3"\nkill -9 $$\n' % left)
        os.chmod(script, 0o755)
        typed = Typed(["sh", "-c", "stty -echo; git select; echo status $?"], 80, 24, {**place.environment, "SELECT": script}, repository.folder)
        typed.end()
        ends.append(b"the front end was killed by SIGKILL: the marks are lost\r\n" in typed.seen and b"--marks" not in typed.seen)
    return all(ends) and repository.is_sound()


def marks_of_another_length(place):
    """The file of marks is named, the file that they are of, and both lengths."""
    repository = Repository(place, {"a": b"1\n"}, {"a": b"2\n"})
    write_hook(repository, "pre-commit", "exit 1\n")
    select(repository, "--commit", "-m", "x")
    name, = (it for it in os.listdir(place.temporary) if it.endswith(".marks"))
    path = os.path.join(place.temporary, name)
    kept = json.loads(changed.read_file(path))
    kept["files"][0]["marks"] = "101"
    changed.write_file(path, json.dumps(kept).encode())
    status, said = place.call("git", "select", "--marks", path, folder=repository.folder)
    os.unlink(path)
    is_named = "its 3 marks for a do not fit the 2 items of that file" in said
    return status == 1 and is_named and "the marks were those of %s: nothing changed" % path in said


def the_message_at_the_start(place):
    """The message of the commit is on the screen at the start, also where all files are folded."""
    files = {"f%d" % number: b"".join(b"%d\n" % it for it in range(9)) for number in range(4)}
    repository = Repository(place, files, {path: data.replace(b"5\n", b"five\n") for path, data in files.items()})
    for words, shown in (["--amend"], b"base"), (["--commit", "-m", "A message"], b"A message"):
        environment = {**place.environment, "SELECT_LAYER": "on"}
        typed = Typed(["git", "select", *words], 80, 24, environment, repository.folder)
        typed.rest()
        screen = typed.screen()
        typed.press("q")
        typed.write(b"\r")
        typed.end()
        if b"[Edit message]" not in screen or shown not in screen or b"f0" not in screen:
            print(screen.decode())
            return False
    return repository.is_sound()


BASH = 'source "$1"; shift; COMP_WORDS=("$@"); COMP_CWORD=$(($# - 1)); _git_select; printf "%s\\n" "${COMPREPLY[@]}"'


def completed(place, repository, *words):
    """Returns what bash completes of the last one of `words`."""
    command = ["bash", "--norc", "-c", BASH, "bash", file_for(place, "bash"), *words]
    return set(place.call(*command, folder=repository.folder)[1].split())


FILES = {
    "bash": "bash-completion/completions/git-select", "zsh": "zsh/site-functions/_git-select",
    "fish": "fish/vendor_completions.d/git-select.fish",
}


def file_for(place, shell):
    return os.path.join(place.prefix, "share", FILES[shell])


def options_of_the_help(place):
    """Returns the names of the options that the help lists."""
    asked = place.call("git-select", "-h")[1]
    rows = re.findall(r"^  (-.*?)(?:  .*)?$", asked[asked.index("options:") : asked.index("Keys:")], re.M)
    return {name for row in rows for name in re.findall(r"(?<!\S)--?[a-z][a-z-]*", row)}


def is_read(place, shell):
    """Whether a shell can read its file, or is not there."""
    how = {"bash": "-n", "zsh": "-n", "fish": "--no-execute"}[shell]
    return not shutil.which(shell) or place.call(shell, how, file_for(place, shell))[0] == 0


def lacks_its_parent(repository, where):
    """Makes a second commit, and takes the first one away, which git is to fetch from `where`. Returns the name of the second one."""
    first = repository.git("rev-parse", "HEAD").strip()
    repository.git("commit", "--quiet", "--allow-empty", "--message=second")
    configure(repository, {
        "core.repositoryFormatVersion": "1", "extensions.partialClone": "origin", "protocol.ext.allow": "always",
        "remote.origin.promisor": "true", "remote.origin.url": where,
    })
    os.unlink(os.path.join(repository.folder, ".git/objects", first[:2], first[2:]))
    return repository.git("rev-parse", "HEAD").strip()


def what_shells_complete(place):
    """bash completes each option of the help, and the names of commits; and what zsh and fish are given has each option too. A branch
    whose name is a command runs nowhere, and neither does what a repository sets for signatures, or to fetch a commit that it lacks."""
    repository = Repository(place, {"a": b"1\n"}, {"a": b"2\n"})
    repository.git("update-ref", "refs/heads/$(touch${IFS}ran)", "HEAD")
    signed = repository.git("cat-file", "commit", "HEAD").replace("\n\n", "\ngpgsig x\n\n", 1)
    commit = repository.git("hash-object", "-t", "commit", "-w", "--stdin", given=signed.encode()).strip()
    repository.git("update-ref", "HEAD", commit)
    changed.write(place.folder("bin"), {"gpg": ("run", b"#!/bin/sh\ntouch ran\n")})
    configure(repository, {"log.showSignature": "true", "gpg.program": os.path.join(place.top, "bin/gpg")})
    options = options_of_the_help(place)
    for_zsh, for_fish = (changed.read_file(file_for(place, shell)).decode() for shell in ("zsh", "fish"))
    is_there = all(it in for_zsh and re.search(r" -[ls] %s " % it.lstrip("-"), for_fish) for it in options)
    if shutil.which("bash"):
        long = {it for it in options if it.startswith("--")}
        is_there = is_there and completed(place, repository, "git-select", "--") == long
        is_there = is_there and completed(place, repository, "git", "select", "--sp") == {"--split"}
        is_there = is_there and completed(place, repository, "git-select", "--fixup", "") == {commit[:7]}
        second = lacks_its_parent(repository, "ext::touch %s/ran" % repository.folder)
        is_there = is_there and completed(place, repository, "git-select", "--fixup", "") <= {second[:7]}
    is_there = is_there and all(is_read(place, shell) for shell in FILES)
    return is_there and len(options) > 10 and not os.path.exists(os.path.join(repository.folder, "ran"))


def what_is_loaded(place):
    """Without words nothing is loaded that reads them, or that takes long to load. Git is asked each thing once until the first screen."""
    repository = Repository(place, {"a": b"1\n"}, {"a": b"2\n"})
    log, program = os.path.join(place.top, "log"), os.path.join(place.prefix, "bin/git-select")
    command = ["env", "SELECT=false", "GIT_TRACE=" + log, sys.executable, "-IS", "-X", "importtime", program]
    said = place.call(*command, folder=repository.folder)[1]
    loaded = {line.rpartition("|")[2].strip() for line in said.splitlines() if line.startswith("import time:")}
    asked = re.findall("built-in: (.*)", changed.read_file(log).decode())
    is_quick = loaded.isdisjoint({"argparse", "json", "random", "secrets", "shutil", "tempfile"}) and "subprocess" in loaded
    is_read_once = sum(" cat-file " in it for it in asked) == 1
    return is_quick and is_read_once and 5 < len(asked) <= 7 and len(set(asked)) == len(asked)


ALL = (
    a_module_of_the_clone, standard_files_that_are_closed, ends_that_are_ignored, a_help_that_cannot_be_written, each_message, hostile_names,
    a_front_end_that_is_killed, a_front_end_that_leaves_no_marks, marks_of_another_length, the_message_at_the_start, what_shells_complete, what_is_loaded,
)
