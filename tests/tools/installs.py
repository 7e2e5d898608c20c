"""tools/place, which puts what is installed in place and is the script `install` of an archive, for tools/dev/try-tools. It installs
here what lies below the prefix that is tried."""
import os
import shutil
import signal
import stat
import subprocess
import sys
import time

import changed
import trying
from disks import disk, fill
from places import Repository

NOBODY = 65534
PLACE, UNINSTALL = (os.path.join(trying.ROOT, "tools", name) for name in ("place", "uninstall"))


def call(*words, **more):
    """Returns the status of a call of these scripts, and all that it wrote."""
    how = {"stdout": subprocess.PIPE, "stderr": subprocess.STDOUT, "env": {**os.environ, "DESTDIR": ""}}
    done = subprocess.run(words, **{**how, **more})
    return done.returncode, done.stdout.decode()


def seen(top):
    """Returns what lies below a folder: for each path its permissions, and its bytes or where it leads to."""
    found = {}
    for at, folders, names in os.walk(top):
        for name in [*folders, *names]:
            path = os.path.join(at, name)
            mode = os.lstat(path).st_mode
            what = None if stat.S_ISDIR(mode) else os.readlink(path) if stat.S_ISLNK(mode) else changed.read_file(path)
            found[os.path.relpath(path, top)] = stat.S_IMODE(mode), what
    return found


def size_of(top):
    return sum(os.lstat(os.path.join(at, name)).st_size for at, _, names in os.walk(top) for name in names)


def a_reinstall_on_a_full_disk(place):
    """What was installed stays as it was, and the next install works again. Skipped where no disk can be made."""
    with disk(place, 3 * size_of(place.prefix) + (1 << 20)) as folder:
        if folder is None:
            return "no disk can be made here"
        top = os.path.join(folder, "prefix")
        is_there = call(PLACE, "--from", place.prefix, top)[0] == 0
        before = seen(top)
        fill(folder, size_of(place.prefix) // 2)
        status, said = call(PLACE, "--from", place.prefix, top)
        is_left = status == 2 and "No space left on device: nothing was installed" in said and seen(top) == before
        os.unlink(os.path.join(folder, "fill"))
        is_again = call(PLACE, "--from", place.prefix, top)[0] == 0 and seen(top) == before
        is_gone = call(UNINSTALL, top)[0] == 0 and not os.path.lexists(top)
        return is_there and is_left and is_again and is_gone


def with_a_mask_of_the_user(place):
    """Others can read what is installed, whatever files the user makes otherwise."""
    top = os.path.join(place.top, "some prefix", "below")
    status, _ = call(PLACE, "--from", place.prefix, top, preexec_fn=lambda: os.umask(0o077))
    modes = {mode for mode, what in seen(os.path.dirname(top)).values() if not isinstance(what, str)}
    is_gone = call(os.path.join(top, "lib/gabrosty/uninstall"))[0] == 0
    return status == 0 and modes == {0o755, 0o644} and is_gone and not os.path.lexists(os.path.dirname(top))


def files_of_others(place):
    """They stay, also in a folder that an install made, and what an older version had goes."""
    top = place.folder("prefix", {"bin/other": b"1\n"})
    call(PLACE, "--from", place.prefix, top)
    changed.write_file(os.path.join(top, "lib/gabrosty/choosing/older.py"), b"")
    changed.write_file(os.path.join(top, "lib/other"), b"2\n")
    with open(os.path.join(top, "lib/gabrosty/installed"), "a") as file:
        file.write("lib/gabrosty/choosing/older.py\n/etc/nothing\n../nothing\n")
    is_newer = call(PLACE, "--from", place.prefix, top)[0] == 0
    is_newer = is_newer and not os.path.exists(os.path.join(top, "lib/gabrosty/choosing/older.py"))
    is_gone = call(UNINSTALL, top)[0] == 0 and changed.read(top) == {"bin/other": b"1\n", "lib/other": b"2\n"}
    return is_newer and is_gone and call(UNINSTALL, top)[0] == 1


def what_is_in_the_way(place):
    """A folder where a program is to be, or a file where a folder is: it is named, and all stays."""
    ends = []
    for path, named in (("bin/scm-select/x", "bin/scm-select is a folder"), ("share", "share is no folder")):
        top = place.folder("prefix", {path: b"1\n"})
        before = seen(top)
        status, said = call(PLACE, "--from", place.prefix, top)
        ends.append(status == 2 and named in said and "nothing was installed" in said and seen(top) == before)
    return all(ends)


def where_nothing_can_be_written(place):
    """An install stops before anything is built, also as root in a folder that takes no files."""
    ends = []
    for prefix in ("/dev/null/prefix", "/proc/x", "/proc/self/x"):
        command = [trying.ROOT / "tools/install", prefix]
        done = subprocess.run(command, capture_output=True, text=True, env={**os.environ, "DESTDIR": ""})
        is_named = "nothing can be installed below %s" % prefix in done.stderr and "Name another PREFIX, as ~/.local" in done.stderr
        ends.append((done.returncode, is_named, "step 1" in done.stderr) == (2, True, False))
    top = os.path.join(place.top, "new/prefix")
    ends.append(call(PLACE, "--try", top) == (0, "") and not os.path.lexists(os.path.dirname(top)))
    return all(ends) and call(PLACE, "")[0] == call(PLACE)[0] == call(UNINSTALL)[0] == call(UNINSTALL, "-x")[0] == 2


def an_install_that_is_stopped(place):
    """A signal while files are brought to the disk leaves all as it was."""
    source = place.folder("source", {"bin/a": b"1\n"})
    top = place.folder("prefix", {"bin/a": b"0\n"})
    # what it cannot come to the end of
    os.mkfifo(os.path.join(source, "bin/b"))
    with subprocess.Popen([sys.executable, PLACE, "--from", source, top], env={**os.environ, "DESTDIR": ""}) as process:
        until = time.monotonic() + 60
        while not [name for name in os.listdir(top) if os.path.exists(os.path.join(top, name, "new-1"))] and time.monotonic() < until:
            time.sleep(0.01)
        process.send_signal(signal.SIGTERM)
    return process.returncode == 128 + signal.SIGTERM and changed.read(top) == {"bin/a": b"0\n"} and os.listdir(top) == ["bin"]


def owned_by_another(path):
    """Makes a path another user's, with all below it."""
    for at, folders, names in os.walk(path):
        for name in ["", *folders, *names]:
            os.chown(os.path.join(at, name), NOBODY, NOBODY, follow_symlinks=False)


def a_prefix_of_another_user(place):
    """Root obeys no list of another user's, and follows no link of theirs below the prefix, to install or to remove. A link of root's in a
    folder of root's is followed. Skipped without the rights of two users."""
    if os.geteuid():
        return "that needs another user"
    outside = place.folder("outside", {"a": b"1\n", "__pycache__/b": b"2\n"})
    hostile = {"x": ("link", outside), "lib/gabrosty/y": ("link", outside), "lib/gabrosty/installed": b"x/a\nlib/gabrosty/y/\n"}
    source, top = place.folder("source", {"bin/new": b"1\n", "share/new": b"2\n"}), place.folder("prefix", hostile)
    owned_by_another(top)
    ends = [call(PLACE, "--from", source, top), call(UNINSTALL, top)]
    is_refused = [status for status, _ in ends] == [2, 1] and all("another user's" in said for _, said in ends)
    before = changed.read(outside)
    os.chown(top + "/lib/gabrosty/installed", 0, 0)
    status, said = call(UNINSTALL, top)
    is_refused = is_refused and status == 0 and changed.read(outside) == before
    changed.write(top, {"share": ("link", outside)})
    owned_by_another(top)
    status, said = call(PLACE, "--from", source, top)
    is_refused = is_refused and status == 2 and "prefix/share is no folder, or a link of another user: nothing was installed" in said
    is_refused = is_refused and changed.read(outside) == before and changed.read(top) == {"share": ("link", outside)}
    for path in top, top + "/share":
        os.chown(path, 0, 0, follow_symlinks=False)
    is_followed = call(PLACE, "--from", source, top)[0] == 0 and changed.read(outside) == {**before, "new": b"2\n"}
    return is_refused and is_followed and call(UNINSTALL, top)[0] == 0 and changed.read(outside) == before


def what_lies_above_a_prefix(place):
    """Where another folder comes to the place of one above PREFIX while it is removed, nothing is removed there."""
    if not shutil.which("strace"):
        return "there is no strace"
    source, victim = place.folder("source", {"bin/new": b"1\n"}), place.folder("victim/prefix")
    around, moved = os.path.join(place.top, "around"), os.path.join(place.top, "moved")
    is_installed = call(PLACE, "--from", source, around + "/prefix")[0] == 0
    slow = ["strace", "-f", "-o", os.devnull, "-e", "trace=unlinkat", "-e", "inject=unlinkat:delay_enter=5000000:when=1"]
    removing = subprocess.Popen([*slow, UNINSTALL, around + "/prefix"], stdout=subprocess.DEVNULL)
    time.sleep(3)
    os.rename(around, moved)
    os.symlink(os.path.dirname(victim), around)
    is_removed = removing.wait() == 0 and os.listdir(moved) == []
    return is_installed and is_removed and os.path.isdir(victim)


def a_prefix_behind_a_link(place):
    """Where others may put links, with a sticky bit or without one, one of another user leads to no PREFIX: neither the last part of its
    path, nor one before it. A link of the user's own does. Skipped without the rights of two users."""
    if os.geteuid():
        return "that needs another user"
    source, outside = place.folder("source", {"bin/new": b"1\n"}), place.folder("outside/deep", {"bin/old": b"2\n"})
    shared, there = place.folder("shared"), {"bin/old": b"2\n"}
    os.symlink(outside, shared + "/last")
    os.symlink(os.path.dirname(outside), shared + "/around")
    for name in "last", "around":
        os.chown(os.path.join(shared, name), NOBODY, NOBODY, follow_symlinks=False)
    tops, ends = [os.path.join(shared, path) for path in ("last", "last/new", "around/deep", "around/new/er")], []
    # a folder of another user, which may be in the place of one of the user's
    theirs = place.folder("shared/theirs", {"last": ("link", outside)})
    for path in theirs, theirs + "/last":
        os.chown(path, NOBODY, NOBODY, follow_symlinks=False)
    tops += [theirs + "/last", theirs + "/last/new"]
    for mode in 0o1777, 0o775, 0o757:
        os.chmod(shared, mode)
        ends += [call(*words, top) for top in tops for words in ([PLACE, "--from", source], [PLACE, "--try"], [UNINSTALL])]
    is_named = all("a link of another user is on the way to %s/" % shared in said for _, said in ends)
    is_refused = [status for status, _ in ends] == [2, 2, 1] * 18 and is_named
    is_refused = is_refused and changed.read(place.top + "/outside") == {"deep/bin/old": b"2\n"}
    os.chown(shared + "/last", 0, 0, follow_symlinks=False)
    is_followed = call(PLACE, "--from", source, shared + "/last/new")[0] == 0 and changed.read(outside + "/new")["bin/new"] == b"1\n"
    return is_refused and is_followed and call(UNINSTALL, shared + "/last/new")[0] == 0 and changed.read(outside) == there


def a_list_that_is_a_pipe(place):
    """A pipe of another user's in the place of the list is named, and nothing waits for it. Skipped without the rights of two users."""
    if os.geteuid():
        return "that needs another user"
    source, top = place.folder("source", {"bin/new": b"1\n"}), place.folder("prefix", {"lib/gabrosty/x": b"x\n"})
    os.mkfifo(os.path.join(top, "lib/gabrosty/installed"))
    owned_by_another(top)
    ends = [call(PLACE, "--from", source, top, timeout=20), call(UNINSTALL, top, timeout=20)]
    return [status for status, _ in ends] == [2, 1] and all("another user's" in said for _, said in ends)


# takes the place of tools/build: it says where it was to make the image
IMAGE = b"""#!/bin/sh
printf '%s\\n' "$3" > "$LISTED"
mkdir -p "$3/bin"
echo 1 > "$3/bin/a"
"""


def an_image_elsewhere(place):
    """Where TMPDIR is no whole path, what is installed is not made in the current folder, in which a stranger could exchange it. CDPATH
    leads to no other scripts."""
    ours = place.folder("clone/tools", {"build": ("run", IMAGE)})
    for name in "install", "place":
        shutil.copy(os.path.join(trying.ROOT, "tools", name), ours)
    # scripts of a stranger's with the same names
    planted = {"clone/tools/" + name: ("run", b"#!/bin/sh\ntouch \"$LISTED\"\n") for name in ("build", "place")}
    strange, own = place.folder("strange", planted), place.folder("own")
    top, listed = os.path.join(place.top, "prefix"), os.path.join(place.top, "listed")
    more = {"DESTDIR": "", "LISTED": listed, "TMPDIR": "own", "CDPATH": strange}
    done = subprocess.run(["clone/tools/install", "--unproved", top], cwd=place.top, env={**os.environ, **more}, capture_output=True)
    made = changed.read_file(listed)
    is_installed = done.returncode == 0 and changed.read_file(os.path.join(top, "bin/a")) == b"1\n"
    return is_installed and made.startswith(b"/tmp/") and os.listdir(own) == []


# says which library for C the module has loaded
LOADED = "import scm; print([it.split()[-1] for it in open('/proc/self/maps') if 'libgabrosty.so' in it][0])"


def what_lies_above(place):
    """What another user put into a folder above a clone, a crate or a module, as into /tmp, is neither run nor loaded nor linked. What is the
    user's own is. Skipped without the rights of two users."""
    if os.geteuid():
        return "that needs another user"
    ran, module = os.path.join(place.top, "ran"), b"import os\nopen(os.environ['RAN'], 'w')\n"
    planted = {"bin/scm-select": ("run", b"#!/bin/sh\ntouch \"$RAN\"\n"), "contextlib.py": module, "subprocess.py": module, "unproved": b"theirs\n"}
    own = {"clone/tools/select": ("run", b"#!/bin/sh\nexit 1\n"), "libscm_c.a": b"", "liblibc_c.a": b"", "crate/x": b"x\n"}
    shared = place.folder("shared", {**planted, **own, "tools/select": planted["bin/scm-select"]})
    for name in "choosing", "git-select":
        for copy in "clone/programs", "programs", "host/gabrosty", "":
            shutil.copytree(os.path.join(trying.ROOT, "programs", name), os.path.join(shared, copy, name))
    shutil.copytree(os.path.join(place.prefix, "lib/gabrosty/scm"), os.path.join(shared, "host/scm"))
    shutil.copy(os.path.join(place.prefix, "lib/libgabrosty.so.1"), shared)
    for name in "bin", "bin/scm-select", "tools", "tools/select", "contextlib.py", "subprocess.py", "unproved", "libscm_c.a", "libgabrosty.so.1":
        os.chown(os.path.join(shared, name), NOBODY, NOBODY)
    os.chmod(shared, 0o1777)
    repository = Repository(place, {"a": b"1\n"}, {"a": b"2\n"})
    end = place.call("env", "RAN=" + ran, os.path.join(shared, "clone/programs/git-select/git-select"), folder=repository.folder)
    is_run = end == (1, "git-select: nothing changed\n") and not os.path.exists(ran)
    is_run = is_run and "theirs" not in place.call(os.path.join(shared, "git-select/git-select"), "--version")[1]
    for copy in "", "programs", "host/gabrosty":
        end = place.call("env", "RAN=" + ran, os.path.join(shared, copy, "git-select/git-select"), folder=repository.folder)
        is_run = is_run and end[0] == 1 and not os.path.exists(ran)
    is_run = is_run and end == (1, "git-select: %s/bin/scm-select is another user's, and is not run\n" % shared)
    python = "env", "PYTHONPATH=%s/host" % shared, sys.executable, "-B", "-c", LOADED
    is_loaded = place.call(*python)[1] == shared + "/libgabrosty.so.1\n"
    os.chown(shared + "/host/scm/_library.py", NOBODY, NOBODY)
    is_of_same_loaded = place.call(*python)[1] == shared + "/libgabrosty.so.1\n"
    for path in "libgabrosty.so.1", "host/scm/_library.py":
        os.chown(os.path.join(shared, path), 0, 0)
    is_own_loaded = is_of_same_loaded and place.call(*python)[1] == shared + "/libgabrosty.so.1\n"
    return is_run and not is_loaded and is_own_loaded and is_linked_if_own(place, shared)


def is_linked_if_own(place, folder):
    """Whether the crate for Rust in a folder takes the libraries around it if they are the user's own, and only then."""
    program, environment = os.path.join(place.top, "build"), ["env", "PKG_CONFIG=false", "CARGO_MANIFEST_DIR=%s/crate" % folder, "PATH=/nowhere"]
    if not shutil.which("rustc"):
        return True
    place.call("rustc", "--edition=2021", "-o", program, os.path.join(trying.ROOT, "bindings/rust/build.rs"))
    ends = [place.call(*environment, program)]
    # cargo obeys no line of a text that another user put there
    os.mkdir(os.path.join(folder, "gabrosty"))
    changed.write_file(os.path.join(folder, "gabrosty/unproved"), b"words\ncargo:rustc-link-arg=/nowhere\n")
    for owners in (0, NOBODY, NOBODY), (0, 0, NOBODY), (0, 0, 0):
        for path, owner in zip(("libscm_c.a", "liblibc_c.a", "gabrosty/unproved"), owners):
            os.chown(os.path.join(folder, path), owner, owner)
        ends.append(place.call(*environment, program))
    is_led = is_led_elsewhere(place, folder, [*environment, program])
    of_own = "cargo:warning=gabrosty: words\ncargo:warning=gabrosty: cargo:rustc-link-arg=/nowhere\n"
    is_told = ["rustc-link-arg" in said for _, said in ends] == [False, False, False, True] and of_own in ends[-1][1]
    return [status for status, _ in ends] == [1, 1, 0, 0] and is_told and not is_led


def is_led_elsewhere(place, folder, command):
    """Whether a folder of another user, in the place of one on the way to what a clone builds, leads the crate to a library. It could lead to
    another one by the time of linking. A link of the user's own does."""
    built = place.folder("built/scm_c/out", {"libscm_c.a": b"", "liblibc_c.a": b""})
    os.unlink(folder + "/libscm_c.a")
    os.symlink(os.path.dirname(os.path.dirname(built)), folder + "/crates")
    ends = []
    for owner in NOBODY, 0:
        os.chown(folder + "/crates", owner, owner, follow_symlinks=False)
        ends.append(place.call(*command)[0])
    return ends != [1, 0]


def a_module_of_another(place):
    """Whatever PYTHONPATH says, no module of the current folder is read, which may be a stranger's."""
    planted = {name + ".py": b"open('ran', 'w')\n" for name in ("argparse", "contextlib", "os", "stat", "sitecustomize", "shutil", "signal")}
    folder, top, ends = place.folder("clone", planted), os.path.join(place.top, "prefix"), []
    for path in ".", "", ":":
        how = {"cwd": folder, "stdout": subprocess.DEVNULL, "env": {**os.environ, "DESTDIR": "", "PYTHONPATH": path}}
        ends += [subprocess.run(words, **how).returncode for words in ([PLACE, "--from", place.prefix, top], [UNINSTALL, top])]
    return not any(ends) and changed.read(folder) == planted and not os.path.lexists(top)


ALL = (
    a_reinstall_on_a_full_disk, with_a_mask_of_the_user, files_of_others, what_is_in_the_way, where_nothing_can_be_written,
    an_install_that_is_stopped, a_prefix_of_another_user, what_lies_above_a_prefix, a_prefix_behind_a_link, a_list_that_is_a_pipe, an_image_elsewhere,
    what_lies_above, a_module_of_another,
)
