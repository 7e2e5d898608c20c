"""An archive of tools/release, unpacked and used where there is little else, with its crate for Rust, and the wheel of the same image, for
tools/dev/try-tools."""
import os
import re
import shutil
import subprocess
import sys
import sysconfig
import tempfile

import changed
import trying
from apart import SETTINGS
from pages import READER, SIZES, keys_of
from typed import Typed

# parts of Python that no program of the archive uses
NOT_NEEDED = shutil.ignore_patterns("test", "tests", "site-packages", "idlelib", "tkinter", "ensurepip", "__pycache__", "config-*", "*.a")
OLD, NEW = b"one\ntwo\n", b"one\nTWO\nthree\n"


class Root:
    """A root folder for programs, which have no other variables than these: `head` is before each command."""

    def __init__(self, head, top, path):
        self.head, self.top = head, top
        self.path = path
        self.work = os.path.join(top, "work")
        os.makedirs(self.work, exist_ok=True)

    def inside(self, path):
        """Returns the name by which the programs know a path below the root."""
        return path if not self.head else "/" + os.path.relpath(path, self.top)

    def command(self, words):
        variables = {**READER, "PATH": self.path, "HOME": self.inside(self.work), "PYTHONDONTWRITEBYTECODE": "1"}
        return [*self.head, "/usr/bin/env", "-i", *("%s=%s" % it for it in variables.items()), *words]

    def run(self, *words):
        return subprocess.run(self.command(words), stdout=subprocess.PIPE, stderr=subprocess.STDOUT, cwd=self.work)

    def type(self, words, keys):
        typed = Typed(self.command(words), *SIZES[0], folder=self.work)
        for key in keys:
            typed.press(key)
        return typed.end(), typed.said()


def page_of(unpacked):
    """Returns the page of the archive that is unpacked there."""
    with open(os.path.join(unpacked, "README.md")) as file:
        return file.read()


def stages_a_line(root, unpacked):
    """Whether the page of the archive is true in a root folder: installed, a line is staged, and all is taken back."""
    prefix = os.path.join(root.work, "prefix")
    done = root.run(root.inside(os.path.join(unpacked, "install")), root.inside(prefix))
    if done.returncode or b"install: " in done.stdout:
        print(done.stdout.decode(), end="")
        return False
    before, root.path = root.path, root.inside(prefix) + "/bin:" + root.path
    is_staged = has_staged(root, keys_of(page_of(unpacked)))
    root.path = before
    is_gone = root.run(root.inside(os.path.join(prefix, "lib/gabrosty/uninstall"))).returncode == 0 and not os.path.exists(prefix)
    return is_staged and is_gone


def has_staged(root, keys):
    """Whether a user of `git select` on the path stages a line in a new repository, by the keys of the page."""
    repository = os.path.join(root.work, "repository")
    os.makedirs(repository)
    text, here = os.path.join(repository, "text"), ["git", "-C", root.inside(repository)]
    root.run(*here, "init", "--quiet")
    changed.write_file(text, OLD)
    root.run(*here, "add", "text")
    root.run(*here, "commit", "--quiet", "--message", "First")
    changed.write_file(text, NEW)
    status, said = root.type([*here, "select"], keys)
    found = root.run(*here, "diff", "--cached", "--unified=0").stdout.decode().splitlines()[4:]
    is_staged = status == 0 and said.endswith("staged: text\n") and found == ["@@ -2,0 +3 @@ two", "+three"]
    if not is_staged:
        print(said, found)
    return is_staged


def in_a_bare_folder(unpacked, folder):
    """The path has git and Python alone."""
    programs = os.path.join(folder, "programs")
    os.makedirs(programs)
    os.symlink(shutil.which("git"), os.path.join(programs, "git"))
    os.symlink(os.path.realpath(sys.executable), os.path.join(programs, "python3"))
    return stages_a_line(Root([], os.path.join(folder, "bare"), programs), unpacked)


def libraries_of(program):
    """Returns the paths of what a program is linked with."""
    said = subprocess.run(["ldd", program], stdout=subprocess.PIPE, stderr=subprocess.DEVNULL, text=True).stdout
    return re.findall(r"(/\S+) \(0x", said)


def bring(top, path):
    """Copies a file to the same place below `top`, with all that it is linked with."""
    for name in (path, *libraries_of(path)):
        target = top + name
        if not os.path.exists(target):
            os.makedirs(os.path.dirname(target), exist_ok=True)
            shutil.copy(name, target)


def make_root(top):
    """Fills a root folder with git, Python, env and a shell, and with nothing else. Returns why that cannot be done, or None."""
    if os.geteuid():
        return "only root changes the root folder"
    for name in ("chroot", "ldd", "mknod"):
        if not shutil.which(name):
            return "there is no " + name
    python = os.path.realpath(sys.executable)
    for path in (shutil.which("git"), "/usr/bin/env", "/bin/sh", python):
        bring(top, path)
    for name in {sysconfig.get_path(name) for name in ("stdlib", "platstdlib")}:
        shutil.copytree(name, top + name, ignore=NOT_NEEDED, dirs_exist_ok=True)
    for at, _, names in os.walk(sysconfig.get_path("platstdlib") + "/lib-dynload"):
        for name in names:
            bring(top, os.path.join(at, name))
    os.makedirs(top + "/programs")
    os.symlink(python, top + "/programs/python3")
    os.symlink(shutil.which("git"), top + "/programs/git")
    for name in ("dev", "tmp"):
        os.makedirs(os.path.join(top, name), exist_ok=True)
    for name, numbers in (("null", "1 3"), ("urandom", "1 9"), ("tty", "5 0")):
        path = os.path.join(top, "dev", name)
        if subprocess.run(["mknod", "-m", "666", path, "c", *numbers.split()], stderr=subprocess.DEVNULL).returncode:
            return "no device can be made"
    with_null = ["chroot", top, "/programs/python3", "-c", "import argparse, hashlib, json, zlib; open('/dev/null', 'w')"]
    return None if subprocess.run(with_null, stderr=subprocess.DEVNULL).returncode == 0 else "Python does not run in another root folder"


def in_an_empty_root(unpacked, folder):
    """A root folder has git, Python and a shell, and what these are linked with, alone. Skipped where none can be made."""
    top = os.path.join(folder, "root")
    reason = make_root(top)
    if reason:
        return reason
    shutil.copytree(unpacked, top + "/archive", symlinks=True)
    return stages_a_line(Root(["chroot", top], top, "/programs"), top + "/archive")


def by_its_page(unpacked, archive, folder, path):
    """Does what README.md of the archive says, on terminals of two sizes."""
    return all([is_true_on(size, page_of(unpacked), archive, folder, path) for size in SIZES])


def is_true_on(size, page, archive, folder, path):
    """Whether what `page` says is true in a folder that has the archive alone, where there is no toolchain, on a terminal of `size`."""
    home = os.path.join(folder, "home-%d" % size[0])
    os.makedirs(home)
    shutil.copy(archive, home)
    blocks = re.findall(r"^```sh\n(.*?)^```$", page.partition("## From C")[0], re.M | re.S)
    # the shell reads the lines of a file, as the terminal is the front end's
    script = os.path.join(home, "script")
    changed.write_file(script, ("set -e\ncd ~\n" + "".join(blocks)).encode())
    variables = {**READER, "PATH": path, "HOME": home, "TMPDIR": folder}
    typed = Typed(["env", "-i", *("%s=%s" % it for it in variables.items()), "sh", script], *size)
    for key in keys_of(page):
        typed.press(key)
    status, said = typed.end(), typed.said()
    diff = subprocess.run(["git", "-C", home + "/first", "diff", "--cached", "--numstat"], stdout=subprocess.PIPE, text=True)
    return len(blocks) == 2 and status == 0 and said.endswith("staged: text\n") and diff.stdout == "1\t0\ttext\n"


def names_of_its_page(unpacked):
    """Whether each file that the table of README.md names is there."""
    table = page_of(unpacked).partition("## What is here")[2]
    cells = [line.split("|")[1] for line in table.splitlines() if line.startswith("| `")]
    names = [name for cell in cells for name in re.findall(r"`([^`]+)`", cell)]
    return len(names) > 10 and all(os.path.exists(os.path.join(unpacked, name)) for name in names)


def from_c_by_its_page(unpacked, folder):
    """Links a program by the lines of the page, after the install that they name, and once more without a shared library, and starts both.
    Skipped where there is no C compiler or no pkg-config."""
    if not shutil.which("cc") or not shutil.which("pkg-config"):
        return "there is no cc or no pkg-config"
    home = os.path.join(folder, "home-for-c")
    os.makedirs(home)
    changed.write(home, {"old": OLD, "new": NEW})
    shutil.copy(trying.ROOT / "examples/c/split.c", os.path.join(home, "tool.c"))
    section = page_of(unpacked).partition("## From C")[2].partition("\n## ")[0]
    lines = re.search(r"^```sh\n(.*?)^```$", section, re.M | re.S)[1]
    static = re.search(r"`(cc -static [^`]*)`", section)[1]
    run = './tool old new "a c" | cmp - new\nrm tool\n'
    script = "set -e\n%s ~/.local > /dev/null\n" % os.path.join(unpacked, "install") + lines + run
    if os.path.exists(os.path.join(unpacked, "share/gabrosty/scm-select")):
        script += static + "\n" + run
    variables = {"HOME": home, "PATH": os.environ["PATH"]}
    return subprocess.run(["sh", "-c", script], cwd=home, env=variables).returncode == 0


def with_the_crate(unpacked, folder):
    """Builds a tool in Rust over the archive's crate by one line of its Cargo.toml, with neither the network nor the toolchain, and runs
    it. Skipped where there is no cargo."""
    if not shutil.which("cargo") or not shutil.which("cc"):
        return "there is no cargo, or no C compiler that it links with"
    return builds_a_tool(os.path.join(unpacked, "lib/gabrosty/rust/plain"), folder)


def builds_a_tool(crate, folder):
    """Whether a tool in Rust, in a new folder of `folder`, builds over the crate and runs."""
    tool = tempfile.mkdtemp(dir=folder)
    os.makedirs(os.path.join(tool, "src"))
    changed.write_file(os.path.join(tool, "Cargo.toml"), (MANIFEST % crate).encode())
    changed.write_file(os.path.join(tool, "src/main.rs"), TOOL.encode())
    # cargo may be a program that finds the one to start by the home folder; rt is not on the path of what it builds
    programs = os.path.join(tool, "programs")
    os.makedirs(programs)
    for name in ("cargo", "rustc", "cc", "ld", "ar"):
        if shutil.which(name):
            os.symlink(shutil.which(name), os.path.join(programs, name))
    variables = {"PATH": programs, "HOME": os.environ.get("HOME", folder), "CARGO_TARGET_DIR": os.path.join(tool, "target")}
    variables.update((name, os.environ[name]) for name in ("CARGO_HOME", "RUSTUP_HOME", "RUSTUP_TOOLCHAIN") if name in os.environ)
    how = {"stdout": subprocess.PIPE, "stderr": subprocess.PIPE, "text": True, "env": variables, "cwd": tool}
    done = subprocess.run([os.path.join(programs, "cargo"), "run", "--quiet", "--offline"], **how)
    if (done.returncode, done.stdout) != (0, "new\n"):
        print(done.stdout, done.stderr)
    return (done.returncode, done.stdout) == (0, "new\n")


# a tool over the crate for Rust: what is accepted of a new line
MANIFEST = """[package]
name = "tool"
version = "0.1.0"
edition = "2021"

[dependencies]
scm-record = { package = "gabrosty", path = "%s" }

[workspace]
"""
TOOL = """use scm_record::helpers::TestingInput;
use scm_record::{ChangeType, Event, File, FileMode, RecordError, RecordState, Recorder, Section, SectionChangedLine, SelectedContents};
use std::{borrow::Cow, path::Path};

fn main() -> Result<(), RecordError> {
    let line = SectionChangedLine { is_checked: false, change_type: ChangeType::Added, line: Cow::Borrowed("new") };
    let sections = vec![Section::Changed { lines: vec![line] }];
    let file = File { old_path: None, path: Cow::Borrowed(Path::new("text")), file_mode: FileMode::FILE_DEFAULT, sections };
    let state = RecordState { files: vec![file], ..RecordState::default() };
    let accepted = Recorder::new(state, &mut TestingInput::new(80, 24, [Event::ToggleAll, Event::QuitAccept])).run()?;
    if let SelectedContents::Text { contents } = accepted.files[0].get_selected_contents().0.contents {
        println!("{contents}");
    }
    Ok(())
}
"""

# what the module of a wheel is asked, and what it answers
SPLIT = """
import scm

with scm.Session() as session:
    session.add_texts("text", b"one\\n", b"\\xff\\n")
    session.begin(80, 24)
    session.press_all("a c")
    print(session.end, session.side_bytes(0), scm.library._name)
"""
# programs over the module: one with the types of it, and one with another type
TYPED = """import pathlib

import scm


def accepted(old: bytes, new: bytes) -> bytes:
    with scm.Session() as session:
        session.add_texts(pathlib.Path("text"), old, new)
        session.begin_layer(80, 24)
        session.start(scm.Folds.ALL_OPEN, scm.Key(0, 0, scm.NO_INDEX, scm.NO_INDEX))
        stage: scm.Stage = session.stage
        session.press(*["a", "c"] if stage == scm.WAITING else [])
        return session.side_bytes(0)


print(accepted(b"one\\n", b"two\\n"))
"""
WITH_ANOTHER_TYPE = """import scm

print(scm.Session().side_bytes("text"))
"""


class Wheel:
    """A wheel in a virtual environment, with what runs there."""

    def __init__(self, path, environment, folder):
        self.path, self.folder = path, folder
        self.python = os.path.join(environment, "bin/python")
        self.variables = {**SETTINGS, "PATH": environment + "/bin:" + os.environ["PATH"], "HOME": folder}

    def run(self, *words, **variables):
        """Runs a program. Returns its status, and what it says."""
        how = {"stdout": subprocess.PIPE, "stderr": subprocess.STDOUT, "text": True, "cwd": self.folder}
        done = subprocess.run(words, env={**self.variables, **variables}, **how)
        return done.returncode, done.stdout

    def install(self, *words):
        """Installs it without the network. Returns whether that is done."""
        status, said = self.run(self.python, "-m", "pip", "install", "--quiet", "--no-index", "--disable-pip-version-check", *words, self.path)
        if status:
            print(said)
        return status == 0


def is_for_this_library(wheel):
    """Whether the name of a wheel says that it is for the GNU C Library of this system, if the system has that, or an older one."""
    library = os.confstr("CS_GNU_LIBC_VERSION") if "CS_GNU_LIBC_VERSION" in os.confstr_names else None
    named = re.search(r"-manylinux_(\d+)_(\d+)_\w+\.whl$", wheel.path)
    if not library:
        return not named
    return named is not None and (2, 5) <= tuple(map(int, named.groups())) <= tuple(map(int, library.split()[1].split(".")[:2]))


def has_module_and_programs(wheel, environment):
    """Whether the module in a virtual environment has its library, and the programs run."""
    said = wheel.run(wheel.python, "-c", SPLIT)[1]
    names = "git-select", "gabrosty-diff-editor", "gabrosty-merge-tool", "scm-select"
    versions = [wheel.run(name, "--version")[1] for name in names]
    is_split = said.startswith("accepted b'\\xff\\n' " + environment)
    has_programs = all(version.startswith(name + " ") for name, version in zip(names, versions))
    if not (is_split and has_programs):
        print(said, versions)
    return is_split and has_programs and wheel.run("git", "select", "-h")[1].startswith("usage: git-select")


def runs_no_module_of_a_clone(wheel):
    """Whether the programs start without the modules of the current folder, whatever PYTHONPATH says."""
    planted = [os.path.join(wheel.folder, name + ".py") for name in ("encodings", "os", "sitecustomize", "json")]
    for path in planted:
        changed.write_file(path, b"import builtins\nbuiltins.open('ran', 'w')\n")
    names = "git-select", "gabrosty-diff-editor"
    ends = [wheel.run(name, "--version", PYTHONPATH=path)[0] for name in names for path in ("", ":", ".")]
    is_well = not any(ends) and not os.path.exists(os.path.join(wheel.folder, "ran"))
    for path in planted:
        os.unlink(path)
    return is_well


def has_types(wheel):
    """Whether mypy takes a program with the types of the module, and no other one. True where there is no mypy."""
    if not shutil.which("mypy"):
        print("skipped: the types of the module in a wheel, as there is no mypy")
        return True
    ends = []
    for text in (TYPED, WITH_ANOTHER_TYPE):
        program = os.path.join(wheel.folder, "program.py")
        changed.write_file(program, text.encode())
        ends.append(wheel.run("mypy", "--strict", "--python-executable", wheel.python, program))
    run = wheel.run(wheel.python, "-c", TYPED)
    is_well = ends[0][0] == 0 and ends[1][0] == 1 and "Argument 1 to \"side_bytes\"" in ends[1][1] and run == (0, "b'two\\n'\n")
    if not is_well:
        print(ends, run)
    return is_well


def in_a_folder(wheel):
    """Whether the module and the programs are in a folder of their own, by `pip install --target`, and a line is staged from there."""
    target = os.path.join(wheel.folder, "target")
    if not wheel.install("--target", target):
        return False
    said = wheel.run(wheel.python, "-c", SPLIT, PYTHONPATH=target)[1]
    root = Root([], os.path.join(wheel.folder, "in-target"), target + "/bin:" + os.environ["PATH"])
    keys = keys_of((trying.ROOT / "tools/archive.md").read_text())
    return said.startswith("accepted b'\\xff\\n' " + target) and has_staged(root, keys)


def in_a_new_environment(path, folder):
    """Installs the wheel at `path` by pip, without the network: the module has its library and its types, and the programs run, also in
    a folder of their own. Skipped where there is no pip."""
    environment = os.path.join(folder, "environment")
    if subprocess.run([sys.executable, "-m", "venv", environment], stdout=subprocess.DEVNULL).returncode:
        return "no virtual environment can be made here"
    wheel = Wheel(path, environment, folder)
    is_in_folder = in_a_folder(wheel)
    is_installed = wheel.install() and has_module_and_programs(wheel, environment) and runs_no_module_of_a_clone(wheel)
    return is_in_folder and is_installed and is_for_this_library(wheel) and has_types(wheel)
