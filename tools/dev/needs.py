"""The programs that the tries of the gate call, and the packages of Debian that have them, for tools/dev/check-documents: the line of
docs/GATE.md that installs these packages names each, and no other one."""
import re

# one script plants what is wrong, and the gate leaves the other one out
LEFT_OUT = "try-documents", "try-fresh"
PAGE, LINE = "docs/GATE.md", re.compile(r"^apt-get install (.*)$", re.M)
TRIES = (
    "tools/dev/try-*", "tests/tools/*.py", "tools/build", "tools/dev/build-*", "tools/dev/measure", "tools/dev/refuse-memory", "tools/dev/soak-layer", "tools/dev/compare-merges",
    "tools/dev/sweep-faults", "tests/embedding/try_*.py", "tests/terminal/try*", "tests/terminal/screens/*.py", "tests/git-select/try",
    "tests/git-select/tries/*.py",
)
# the package that has a program
PACKAGES = {
    "ar": "binutils", "c++": "g++", "cargo": "cargo", "cargo clippy": "rust-clippy", "cc": "gcc", "fish": "fish", "git": "git",
    "hg": "mercurial", "kitty": "kitty", "lintian": "lintian", "mypy": "mypy", "nm": "binutils", "pip": "python3-pip",
    "pkg-config": "pkg-config", "python3": "python3", "rustc": "rustc", "screen": "screen", "st": "stterm", "strace": "strace",
    "tmux": "tmux", "urxvt": "rxvt-unicode", "valgrind": "valgrind", "venv": "python3-venv", "xterm": "xterm", "Xvfb": "xvfb", "zsh": "zsh",
}
# what each Debian has, and the toolchain
THERE = {"bash", "dpkg", "dpkg-deb", "rt", "setpriv", "setsid", "sh"}
# how a try names a program, or a part of it as it calls that
CALLS = re.compile(
    r'shutil\.which\("([\w.+-]+)"|command -v "?([\w.+-]+)|\bneed\("([\w.+-]+)"|\$\{(?:CC|CXX|AR):-([\w.+-]+)\}|"-m", "(venv|pip)"'
    r"|\b(cargo clippy)\b|(?<=look=\()(\w+)")
# how a try names a package, or what makes up the name of one
NAMED = (
    (re.compile(r"\blibrust-[\w-]+-dev\b"), "{}"),
    (re.compile(r'(?<=version_of\(")\w+'), "{}-dev"),
    (re.compile(r'(?<=python_with\(")\w+'), "python3-{}"),
    (re.compile(r"""(?<=require_version\()["'](\w+)["'], ["']([\d.]+)"""), "gir1.2-{}-{}"),
)


def package_of(library):
    """Returns the package of a library's name: Debian puts `lib` before it, if it is not there."""
    is_library = library.endswith("-dev") and not library.startswith("lib")
    return ("lib" if is_library else "") + library.lower()


def programs_in(text):
    """Returns the programs that a try calls: by a call that looks for one, or by a word of PACKAGES in quotes."""
    called = {next(filter(None, it)) for it in CALLS.findall(text)}
    return called | {it for it in PACKAGES if re.search(r"""["']%s["']""" % re.escape(it), text)}


def packages_in(text):
    """Returns the packages that a try names, in its own way."""
    found = [(form, it) for name, form in NAMED for it in name.findall(text)]
    return {package_of(form.format(*([it] if isinstance(it, str) else it))) for form, it in found}


def wrong_packages(root):
    """Yields what is wrong with the line of docs/GATE.md, with the line's number."""
    page = (root / PAGE).read_text()
    line = LINE.search(page)
    number = page.count("\n", 0, line.start()) + 1 if line else 1
    needed = {}
    for path in sorted({it for pattern in TRIES for it in root.glob(pattern) if it.is_file() and it.name not in LEFT_OUT}):
        text, name = path.read_text(), path.relative_to(root)
        for program in programs_in(text) - THERE:
            if program not in PACKAGES:
                yield number, "it is not known which package has %s, which %s calls" % (program, name)
            needed.setdefault(PACKAGES.get(program), "%s calls %s" % (name, program))
        for package in packages_in(text):
            needed.setdefault(package, "%s names it" % name)
    installed = set(line[1].split()) if line else set()
    for package in sorted(set(filter(None, needed)) - installed):
        yield number, "the line of apt-get lacks %s: %s" % (package, needed[package])
    for package in sorted(installed - set(needed)):
        yield number, "no try needs %s, which the line of apt-get has" % package
