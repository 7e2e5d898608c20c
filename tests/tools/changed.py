"""Files before and after a change, for tools/dev/try-tools: each case is two tables, by path, of what a file is. That is its
bytes, or ("link", its target), or ("run", the bytes of an executable file)."""
import os
import shutil
import stat

NUMBERS = b"".join(b"%d\n" % number for number in range(1, 10))
MARKER = b"\\ No newline at end of file"
# the two before the last would be shown alike if a backslash were not doubled
NAMES = "with space", 'with "quotes"', "it's", "\udcff\t\n\\", "日本", "\udcff", "\\xff", "-x"

CASES = {
    "text edits": ({"a.txt": NUMBERS}, {"a.txt": b"0\n" + NUMBERS.replace(b"4\n", b"").replace(b"7\n", b"seven\nand\n")}),
    "a new file": ({"a": b"1\n"}, {"a": b"1\n", "b/c": b"2\n3\n"}),
    "an empty new file": ({"a": b"1\n"}, {"a": b"1\n", "b": b""}),
    "a file that is gone": ({"a": b"1\n", "b/c": b"2\n3\n"}, {"a": b"1\n"}),
    "a renamed file": ({"a": NUMBERS}, {"b": NUMBERS + b"10\n"}),
    "an executable file": ({"a": b"1\n", "b": ("run", b"2\n")}, {"a": ("run", b"1\n"), "b": b"2\n3\n"}),
    "a link": ({"a": ("link", "b"), "b": b"1\n"}, {"a": ("link", "/nowhere"), "b": b"1\n"}),
    "a file that becomes a link": ({"a": b"1\n", "b": ("link", "a")}, {"a": ("link", "b"), "b": b"2\n"}),
    "a link to a folder": ({"a/b": b"1\n"}, {"a/b": b"1\n2\n", "c": ("link", "a")}),
    "bytes": ({"a": b"\0\1", "b": b"\0", "c": b"text\n"}, {"a": b"\0\2", "c": b"\xff\n", "d": b"\0"}),
    "no line end": ({"a": b"1\n2", "b": b"1\n2\n", "c": b"1"}, {"a": b"1\n2\n", "b": b"0\n2", "c": b""}),
    "bytes of Latin-1": ({"a": b"caf\xe9\n1\n2", "b": b"\xff", "c": b"\xc3\xa4\n"}, {"a": b"caf\xe8\n1\n2\n", "b": b"\xfe\n", "c": b"\xe4\n"}),
    "lines like git's marker": ({"a": b"1\n" + MARKER + b"\n2", "b": MARKER}, {"a": b"0\n" + MARKER + b"\n2\n", "b": b"", "c": MARKER}),
    "CR alone": ({"a": b"1\r2\r3", "b": b""}, {"a": b"1\r2\n3\r", "b": b"\r", "c": b""}),
    "CR and LF": ({"a": b"1\r\n2\r\n3\r\n", "b": b"1\n2\n"}, {"a": b"1\r\ntwo\r\n3\r\n", "b": b"1\r\n2\n"}),
    "names": tuple(dict.fromkeys(NAMES, data) for data in (b"1\n", b"2\n")),
    "a folder that becomes a file": ({"a/b": b"1\n", "a/c": b"2\n"}, {"a": b"3\n"}),
    "a file that becomes a folder": ({"a": b"1\n"}, {"a/b": b"2\n", "a/c": b"3\n"}),
}
# cases of which one change cannot be had without another
NEED_ONE_ANOTHER = "a folder that becomes a file", "a file that becomes a folder"


def write(folder, files):
    """Has `folder` hold these files, and no others but `.git`."""
    for name in os.listdir(folder):
        path = os.path.join(folder, name)
        if name != ".git":
            shutil.rmtree(path) if os.path.isdir(path) and not os.path.islink(path) else os.unlink(path)
    for path, what in files.items():
        path = os.path.join(folder, path)
        os.makedirs(os.path.dirname(path), exist_ok=True)
        kind, data = what if isinstance(what, tuple) else ("file", what)
        if kind == "link":
            os.symlink(data, path)
            continue
        write_file(path, data)
        os.chmod(path, 0o755 if kind == "run" else 0o644)


def write_file(path, data):
    with open(path, "wb") as file:
        file.write(data)


def read(folder):
    """Returns the table of the files of `folder`, without those of `.git`."""
    found = {}
    for at, folders, names in os.walk(folder):
        folders[:] = [name for name in folders if name != ".git"]
        for name in [*names, *(name for name in folders if os.path.islink(os.path.join(at, name)))]:
            if name != ".git":
                path = os.path.join(at, name)
                found[os.path.relpath(path, folder)] = read_file(path)
    return found


def read_file(path):
    mode = os.lstat(path).st_mode
    if stat.S_ISLNK(mode):
        return "link", os.readlink(path)
    with open(path, "rb") as file:
        data = file.read()
    return ("run", data) if mode & 0o100 else data
