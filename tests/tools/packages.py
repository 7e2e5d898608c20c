"""The packages of tools/release, all of one image, for tools/dev/try-tools: the same again, with what shells complete, installed, upgraded and
removed by dpkg, and the crate for Rust by itself."""
import filecmp
import os
import re
import shutil
import subprocess
import tarfile
import zipfile

import changed
import trying
from archives import READER, Root, builds_a_tool, has_staged, page_of
from pages import keys_of

KINDS = {
    "archive": r"gabrosty-.*\.tar\.gz", "wheel": r"gabrosty-.*\.whl", "deb": r"gabrosty_.*\.deb", "crate": r"rust-gabrosty-.*\.tar\.gz",
}
# what shells read, by the ends of their paths
COMPLETIONS = [
    form % name for name in ("git-select", "gabrosty-merge-tool")
    for form in ("/bash-completion/completions/%s", "/_%s", "/fish/vendor_completions.d/%s.fish")
]
# lintian names what it takes for an error by this letter
ERROR = re.compile(r"^E: ", re.M)


def names_in(out):
    """Returns the names of the packages in a folder."""
    return sorted(name for name in os.listdir(out) if any(re.fullmatch(it, name) for it in KINDS.values()))


def path_of(kind, out):
    return next(os.path.join(out, name) for name in names_in(out) if re.fullmatch(KINDS[kind], name))


def are_the_same_again(out, release, folder):
    """Whether each package is the same, made again by another user: with another mask, language, time zone and home."""
    other = {"TZ": "Pacific/Auckland", "LC_ALL": "C.UTF-8", "LANG": "de_DE.UTF-8", "HOME": folder, "SOURCE_DATE_EPOCH": "1"}
    again = os.path.join(folder, "again")
    how = {"stdout": subprocess.DEVNULL, "env": {**os.environ, **other}, "preexec_fn": lambda: os.umask(0o077)}
    names = [*names_in(out), "SHA256SUMS"]
    is_made = subprocess.run([release, again], **how).returncode == 0
    return is_made and all(filecmp.cmp(os.path.join(out, it), os.path.join(again, it), shallow=False) for it in names)


def paths_in(kind, out):
    """Returns the paths of the files in a package."""
    path = path_of(kind, out)
    if kind == "wheel":
        return zipfile.ZipFile(path).namelist()
    if kind == "deb":
        return subprocess.run(["dpkg-deb", "-c", path], stdout=subprocess.PIPE, text=True, check=True).stdout.splitlines()
    with tarfile.open(path) as archive:
        return archive.getnames()


def each_has_completion(out, *_):
    """bash, zsh and fish find in each package with programs what completes the options."""
    kinds = "archive", "wheel", "deb"
    return all(any(path.endswith(end) for path in paths_in(kind, out)) for kind in kinds if kind != "deb" or shutil.which("dpkg-deb")
               for end in COMPLETIONS)


def by_the_line_of_the_readme(out, _, folder):
    """The line of the project's README installs the archive in a folder that has all packages, without the toolchain."""
    with open(trying.ROOT / "README.md") as page:
        line = re.search(r"^(tar -xzf .*?)(?:\s+#.*)?$", page.read(), re.M)[1]
    home = os.path.join(folder, "home of the readme")
    shutil.copytree(out, home)
    path = os.pathsep.join(it for it in os.environ["PATH"].split(os.pathsep) if not os.path.exists(os.path.join(it, "rt")))
    words = line + " && PATH=~/.local/bin:$PATH git select --version"
    how = {"stdout": subprocess.PIPE, "stderr": subprocess.STDOUT, "text": True, "env": {**READER, "HOME": home, "PATH": path}}
    done = subprocess.run(["sh", "-c", words], cwd=home, **how)
    is_said = re.fullmatch(r"(?:.*\n)*git-select [\d.]+\n", done.stdout)
    if done.returncode or not is_said:
        print(done.stdout)
    return done.returncode == 0 and bool(is_said)


def no_package_is_made_without_a_proof(_, unpacked, folder):
    """An image that says that nothing was proved for it makes neither a wheel nor a package for Debian."""
    image, empty = os.path.join(folder, "image without a proof"), os.path.join(folder, "empty")
    shutil.copytree(unpacked, image, symlinks=True)
    changed.write_file(os.path.join(image, "lib/gabrosty/unproved"), b"nothing was proved for this build\n")
    os.makedirs(empty)
    ends = [subprocess.run([trying.ROOT / "tools" / it, image, empty], stderr=subprocess.PIPE) for it in ("make-wheel", "make-deb")]
    return all(end.returncode == 1 and b"nothing was proved" in end.stderr for end in ends) and not os.listdir(empty)


def call_dpkg(root, *words):
    """Returns the status of a call of dpkg for the folder `root`, in which no other package is installed."""
    forced = ["--root=" + root, "--force-depends", "--force-script-chrootless", "--force-not-root"]
    done = subprocess.run(["dpkg", *forced, *words], stdout=subprocess.PIPE, stderr=subprocess.STDOUT, text=True)
    if done.returncode:
        print(done.stdout)
    return done.returncode


def older_package(unpacked, folder):
    """Makes a package of an older version, which has a file more. Returns its path."""
    image, out = os.path.join(folder, "older"), os.path.join(folder, "older package")
    shutil.copytree(unpacked, image, symlinks=True)
    header = os.path.join(image, "include/gabrosty.h")
    older = re.sub(rb'(GABRO_VERSION_TEXT )".*"', rb'\1"0.9.0"', changed.read_file(header))
    changed.write_file(header, older)
    changed.write_file(os.path.join(image, "lib/gabrosty/choosing/older.py"), b"")
    os.makedirs(out)
    subprocess.run([trying.ROOT / "tools/make-deb", image, out], stdout=subprocess.DEVNULL, check=True)
    return os.path.join(out, os.listdir(out)[0])


def files_below(root):
    """Returns the paths of all that lies below `root`, without the lists of dpkg."""
    return [os.path.relpath(os.path.join(at, it), root) for at, _, names in os.walk(root) for it in names if "/var/lib/dpkg" not in at]


def by_dpkg(out, unpacked, folder):
    """dpkg installs an older package, upgrades it and removes it, in a root folder of its own. Meanwhile a line is staged from there, by
    the keys of the archive's page. Skipped where there is no dpkg."""
    if not shutil.which("dpkg") or os.geteuid():
        return "there is no dpkg" if not shutil.which("dpkg") else "only root gives files to root"
    root = os.path.join(folder, "debian")
    for part in ("updates", "info"):
        os.makedirs(os.path.join(root, "var/lib/dpkg", part))
    changed.write(root, {"var/lib/dpkg/status": b"", "var/lib/dpkg/available": b""})
    ends = [call_dpkg(root, "--install", it) for it in (older_package(unpacked, folder), path_of("deb", out))]
    found = files_below(root)
    is_upgraded = "usr/lib/gabrosty/choosing/older.py" not in found and any("__pycache__" in it for it in found)
    user = Root([], os.path.join(folder, "user of debian"), root + "/usr/bin:" + os.environ["PATH"])
    is_staged = has_staged(user, keys_of(page_of(unpacked)))
    ends.append(call_dpkg(root, "--purge", "gabrosty"))
    left = files_below(root)
    if left or any(ends) or not (is_upgraded and is_staged):
        print(ends, is_upgraded, is_staged, left)
    return not left and not any(ends) and is_upgraded and is_staged


def lintian_finds_no_error(out, *_):
    """Skipped where there is no lintian."""
    if not shutil.which("lintian"):
        return "there is no lintian"
    command = ["lintian", *(["--allow-root"] if not os.geteuid() else []), path_of("deb", out)]
    done = subprocess.run(command, stdout=subprocess.PIPE, stderr=subprocess.STDOUT, text=True, env={**os.environ, **READER})
    print("".join("%s\n" % line for line in done.stdout.splitlines() if ERROR.match(line)), end="")
    return done.returncode in (0, 2) and not ERROR.search(done.stdout)


def the_crate_by_itself(out, _, folder):
    """A tool in Rust is built over the crate of its own package, with the library in it. Skipped where there is no cargo."""
    if not shutil.which("cargo") or not shutil.which("cc"):
        return "there is no cargo, or no C compiler that it links with"
    path = path_of("crate", out)
    subprocess.run(["tar", "-xzf", path], cwd=folder, check=True)
    unpacked = os.path.join(folder, os.path.basename(path)[: -len(".tar.gz")])
    is_whole = subprocess.run(["sha256sum", "--check", "--quiet", "SHA256SUMS"], cwd=unpacked).returncode == 0
    with open(os.path.join(unpacked, "README.md")) as page:
        names_no_clone = "../.." not in page.read()
    return is_whole and names_no_clone and builds_a_tool(os.path.join(unpacked, "plain"), folder)


ALL = (
    each_has_completion, by_the_line_of_the_readme, no_package_is_made_without_a_proof, by_dpkg, lintian_finds_no_error,
    the_crate_by_itself,
)
