#!/usr/bin/env python3
"""crates.py NAME: prints the libraries of this repository that a crate uses, and theirs, each once, the lowest first.

Other scripts have from it what crates.txt says of the crates."""
import pathlib
import re
import sys

ROOT = pathlib.Path(__file__).resolve().parents[2]
# a function takes about as long as so many bytes of proofs
BYTES_OF_FUNCTION = 2000


def read_crates(text):
    """Returns for each crate of a list its libraries of this repository, in the list's order."""
    lines = [line.split("#")[0].partition(":") for line in text.splitlines()]
    uses = {head.split()[0]: tail.split() for head, colon, tail in lines if colon}
    return {name: [it for it in names if it in uses] for name, names in uses.items()}


def below(name, uses):
    """Returns the libraries that crate `name` uses, by itself or through others."""
    found = set()
    for library in uses[name]:
        found |= {library} | below(library, uses)
    return found


def weight(name):
    """Returns about how long crate `name` takes, by the bytes of its sources and proofs and by its functions. A derive writes functions too."""
    texts = [path.read_text() for part in ("src", "proofs") for path in (ROOT / "crates" / name / part).rglob("*.*") if path.is_file()]
    functions = [len(it.split(",")) for text in texts for it in re.findall(r"\bfn\b|\bderive\([^)]*\)", text)]
    return sum(map(len, texts)) + BYTES_OF_FUNCTION * sum(functions)


def ways(names, uses):
    """Returns for each crate how long the way is from its beginning to the end of the last one above it."""
    found = {}

    def way(name):
        if name not in found:
            found[name] = weight(name) + max((way(it) for it in names if name in uses[it]), default=0)
        return found[name]

    return {name: way(name) for name in names}


def main():
    uses = read_crates((ROOT / "crates.txt").read_text())
    found = below(sys.argv[1], uses)
    for name in uses:
        if name in found:
            print(name)


if __name__ == "__main__":
    main()
