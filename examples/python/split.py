#!/usr/bin/env python3
"""split.py OLD NEW [WORDS]: prints OLD with the changes to NEW that the user chooses, or that the words of keys do."""
import os
import sys

import scm


def read(path: str) -> bytes:
    with open(path, "rb") as file:
        return file.read()


def main() -> None:
    if len(sys.argv) < 3:
        sys.exit("usage: split.py OLD NEW [WORDS]")
    old, new = map(read, sys.argv[1:3])
    with scm.Session() as session:
        session.add_texts(os.path.basename(sys.argv[2]), old, new)
        session.begin(80, 24)
        if sys.argv[3:]:
            session.press(*sys.argv[3].split())
        else:
            session.run(title="split")
        if session.stage != scm.ACCEPTED:
            sys.exit(1)
        sys.stdout.buffer.write(session.side_bytes(0))


main()
