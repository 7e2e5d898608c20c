"""Runs in kitty's own Python, with the words WIDTH HEIGHT: kitty's screen as an emulator."""
import sys

from kitty.fast_data_types import Screen, parse_bytes

BETWEEN = "\x1f"


def cell(line, column):
    """What a cell shows. A column that a symbol before it covers has the width 0."""
    return line[column] if line.width(column) else ""


def main():
    width, height = map(int, sys.argv[-2:])
    screen = Screen(None, height, width, 0)
    while line := sys.stdin.buffer.readline():
        parse_bytes(screen, sys.stdin.buffer.read(int(line)))
        print(screen.cursor.y, screen.cursor.x)
        for row in range(height):
            print(BETWEEN.join(cell(screen.line(row), column).replace("\0", " ") for column in range(width)))
        sys.stdout.flush()


main()
