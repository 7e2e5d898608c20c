"""pyte_stream.py WIDTH HEIGHT: pyte as an emulator."""
import sys

import pyte

BETWEEN = "\x1f"


def main():
    width, height = map(int, sys.argv[1:])
    screen = pyte.Screen(width, height)
    stream = pyte.ByteStream(screen)
    while line := sys.stdin.buffer.readline():
        stream.feed(sys.stdin.buffer.read(int(line)))
        print(screen.cursor.y, screen.cursor.x)
        for row in range(height):
            print(BETWEEN.join(screen.buffer[row][column].data for column in range(width)))
        sys.stdout.flush()


main()
