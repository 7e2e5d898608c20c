"""child.py SOCKET: runs in a terminal. It writes to the terminal what comes by the socket, a length and so many bytes, and answers
with the cursor's row and column, counted from 0, once the terminal has read them all."""
import os
import re
import socket
import struct
import sys
import tty

POSITION = re.compile(rb"\x1b\[(\d+);(\d+)R")


def main():
    terminal = os.open("/dev/tty", os.O_RDWR)
    tty.setraw(terminal)
    asked = socket.socket(socket.AF_UNIX)
    asked.connect(sys.argv[1])
    while head := asked.recv(4, socket.MSG_WAITALL):
        length = struct.unpack("I", head)[0]
        sent = (asked.recv(length, socket.MSG_WAITALL) if length else b"") + b"\x1b[6n"
        while sent:
            sent = sent[os.write(terminal, sent):]
        answer = b""
        while not (place := POSITION.search(answer)):
            answer += os.read(terminal, 1024)
        asked.sendall(struct.pack("II", int(place[1]) - 1, int(place[2]) - 1))


main()
