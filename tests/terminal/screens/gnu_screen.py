"""GNU screen. It writes a hard copy of its window to a file, in which only ASCII can be read."""
import fcntl
import getpass
import os
import pty
import struct
import termios
import threading

from .common import Absent, Window, first_line, need, whole_lines

NAME = "GNU screen"


def version():
    if getpass.getuser() == "nobody":
        raise Absent("it gives the user nobody no rights")
    return first_line(need("screen"), "--version")


def drain(terminal):
    """Reads what screen draws, which nobody looks at."""
    try:
        while os.read(terminal, 65536):
            pass
    except OSError:
        pass


class GnuScreen(Window):
    def __init__(self, folder, width, height):
        self.folder, self.height = folder, height
        settings = os.path.join(folder, "screenrc")
        with open(settings, "w") as file:
            file.write("startup_message off\ndefutf8 on\nhardcopydir %s\nmsgwait 0\ndefhstatus ''\nhardstatus ignore\n" % folder)
        self.terminal, inner = pty.openpty()
        fcntl.ioctl(inner, termios.TIOCSWINSZ, struct.pack("HHHH", height, width, 0, 0))
        threading.Thread(target=drain, args=[self.terminal], daemon=True).start()
        # setsid and the redirection give screen the terminal that it is to be shown on
        need("setsid")
        attach = 'exec setsid -c -w "$@" < "$0" > "$0" 2>&1'
        words = [need("sh"), "-c", attach, os.ttyname(inner), need("screen"), "-U", "-c", settings]
        super().__init__(words, folder, {"TERM": "xterm-256color", "SCREENDIR": os.path.join(folder, "sockets")})
        os.close(inner)

    def rows(self):
        path = os.path.join(self.folder, "hardcopy.0")
        if os.path.exists(path):
            os.remove(path)
        # its key for a hard copy
        os.write(self.terminal, b"\x01h")
        # one byte for each column, of a symbol that is not ASCII a byte that says nothing
        rows = whole_lines(path, self.height)
        return [[chr(byte) if byte < 127 else "\ufffd" for byte in row] for row in rows]

    def close(self):
        self.child.close()
        self.process.wait()
        os.close(self.terminal)


open_terminal = GnuScreen
