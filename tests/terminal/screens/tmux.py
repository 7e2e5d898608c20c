"""tmux, with a server of its own."""
import os
import re
import subprocess
import time

from .common import ENVIRONMENT, Absent, first_line, need

NAME = "tmux"
SECONDS = 20


def version():
    said = first_line(need("tmux"), "-V")
    found = re.match(r"tmux (?:next-)?(\d+)", said)
    if not found or int(found[1]) < 3:
        raise Absent("there is no tmux of 3.0 or newer")
    return said


class Tmux:
    """A server of its own, with a window that shows what is written to a pipe, and keeps what is typed in a file."""

    def __init__(self, folder):
        self.folder = folder
        self.count = 0
        self.words = ["tmux", "-u", "-S", os.path.join(folder, "socket"), "-f", os.devnull]
        self.size = None

    def run(self, *words):
        return subprocess.run([*self.words, *words], stdout=subprocess.PIPE, env=ENVIRONMENT, check=True).stdout

    def open(self, size):
        """Gives the window a size, and opens it first."""
        if self.size is None:
            shown, typed = (os.path.join(self.folder, name) for name in ("shown", "typed"))
            os.mkfifo(shown)
            command = "stty raw -echo; cat < /dev/tty > '%s' & exec cat '%s'" % (typed, shown)
            settings = ["set", "-g", "status", "off", ";", "set", "-s", "escape-time", "0", ";", "set", "-s", "set-clipboard", "on", ";"]
            self.run("start-server", ";", *settings, "new-session", "-d", "-x", str(size[0]), "-y", str(size[1]), command)
            self.pipe = open(shown, "wb", buffering=0)
        else:
            self.run("resize-window", "-x", str(size[0]), "-y", str(size[1]))
        self.size = size

    def wait(self, is_done):
        end = time.monotonic() + SECONDS
        while not is_done():
            if time.monotonic() > end:
                raise TimeoutError("tmux does not come to what is asked for")
            time.sleep(0.002)

    def show(self, sent):
        """Writes bytes, and a path behind them (which is no part of the screen), and waits until tmux has read both."""
        self.count += 1
        path = "/shown/%d" % self.count
        self.pipe.write(sent + b"\x1b]7;" + path.encode() + b"\x1b\\")
        self.wait(lambda: self.run("display", "-p", "#{pane_path}").decode().strip() == path)

    def captured(self, *words):
        """The rows that it shows; `-e` adds the styles, as escape sequences."""
        return self.run("capture-pane", "-p", "-N", *words).decode()

    def sent_by(self, *words):
        """What a command makes it send to the program in the window, with a mark behind it."""
        path = os.path.join(self.folder, "typed")
        begun = os.path.getsize(path)
        self.run(*words, ";", "send-keys", "-H", "0")
        self.wait(lambda: open(path, "rb").read()[begun:].endswith(b"\0"))
        return open(path, "rb").read()[begun:-1]

    def close(self):
        if self.size is not None:
            self.run("kill-server")
            self.pipe.close()


class Window(Tmux):
    """A window of this size, as the other terminals are one."""

    def __init__(self, folder, width, height):
        super().__init__(folder)
        self.open((width, height))

    def show(self, sent):
        super().show(sent)
        row, column = self.run("display", "-p", "#{cursor_y} #{cursor_x}").split()
        return int(row), int(column)

    def rows(self):
        return self.captured().split("\n")[:-1]


open_terminal = Window
