"""What terminals share: an emulator is a program that keeps a screen in memory, a window is a program that shows one."""
import os
import re
import shutil
import socket
import struct
import subprocess
import sys
import threading
import time

HERE = os.path.dirname(os.path.abspath(__file__))
ENVIRONMENT = {**os.environ, "LC_ALL": "C.UTF-8", "SHELL": "/bin/sh"}
SECONDS = 60
# between the cells of a row that an emulator prints
BETWEEN = "\x1f"


class Absent(Exception):
    """A terminal that is not installed. The words say what is missing."""


def need(program):
    """Returns the path of a program."""
    path = shutil.which(program)
    if not path:
        raise Absent("there is no %s" % program)
    return path


def first_line(*words):
    """The first line that a program prints."""
    done = subprocess.run(words, stdout=subprocess.PIPE, stderr=subprocess.STDOUT, stdin=subprocess.DEVNULL, env=ENVIRONMENT)
    return done.stdout.decode(errors="replace").strip().split("\n")[0]


def python_with(*modules):
    """Returns the path of a Python that has these modules: this one, or that of the system."""
    for python in (sys.executable, "/usr/bin/python3"):
        if os.path.exists(python) and not subprocess.run([python, "-c", "import " + ", ".join(modules)], capture_output=True).returncode:
            return python
    raise Absent("there is no Python with %s" % ", ".join(modules))


def compiled(source, folder, library):
    """Returns the path of a program in C over a library that pkg-config knows."""
    found = subprocess.run([need("pkg-config"), "--cflags", "--libs", library], capture_output=True, text=True)
    if found.returncode:
        raise Absent("there is no " + library)
    made = os.path.join(folder, source[:-2])
    compiler, *words = (os.environ.get("CC") or "cc").split()
    subprocess.run([need(compiler), *words, "-O1", os.path.join(HERE, source), *found.stdout.split(), "-o", made], check=True)
    return made


def version_of(library):
    found = subprocess.run([need("pkg-config"), "--modversion", library], capture_output=True, text=True)
    if found.returncode:
        raise Absent("there is no " + library)
    return found.stdout.strip()


class Emulator:
    """A program that reads a length, a line feed and so many bytes, and prints a line `ROW COLUMN` of its cursor and a line for each
    row, its cells with BETWEEN between them; and so on. Its last two words are its width and height."""

    def __init__(self, command, width, height):
        self.height = height
        self.process = subprocess.Popen([*command, str(width), str(height)], stdin=subprocess.PIPE, stdout=subprocess.PIPE, env=ENVIRONMENT)
        self.shown = []

    def show(self, sent):
        self.process.stdin.write(b"%d\n%s" % (len(sent), sent))
        self.process.stdin.flush()
        cursor = tuple(map(int, self.process.stdout.readline().split()))
        lines = [self.process.stdout.readline().decode(errors="replace")[:-1] for _ in range(self.height)]
        self.shown = [line.split(BETWEEN) for line in lines]
        return cursor

    def rows(self):
        return self.shown

    def close(self):
        self.process.stdin.close()
        self.process.wait()
        self.process.stdout.close()


class Window:
    """A terminal that runs a command: `words` and behind them the words of `child.py`, which writes what comes by a socket."""

    def __init__(self, words, folder, environment=None):
        path = os.path.join(folder, "socket")
        listener = socket.socket(socket.AF_UNIX)
        listener.bind(path)
        listener.listen()
        listener.settimeout(SECONDS)
        self.process = subprocess.Popen(
            [*words, sys.executable, os.path.join(HERE, "child.py"), path], env={**ENVIRONMENT, **(environment or {})},
            stdin=subprocess.DEVNULL, stdout=subprocess.DEVNULL, stderr=subprocess.DEVNULL)
        try:
            self.child = listener.accept()[0]
        except OSError:
            self.process.kill()
            raise Absent("%s does not begin" % words[0]) from None
        finally:
            listener.close()
        self.child.settimeout(SECONDS)

    def show(self, sent):
        self.child.sendall(struct.pack("I", len(sent)) + sent)
        self.cursor = struct.unpack("II", self.child.recv(8, socket.MSG_WAITALL))
        return self.cursor

    def close(self):
        self.child.close()
        self.process.terminate()
        self.process.wait()


def whole_lines(path, count, begun=0):
    """Returns `count` lines of a file, of those behind its first `begun` bytes, once they are written."""
    end = time.monotonic() + SECONDS
    text = b""
    while text.count(b"\n") < count:
        if time.monotonic() > end:
            raise TimeoutError("there are no rows in %s" % path)
        time.sleep(0.002)
        if os.path.exists(path):
            with open(path, "rb") as file:
                file.seek(begun)
                text = file.read()
    return text.split(b"\n")[:count]


class Printed:
    """The rows that a terminal prints to a file after `ESC [ i`. Its window adds `show`, `path` and `height`."""

    def rows(self):
        begun = os.path.getsize(self.path) if os.path.exists(self.path) else 0
        self.show(b"\x1b[i")
        # the second column of a wide symbol is a character that is none, and a form feed begins or ends the page
        return [re.sub("[\0\f\r\uffff]", "", line.decode(errors="replace")) for line in whole_lines(self.path, self.height, begun)]


class Xvfb:
    """An X server without a screen, one for all windows."""

    lock = threading.Lock()
    display = None
    process = None

    @classmethod
    def environment(cls):
        """The variables of a program that shows a window there."""
        with cls.lock:
            if cls.process is None:
                cls.begin()
        return {"DISPLAY": cls.display}

    @classmethod
    def begin(cls):
        reading, writing = os.pipe()
        words = [need("Xvfb"), "-displayfd", str(writing), "-screen", "0", "1600x1200x24", "-nolisten", "tcp"]
        cls.process = subprocess.Popen(words, pass_fds=[writing], stdout=subprocess.DEVNULL, stderr=subprocess.DEVNULL)
        os.close(writing)
        with os.fdopen(reading) as said:
            cls.display = ":" + said.readline().strip()

    @classmethod
    def end(cls):
        if cls.process is not None:
            cls.process.terminate()
            cls.process.wait()
            cls.process = None
