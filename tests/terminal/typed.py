"""A program in a pseudo terminal, driven by the words of a script. A frame is one synchronized update that the program draws."""
import fcntl, os, pty, re, select, signal, struct, termios

KEYS = {"space": " ", "enter": "\r", "esc": "\x1b", "up": "\x1b[A", "down": "\x1b[B", "right": "\x1b[C", "left": "\x1b[D",
        "pageup": "\x1b[5~", "pagedown": "\x1b[6~", "wheel-up": "\x1b[<64;1;1M", "wheel-down": "\x1b[<65;1;1M",
        "view": "\t", "none": "z"}
FRAME = re.compile(rb"\x1b\[\?2026h(.*?)\x1b\[\?2026l", re.S)
# what the program sends where it takes the terminal, and where it gives it back
TAKE, GIVE_BACK = rb"(?:\x1b\[22;2t)?\x1b\]2;.*?\x1b\[\?2004h", rb"\x1b\[\?2026l\x1b\[\?7h\x1b\[0m\x1b\[\?2004l.*?\x1b\[23;2t"
# what a frame is made of: the cursor goes to a place, a style is set, and symbols without a control character
COMMAND = re.compile(rb"\x1b\[([0-9]+);([0-9]+)H|\x1b\[([0-9;]*)m|((?:[^\x00-\x1f\x7f\xc2]|\xc2[^\x80-\x9f])+)|\x1b\[\?7[hl]")
SECONDS = 60
# after how long the program has drawn all, in seconds
QUIET = 0.3


def bytes_of(word):
    """What a terminal sends for a word."""
    if word in ("redraw", "ensure"):
        raise ValueError("no key stands for " + word)
    if word.startswith("click:"):
        _, row, column = word.split(":")
        return "\x1b[<0;%d;%dM" % (int(column) + 1, int(row) + 1)
    held = 0
    for name, bit in (("ctrl-", 4), ("alt-", 2), ("shift-", 1)):
        if word.startswith(name):
            word, held = word[len(name):], held + bit
    plain = KEYS.get(word, word)
    if held == 0:
        return plain
    if plain.startswith("\x1b["):
        return re.sub(r"\x1b\[(\d*)", lambda m: "\x1b[%s;%d" % (m[1] or "1", held + 1), plain)
    if held & 4:
        plain = chr(ord(plain.lower()) - 96)
    elif held & 1:
        plain = plain.upper()
    return "\x1b" + plain if held & 2 else plain


class Screen:
    """What frames leave on a terminal: for each row the symbols, each with its style, by the columns at which they begin. A row
    that changes is drawn whole: first blanks at the later columns of symbols, then the symbols of several bytes, then the others.
    The cursor is moved to each symbol that may have two columns, and away from it."""

    def __init__(self):
        self.rows = {}

    def draw(self, frame):
        row = column = end = 0
        style = None
        drawn = set()
        for command in COMMAND.finditer(frame):
            if command.start() != end:
                break
            end = command.end()
            if command[1]:
                row, column = int(command[1]) - 1, int(command[2]) - 1
                if row not in drawn:
                    drawn.add(row)
                    self.rows[row] = {}
            elif command[4]:
                for symbol in [bytes([byte]) for byte in command[4]] if command[4].isascii() else [command[4]]:
                    self.rows[row][column] = symbol, style
                    column += 1
                    if not symbol.isascii():
                        # the blanks of its later columns
                        later = column
                        while self.rows[row].pop(later, None):
                            later += 1
            elif command[3] is not None:
                style = command[3]
        if end != len(frame):
            raise ValueError("a frame has %r" % frame[end:end + 20])


class Typed:
    """A program that runs in a terminal of `width` columns and `height` rows. Its session has no layer, unless `environment` says so."""

    def __init__(self, command, width, height, environment=None, folder=None):
        self.process, self.terminal = pty.fork()
        if self.process == 0:
            # as in a terminal, also where a shell started this behind `&` or `nohup`
            for number in (signal.SIGHUP, signal.SIGINT, signal.SIGQUIT):
                signal.signal(number, signal.SIG_DFL)
            fcntl.ioctl(1, termios.TIOCSWINSZ, struct.pack("HHHH", height, width, 0, 0))
            os.chdir(folder or ".")
            os.execvpe(command[0], command, {**os.environ, "SELECT_LAYER": "off", **(environment or {})})
        self.height = height
        self.seen = b""
        self.searched = 0
        self.frames = []
        self.drawn = 0
        self.shown = Screen()
        self.has_ended = False
        self.wait_for_frames(1)

    def has_more(self, seconds):
        """Whether more comes within `seconds`."""
        return bool(select.select([self.terminal], [], [], seconds)[0])

    def read(self):
        """Reads what comes next, and says whether the program still runs."""
        if not self.has_more(SECONDS):
            raise TimeoutError("nothing was drawn for %d seconds" % SECONDS)
        try:
            got = os.read(self.terminal, 65536)
        except OSError:
            got = b""
        self.seen += got
        for frame in FRAME.finditer(self.seen, self.searched):
            self.frames.append(frame[1])
            self.searched = frame.end()
        self.has_ended = not got
        return bool(got)

    def wait_for_frames(self, count):
        while len(self.frames) < count and self.read():
            pass

    def wait_for(self, text):
        """Waits until the program or its shell says a text."""
        begun = len(self.seen)
        while text not in self.seen[begun:] and self.read():
            pass

    def write(self, sent):
        """Types bytes. A program that has ended does not read them."""
        try:
            os.write(self.terminal, sent)
        except OSError:
            pass

    def type(self, sent):
        """Types bytes, and waits for the next frame or the program's end."""
        count = len(self.frames) + 1
        self.write(sent)
        self.wait_for_frames(count)

    def press(self, word):
        """Types a word, and waits for the next frame or the program's end."""
        self.type(bytes_of(word).encode())

    def is_busy(self):
        """Whether the program runs, or waits for a processor, where that can be read."""
        try:
            with open("/proc/%d/stat" % self.process) as file:
                return file.read().rpartition(")")[2].split()[0] == "R"
        except OSError:
            return False

    def rest(self):
        """Waits until the program draws no more."""
        goes_on = True
        while goes_on:
            goes_on = self.read() if self.has_more(QUIET) else self.is_busy()

    def resize(self, width, height):
        """Gives the terminal another size, and waits until the program draws no more."""
        count = len(self.frames) + 1
        self.set_size(width, height)
        self.wait_for_frames(count)
        self.rest()

    def set_size(self, width, height):
        """Gives the terminal another size."""
        self.height = height
        fcntl.ioctl(self.terminal, termios.TIOCSWINSZ, struct.pack("HHHH", height, width, 0, 0))

    def rows_drawn(self, begun):
        """The rows to which the frames from `begun` on move the cursor."""
        return {int(row) - 1 for frame in self.frames[begun:] for row in re.findall(rb"\x1b\[([0-9]+);[0-9]+H", frame)}

    def rows(self):
        """The symbols of each row with their styles, as the frames left them."""
        for frame in self.frames[self.drawn:]:
            self.shown.draw(frame)
        self.drawn = len(self.frames)
        return [[place for _, place in sorted(self.shown.rows.get(row, {}).items())] for row in range(self.height)]

    def screen(self):
        """The rows of the screen, each between quotes."""
        rows = self.rows() if self.frames else []
        return b"".join(b'"' + b"".join(symbol for symbol, _ in row) + b'"\n' for row in rows)

    def end(self):
        """Waits for the program's end, and answers its status."""
        while not self.has_ended:
            self.read()
        os.close(self.terminal)
        return os.waitstatus_to_exitcode(os.waitpid(self.process, 0)[1])

    def said(self):
        """What stands on the main screen."""
        said = re.sub(TAKE + rb"|" + GIVE_BACK, b"", FRAME.sub(b"", self.seen))
        return said.decode(errors="replace").replace("\r\n", "\n")
