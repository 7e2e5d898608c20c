"""A session, by the calls of the library."""
import contextlib
import ctypes
import errno
import os
import signal
import threading
from typing import Dict, Iterable, Iterator, List, Optional, Tuple, Union

from ._library import NO_INDEX, CellOfC, Error, Handle, KeyOfC, ScreenInfo, SideInfo, call, check
from ._merge import merge_texts
from ._pager import Pager
from ._values import (
    ENDS, OWNERS, Cell, Colour, Contents, Dialog, Folds, Item, Key, LinePlace, Mark, Path, Side, Stage, Text, Theme, bytes_of, bytes_of_path, member_of,
    shown_path,
)

# held from before a run until its signal has acted: the library hears the signals of the process meanwhile
RUNNING = threading.Lock()


def sized(text: Text) -> Tuple[bytes, int]:
    """Returns the two arguments of a text: its bytes, and how many they are."""
    data = bytes_of(text)
    return data, len(data)


def pointer_to(key: Key) -> object:
    """Returns the argument of a key."""
    for index in key:
        check("N", index)
    return ctypes.byref(KeyOfC(*key))


def key_of(key: KeyOfC) -> Key:
    """Returns the key that C has written."""
    return Key(key.commit, key.file, key.section, key.line)


def cell_of(cell: CellOfC, text: bytes) -> Cell:
    """Returns the place that C has written, whose symbol is a part of `text`."""
    symbol = text[cell.start : cell.start + cell.length].decode()
    flags = (bool(cell.flags & flag) for flag in (1, 2, 4, 8))
    return Cell(symbol, cell.columns, Colour(cell.foreground), Colour(cell.background), *flags)


@contextlib.contextmanager
def only_run() -> Iterator[None]:
    """Raises OSError with EBUSY while another thread is in this block."""
    if not RUNNING.acquire(blocking=False):
        raise OSError(errno.EBUSY, os.strerror(errno.EBUSY))
    try:
        yield
    finally:
        RUNNING.release()


class Session:
    """A session, first over an empty state. It is closed by `close`, and at the end of a `with` block; else its memory leaks.

    Texts are `str` or the bytes of UTF-8, and paths may be those of pathlib. One thread at a time uses a session. A call that is
    refused raises `Error`, and leaves the session as it was. A number that C does not have raises ValueError."""

    def __init__(self, is_read_only: bool = False) -> None:
        """Opens a session over a state without commits and files. If it is read-only, the user cannot change marks."""
        self._handle = Handle()
        self._call("state_new", is_read_only)
        # the paths of a file, and its path before a rename, where one of both is not UTF-8
        self._paths: Dict[int, Tuple[bytes, bytes]] = {}

    @classmethod
    def of_json(cls, json: Text, width: int, height: int, has_layer: bool = False) -> "Session":
        """Returns a session over the state with this JSON form, on a screen of this size. It has begun."""
        session = cls()
        session._call("new_layer" if has_layer else "new", *sized(json), width, height)
        return session

    def __enter__(self) -> "Session":
        """Returns the session, which the end of the block closes."""
        return self

    def __exit__(self, *_: object) -> None:
        """Closes the session."""
        self.close()

    def __bool__(self) -> bool:
        """Returns True, also where there are no files."""
        return True

    def __len__(self) -> int:
        """Returns the number of files."""
        count = ctypes.c_size_t()
        self._call("files", ctypes.byref(count))
        return count.value

    def close(self) -> None:
        """Frees the session's memory. A closed session refuses each call."""
        call("free", self._handle)

    def _call(self, name: str, *arguments: object) -> None:
        """Makes the call `name`. Raises Error if it is not done."""
        code = call(name, self._handle, *arguments)
        if code:
            raise Error(code)

    def _count(self, name: str, text: Text) -> int:
        """Returns the number that a call with a text writes."""
        count = ctypes.c_size_t()
        self._call(name, *sized(text), ctypes.byref(count))
        return count.value

    def _read(self, name: str, *arguments: object) -> bytes:
        """Returns the bytes that a call writes, which also writes their number."""
        length = ctypes.c_size_t(1 << 16)
        while True:  # a paint that had no room is followed by one of every row, which may be longer
            out = ctypes.create_string_buffer(length.value)
            self._call(name, *arguments, out, len(out), ctypes.byref(length))
            if length.value <= len(out):
                return out.raw[: length.value]

    # ---- the state

    def add_commit(self, message: Optional[Text] = None) -> None:
        """Adds a commit, which can be edited if it has a message."""
        if message is None:
            self._call("state_commit")
        else:
            self._call("state_message", *sized(message))

    def _add_file(self, name: str, path: Path, old_path: Path, *arguments: object) -> None:
        """Adds a file by the call `name`, with its paths as they are shown."""
        file, paths = len(self), (bytes_of_path(path), bytes_of_path(old_path))
        shown = shown_path(paths[0]), shown_path(paths[1])
        self._call(name, *sized(shown[0]), *sized(shown[1]), *arguments)
        if shown != paths:
            self._paths[file] = paths

    def add_file(self, path: Path, mode: int, old_path: Path = "") -> None:
        """Adds a file: its path, its mode before the changes, and its path before a rename or a copy, if there was one. Bytes of a path
        that are not UTF-8 are shown as U+FFFD, and `path_bytes` returns them."""
        self._add_file("state_file", path, old_path, mode)

    def add_context(self, text: Text) -> None:
        """Adds lines that do not change."""
        self._call("state_context", *sized(text))

    def add_changes(self, text: Text, is_added: bool, is_checked: bool = False) -> None:
        """Adds lines that are added, or else removed."""
        self._call("state_changes", is_added, is_checked, *sized(text))

    def add_line(self, text: Text, is_added: Optional[bool] = None, is_checked: bool = False) -> None:
        """Adds one line, which is the whole text: an added line, a removed one (`is_added` is false), or a context line."""
        self._call("state_line", is_added is not None, bool(is_added), is_checked, *sized(text))

    def add_texts(
        self, path: Path, old: Text, new: Text, old_mode: int = 0o100644, new_mode: int = 0o100644, old_path: Path = ""
    ) -> None:
        """Adds a file by its two versions, of which one may be ABSENT by its mode. The library finds the lines that differ. Its paths may
        be those of `add_file`."""
        self._add_file("state_texts", path, old_path, *sized(old), old_mode, *sized(new), new_mode)

    def add_merge(self, path: Path, base: Text, ours: Text, theirs: Text) -> None:
        """Adds a file that shows the merge of two files that both came from `base`, with nothing chosen. Each conflict is three
        sections: ours, the base's and theirs. The marks of the file are those of `scm.merged_bytes`."""
        self.add_file(path, 0o100644)
        before = ""
        for version, text in merge_texts(base, ours, theirs):
            if version != before:
                self.add_section(version != "agreed")
            # the lines of the base are removed, unless they are taken
            self.add_line(text, None if version == "agreed" else version != "base", version == "base")
            before = version

    def add_section(self, is_changed: bool) -> None:
        """Adds a section without lines, of changes or of context. The lines that follow are its lines."""
        self._call("state_section", is_changed)

    def add_mode(self, mode: int, is_checked: bool = False) -> None:
        """Adds a change of the file's mode."""
        self._call("state_mode", is_checked, mode)

    def add_binary(self, old: Text = "", new: Text = "", is_checked: bool = False) -> None:
        """Adds a change of bytes, by a description of both versions. An empty description is none."""
        self._call("state_binary", is_checked, *sized(old), *sized(new))

    def set_marks(self, file: int, marks: Iterable[bool]) -> None:
        """Sets the marks of all items of a file, in its order, as `marks` returns them. Call this once the file has all its sections."""
        self._call("state_marks", file, *sized(bytes(map(bool, marks))))

    def begin(self, width: int, height: int) -> None:
        """Begins the session with its state, on a screen of this size."""
        self._call("begin", width, height)

    # ---- a layer over the session

    def begin_layer(self, width: int, height: int) -> None:
        """Begins the session with a layer: a status row, search, ranges, undo, columns to the right, and colours of another theme."""
        self._call("begin_layer", width, height)

    def paint_in(self, theme: Union[Theme, str]) -> None:
        """Has the layer paint in the colours of a theme, or of the name of one."""
        self._call("theme", int(member_of(Theme, theme)))

    def say_of_accepting(self, text: Text) -> None:
        """Sets the words by which the status row says what accepting does, as "c commits"."""
        self._call("accept_text", *sized(text))

    def label(self, file: int, section: int, text: Text) -> None:
        """Shows `text` on the row of a section in place of its number, mode or binary contents, or those again for an empty text."""
        self._call("label", file, section, *sized(text))

    def name_sections(self) -> None:
        """Shows behind the title of each section of changed lines the line that it stands in, as git shows it behind `@@`. A section
        that has a label keeps it. Call this once, behind the calls of `label`."""
        self._call("name_sections")

    def start(self, folds: Union[Folds, str] = Folds.AS_IT_IS, first: Optional[Key] = None) -> None:
        """Unfolds what `folds` says, or the name of it, and selects the item `first`."""
        key = Key(NO_INDEX, NO_INDEX, NO_INDEX, NO_INDEX) if first is None else first
        self._call("start", int(member_of(Folds, folds)), pointer_to(key))

    def set_keys(self, text: Text) -> None:
        """Sets the keys of the user's own: parts KEY=WORD, separated by spaces, as "ctrl-n=j x=undo"."""
        self._call("keys", *sized(text))

    def log(self) -> None:
        """Begins to log the calls of the session beneath the layer, before the first of them."""
        self._call("log")

    def logged(self) -> str:
        """Returns the logged calls, a line each, as `gabrosty.h` says."""
        return self._read("logged").decode()

    # ---- the user's input, and the screen

    @property
    def stage(self) -> Stage:
        """What the session waits for."""
        return Stage(call("stage", self._handle))

    @property
    def dialog(self) -> Dialog:
        """Which dialog is open, NONE while the session waits for no event."""
        return Dialog(call("dialog", self._handle))

    @property
    def end(self) -> str:
        """How the session ended: one of `ENDS`, "not_ended" if it goes on."""
        return ENDS[call("end", self._handle)]

    @property
    def selected(self) -> Key:
        """The key of the selected item."""
        key = KeyOfC()
        self._call("selected", ctypes.byref(key))
        return key_of(key)

    @property
    def selected_line(self) -> LinePlace:
        """Where the selected item is in both versions of its file. Raises Error if nothing is selected."""
        file, old_line, new_line = (ctypes.c_size_t() for _ in range(3))
        self._call("selected_line", *map(ctypes.byref, (file, old_line, new_line)))
        return LinePlace(file.value, old_line.value, new_line.value)

    def press(self, *words: Text) -> None:
        """Handles the events of words, one by one: with a frame behind each."""
        for word in words:
            self._call("press", *sized(word))

    def press_all(self, words: Text) -> None:
        """Handles the events of words, which are separated by spaces, as one batch: with one frame, behind the last of them. If an
        event asks for a message, `answer` handles the later ones."""
        self._call("press_all", *sized(words))

    def press_and_count(self, words: Text) -> int:
        """Handles the events of words as `press_all` does. Returns how many of them were handled: those up to the first that ended the
        session or asked for a message, that one included, and else all. The session has to be one without a layer."""
        return self._count("press_and_count", words)

    def decode(self, data: bytes) -> List[str]:
        """Returns the words of what a terminal sent, for `press_all`. Nothing is handled. No bytes are a silence."""
        sent = self._read("decode", *sized(data)) if data else self._read("decode_idle")
        return sent.decode().split()

    def type(self, data: Text) -> None:
        """Handles what a terminal sent."""
        self._call("type", *sized(data))

    def type_to_key(self, data: Text) -> Tuple[int, int]:
        """Handles what a terminal sent up to the first key that means nothing to a session. Returns how many bytes that were, and the
        code of the key: its character, with ctrl 1 to 26, or 0 if there is none."""
        taken, key = ctypes.c_size_t(), ctypes.c_uint32()
        self._call("type_to_key", *sized(data), ctypes.byref(taken), ctypes.byref(key))
        return taken.value, key.value

    @property
    def is_escape_pending(self) -> bool:
        """Whether the last byte was an ESC that a silence would make the Esc key: only then `idle` has to be called after a silence.

        Within a paste it is false. There silences only let ctrl-C end a paste whose end was lost."""
        length = ctypes.c_size_t()
        self._call("decode_idle", None, 0, ctypes.byref(length))
        return length.value > 0

    def idle(self) -> None:
        """Handles the silence of a terminal: no byte came for about 50 milliseconds."""
        self._call("idle")

    def click(self, row: int, column: int) -> None:
        """Handles a click at a place of the screen, counted from 0."""
        self._call("click", row, column)

    def select(self, key: Key) -> None:
        """Selects an item, unfolds what it lies in, and scrolls to it. The commit of the key is 0 as long as one commit is shown."""
        self._call("select", pointer_to(key))

    def answer(self, message: Text) -> None:
        """Answers with the message that the session waits for."""
        self._call("answer", *sized(message))

    def answer_and_count(self, message: Text) -> int:
        """Answers as `answer` does. Returns how many of the later events of the batch were handled: those up to the first that ended the
        session or asked for a message, that one included, and else all. The session has to be one without a layer."""
        return self._count("answer_and_count", message)

    def resize(self, width: int, height: int) -> None:
        """Gives the screen this size."""
        self._call("resize", width, height)

    def paint(self) -> bytes:
        """Returns the bytes that make a terminal show the session: all rows at first, and then those that changed."""
        return self._read("paint")

    def cells(self) -> List[List[Cell]]:
        """Returns the rows of the screen, with the status row of a layer, each place with its symbol and its style: what a paint brings a
        terminal to. So a host draws the selector within a screen of its own. Nothing counts as painted."""
        info, count, room = ScreenInfo(), 1 << 12, 1 << 14
        while True:
            cells, out = (CellOfC * count)(), ctypes.create_string_buffer(room)
            self._call("cells", cells, count, out, room, ctypes.byref(info))
            if info.columns * info.rows <= count and info.length <= room:
                break
            count, room = info.columns * info.rows, info.length
        places = [cell_of(cell, out.raw) for cell in cells[: info.columns * info.rows]]
        return [places[row * info.columns : (row + 1) * info.columns] for row in range(info.rows)]

    def repaint(self) -> None:
        """Makes the next paint return every row."""
        self._call("repaint")

    def text(self) -> str:
        """Returns the text of the stage: the rows of the screen, with the status row of a layer below them; the message before an edit;
        the sentence of an error; or a report of what is accepted."""
        return self._read("text").decode()

    # ---- at a terminal

    def run(self, terminal: Optional[int] = None, title: Optional[str] = None) -> None:
        """Has the user choose on a terminal, an open file, or on that of the program, until the session waits no more. The window's
        title is `title`, in ASCII. A signal that came meanwhile acts then, as ctrl-C raises KeyboardInterrupt.

        A run hears the signals of the process. So while another thread is in one, this raises OSError with EBUSY."""
        file = os.open("/dev/tty", os.O_RDWR | os.O_CLOEXEC) if terminal is None else terminal
        try:
            with only_run():
                self._run(file, None if title is None else title.encode())
        finally:
            if terminal is None:
                os.close(file)

    def _run(self, file: int, title: Optional[bytes]) -> None:
        """Has the user choose on a terminal, and then raises the signal that came, or the error."""
        ended_by = call("run", self._handle, file, title)
        error = ctypes.get_errno()
        if ended_by > 0:
            signal.raise_signal(ended_by)
        if ended_by < 0:
            raise OSError(error, os.strerror(error))

    def choose(self, title: Optional[str] = None, has_layer: bool = False) -> str:
        """Begins the session, has the user choose on the program's terminal, and returns how it ended: one of `ENDS`. With a layer it
        has no colours if the environment has NO_COLOR."""
        if has_layer:
            self.begin_layer(80, 24)
            self.paint_in(Theme.NONE if os.environ.get("NO_COLOR") else Theme.DARK)
        else:
            self.begin(80, 24)
        self.run(title=title)
        return self.end

    # ---- the answer

    def side(self, file: int, is_selected: bool = True) -> Side:
        """Returns a side of file `file`, counted from 0: the selected side, or the other one."""
        info, room = SideInfo(), 1 << 16
        while True:
            out = ctypes.create_string_buffer(room)
            self._call("side", file, is_selected, out, room, ctypes.byref(info))
            if info.length <= room:
                break
            room = info.length
        contents = Contents(info.contents)
        return Side(contents, info.mode, out.raw[: info.length] if contents == Contents.TEXT else None)

    def side_bytes(self, file: int, is_selected: bool = True) -> bytes:
        """Returns the bytes of a side, in which no two lines are joined: the file to write of one that `add_texts` added."""
        return self._read("side_bytes", file, is_selected)

    def pager(self, file: int, is_selected: bool = True) -> Pager:
        """Returns a pager at the top of a file: on the side that accepting now would write, or on the other one."""
        return Pager(self, file, is_selected)

    def mark(self, file: int, section: int = NO_INDEX, line: int = NO_INDEX) -> Mark:
        """Returns the mark of a file, of a section in it, or of a line in that."""
        mark = ctypes.c_uint32()
        self._call("mark", pointer_to(Key(0, file, section, line)), ctypes.byref(mark))
        return Mark(mark.value)

    def marks(self, file: int) -> List[bool]:
        """Returns the marks of all items of a file, in its order."""
        return [mark == 1 for mark in self._read("marks", file)]

    def item(self, file: int, section: int = NO_INDEX, line: int = NO_INDEX) -> Item:
        """Returns what a file is, or a section in it, or a line in that: its kind, and how many parts it has."""
        kind, parts = ctypes.c_uint32(), ctypes.c_size_t()
        self._call("item", pointer_to(Key(0, file, section, line)), ctypes.byref(kind), ctypes.byref(parts))
        return Item(OWNERS[kind.value], parts.value)

    def path(self, file: int) -> str:
        """Returns the path of a file, as it is shown."""
        return self._read("path", file, False).decode()

    def path_bytes(self, file: int) -> bytes:
        """Returns the path of a file as it was handed in, byte for byte."""
        shown = self._read("path", file, False)
        return self._paths[file][0] if file in self._paths else shown

    def old_path_bytes(self, file: int) -> Optional[bytes]:
        """Returns the path of a file before a rename or a copy as it was handed in, byte for byte, or None if there was none."""
        shown = self.old_path(file)
        if shown is None:
            return None
        return self._paths[file][1] if file in self._paths else shown.encode()

    def old_path(self, file: int) -> Optional[str]:
        """Returns the path of a file before a rename or a copy, or None if there was none."""
        try:
            return self._read("path", file, True).decode()
        except Error as error:
            if error.code != "no_item" or file >= len(self):
                raise
            return None

    def line(self, file: int, section: int, line: int) -> bytes:
        """Returns the text of a line, as bytes."""
        return self._read("line", pointer_to(Key(0, file, section, line)))

    def message(self, commit: int = 0) -> str:
        """Returns the message of a commit, counted from 0."""
        return self._read("message", commit).decode()

    # ---- places of the screen

    def owner(self, row: int, column: int) -> Tuple[str, Key]:
        """Returns what a click at a place of the screen acts on, one of `OWNERS`, and its key."""
        key = KeyOfC(*[NO_INDEX] * 4)
        owner = OWNERS[call("owner", self._handle, row, column, ctypes.byref(key))]
        return owner, key_of(key)

    def symbol(self, row: int, column: int) -> str:
        """Returns the symbol that begins at a place of the screen, also on the status row of a layer, or nothing if none does. On the
        status row nothing is returned if an allocation failed, too."""
        room = 64
        while True:
            out = ctypes.create_string_buffer(room)
            length = call("symbol", self._handle, row, column, out, room)
            if length <= room:
                return out.raw[:length].decode()
            room = length
