"""The shared library: where it is, its structures, and its calls."""
import ctypes
import os

# the name of the library
NAME = "libgabrosty.so.1"
# the names of the codes that calls return
CODES = "done closed not_now no_word not_text bad_state not_accepted too_long no_memory no_item no_number no_key".split()
# the names of what can be wrong with a path
PATH_FAULTS = ["", *"empty dot dot_dot of_git of_jj with_nul".split()]
# how the contents of a changed file are shown, and whose contents it has in a tree, by numbers
SHOWN_BY = BY_LINES, BY_ITEMS, BY_ONE_ITEM = range(3)
ORIGINS = OF_SIDE, OF_OLD, OF_NEW = range(3)
# the mode of a file that does not exist, and an index that names nothing
ABSENT = NO_INDEX = int(ctypes.c_size_t(-1).value)


class Handle(ctypes.Structure):
    """A session, as C has it: all zeros if it is closed."""

    _fields_ = [("is_open", ctypes.c_bool), ("at", ctypes.c_void_p)]


class KeyOfC(ctypes.Structure):
    """A key, as C has it."""

    _fields_ = [(name, ctypes.c_size_t) for name in ("commit", "file", "section", "line")]


class SideInfo(ctypes.Structure):
    """What C says of a side of a file."""

    _fields_ = [("contents", ctypes.c_uint32), ("mode", ctypes.c_size_t), ("length", ctypes.c_size_t)]


class Changed(ctypes.Structure):
    """A changed file: the modes of its two versions, `ABSENT` of one that does not exist; how its contents are shown, one of `SHOWN_BY`;
    and whether the old version has another path."""

    _fields_ = [("old_mode", ctypes.c_size_t), ("new_mode", ctypes.c_size_t), ("shown", ctypes.c_uint32), ("is_renamed", ctypes.c_bool)]


class Shown(ctypes.Structure):
    """What a state is to be given of a changed file: gabrosty.h says more."""

    _fields_ = [("old_mode", ctypes.c_size_t), ("new_mode", ctypes.c_size_t), ("has_mode", ctypes.c_bool), ("has_contents", ctypes.c_bool)]


class InTree(ctypes.Structure):
    """What a tree has of a changed file: its modes at its paths, or `ABSENT`, and whose contents it has, one of `ORIGINS`."""

    _fields_ = [("mode", ctypes.c_size_t), ("old_path_mode", ctypes.c_size_t), ("contents", ctypes.c_uint32)]


class CellOfC(ctypes.Structure):
    """A place of the screen, as C has it."""

    _fields_ = [
        *((name, ctypes.c_size_t) for name in ("start", "length", "columns")),
        *((name, ctypes.c_uint32) for name in ("foreground", "background", "flags")),
    ]


class PagerOfC(ctypes.Structure):
    """Where a pager stands, as C keeps it."""

    _fields_ = [
        ("file", ctypes.c_size_t), ("top", ctypes.c_size_t), ("left", ctypes.c_uint16), ("is_selected", ctypes.c_bool), ("is_open", ctypes.c_bool),
    ]


class ScreenInfo(ctypes.Structure):
    """What C says of a screen."""

    _fields_ = [(name, ctypes.c_size_t) for name in ("columns", "rows", "length")]


# the arguments of each call behind its session: B is a bool, T a text or room for one, N a size or an index, H a number of 16
# bits, U one of 32, I a file, and P a pointer to what the call writes or to a key
CALLS = dict(call.split(":") for call in """
    state_new:B state_message:TN state_commit: state_file:TNTNN state_context:TN state_changes:BBTN state_line:BBBTN state_section:B
    state_mode:BN state_binary:BTNTN state_marks:NTN state_texts:TNTNTNNTNN begin:HH new:TNHH stage: end: dialog: type:TN type_to_key:TNPP idle: press:TN press_all:TN
    press_and_count:TNP answer_and_count:TNP decode:TNTNP decode_idle:TNP click:HH answer:TN resize:HH paint:TNP cells:PNTNP repaint: owner:HHP selected:P selected_line:PPP symbol:HHTN text:TNP files:P
    side:NBTNP side_bytes:NBTNP mark:PP marks:NTNP item:PPP path:NBTNP select:P line:PTNP message:NTNP run:IT free: begin_layer:HH new_layer:TNHH theme:U
    accept_text:TN label:NNTN name_sections: start:UP keys:TN log: logged:TNP pager_open:NBP pager_show:PNNH pager_type:PTNHH pager_paint:PHHTNP""".split())
TYPES = {"B": ctypes.c_bool, "T": ctypes.c_char_p, "N": ctypes.c_size_t, "H": ctypes.c_uint16, "U": ctypes.c_uint32, "I": ctypes.c_int, "P": ctypes.c_void_p}
# the greatest number of each type of numbers; the least one is 0
GREATEST = {"N": NO_INDEX, "H": 0xFFFF, "U": 0xFFFFFFFF, "I": 0x7FFFFFFF}
# the calls that return another type than a code
RESULTS = {"run": ctypes.c_int, "symbol": ctypes.c_size_t, "free": None}


def is_own(path: str) -> bool:
    """Whether a file or a link is there, and is this user's, root's or of the owner of this module: others may put theirs into a folder
    above."""
    return os.path.exists(path) and os.lstat(path).st_uid in (0, os.geteuid(), os.stat(__file__).st_uid)


def library_path() -> str:
    """Returns the path of the library, or the name by which the system finds it."""
    here = os.path.dirname(os.path.realpath(__file__))
    # in a wheel, in a clone, and in an installation
    places = [os.path.join(here, place, NAME) for place in ("", "../../c/out", "../..")]
    there = [path for path in places if is_own(os.path.dirname(path)) and is_own(path)]
    return os.environ.get("LIBSCM") or (there or [NAME])[0]


def open_library(path: str) -> ctypes.CDLL:
    """Returns the library at `path`. If it is not there, the error says what makes it."""
    try:
        return ctypes.CDLL(path, use_errno=True)  # a run sets errno
    except OSError as error:
        words = "%s. `tools/build --shared` makes the library in a clone of Gabrosty, `tools/install PREFIX` installs it, and LIBSCM can name it"
        raise ImportError(words % error) from error


library = open_library(library_path())


def declare() -> None:
    """Declares the calls of the library."""
    for name, letters in CALLS.items():
        function = getattr(library, "gabro_" + name)
        function.argtypes = [ctypes.POINTER(Handle), *map(TYPES.get, letters)]
        function.restype = RESULTS.get(name, ctypes.c_uint32)
    library.gabro_words.argtypes = [ctypes.c_uint32, ctypes.c_char_p, ctypes.c_size_t]
    library.gabro_words.restype = ctypes.c_size_t
    library.gabro_version.argtypes, library.gabro_version.restype = [], ctypes.c_uint32
    library.gabro_decide_rows.argtypes = [ctypes.c_char_p, ctypes.c_size_t, ctypes.c_char_p, ctypes.c_size_t, ctypes.POINTER(ctypes.c_size_t)]
    library.gabro_decide_rows.restype = ctypes.c_uint32
    library.gabro_path_fault.argtypes, library.gabro_path_fault.restype = [ctypes.c_char_p, ctypes.c_size_t], ctypes.c_uint32
    changed = ctypes.POINTER(Changed)
    library.gabro_tree_shown.argtypes = [changed, ctypes.c_bool, ctypes.POINTER(Shown)]
    library.gabro_tree_side.argtypes = [changed, ctypes.c_bool, ctypes.POINTER(SideInfo), ctypes.POINTER(InTree)]
    library.gabro_tree_shown.restype = library.gabro_tree_side.restype = None
    sized, told = [ctypes.c_char_p, ctypes.c_size_t], ctypes.POINTER(ctypes.c_size_t)
    merges = (
        ("merge_texts", [*sized, told]), ("merged_bytes", [*sized, *sized, told]), ("open_conflicts", [*sized, told]),
        ("marked_bytes", [*sized, *sized, *sized, *sized, ctypes.c_size_t, *sized, told]),
    )
    library.gabro_without_blank_changes.argtypes = [*sized, *sized, *sized, told, told]
    library.gabro_without_blank_changes.restype = ctypes.c_uint32
    for name, others in merges:
        function = getattr(library, "gabro_" + name)
        function.argtypes, function.restype = [*sized, *sized, *sized, *others], ctypes.c_uint32


declare()


def check(letter: str, argument: object) -> None:
    """Raises ValueError if a number is not one of its type, which C would wrap."""
    greatest = GREATEST.get(letter)
    if greatest is not None and isinstance(argument, int) and not 0 <= argument <= greatest:
        raise ValueError("%d is not a number from 0 to %d" % (argument, greatest))


def call(name: str, handle: Handle, *arguments: object) -> int:
    """Makes the call `name` of a session, and returns what it returns."""
    for letter, argument in zip(CALLS[name], arguments):
        check(letter, argument)
    return int(getattr(library, "gabro_" + name)(ctypes.byref(handle), *arguments) or 0)


def words(code: int) -> str:
    """Returns the sentence of a code, or nothing if no call returns it."""
    check("U", code)
    out = ctypes.create_string_buffer(256)
    length = library.gabro_words(code, out, len(out))
    return out.raw[:length].decode()


def version() -> str:
    """Returns the version of the library."""
    number = int(library.gabro_version())
    return "%d.%d.%d" % (number // 10000, number // 100 % 100, number % 100)


def decide(rows: bytes) -> bytes:
    """Returns what becomes of the paths of rows. gabrosty.h has the form of both, at gabro_decide_rows."""
    written = ctypes.c_size_t(4096)
    room = 0
    while written.value > room:
        room = written.value
        out = ctypes.create_string_buffer(room)
        code = library.gabro_decide_rows(rows, len(rows), out, room, ctypes.byref(written))
        if code:
            raise Error(code)
    return out.raw[: written.value]


def path_fault(path: bytes) -> str:
    """Returns the name of what is wrong with a path, one of `PATH_FAULTS`, or nothing if it names a file below the top folder."""
    return PATH_FAULTS[int(library.gabro_path_fault(path, len(path)))]


def changed(old_mode: int, new_mode: int, shown: int, is_renamed: bool) -> Changed:
    """Returns a changed file, as C has it."""
    for letter, number in zip("NNU", (old_mode, new_mode, shown)):
        check(letter, number)
    return Changed(old_mode, new_mode, shown, is_renamed)


def tree_shown(old_mode: int, new_mode: int, shown: int, *, is_renamed: bool = False, is_other: bool = True) -> Shown:
    """Returns what a state is to be given of a changed file, whose contents differ if `is_other`. gabrosty.h says more, at gabro_tree_shown."""
    found = Shown()
    library.gabro_tree_shown(changed(old_mode, new_mode, shown, is_renamed), is_other, found)
    return found


def tree_side(old_mode: int, new_mode: int, shown: int, side: tuple[int, int, int], *, is_renamed: bool = False, is_selected: bool = True) -> InTree:
    """Returns what a tree has of a changed file by a side, of which `side` is the kind of the contents, the mode and the number of bytes. gabrosty.h
    says more, at gabro_tree_side."""
    for letter, number in zip("UNN", side):
        check(letter, number)
    found = InTree()
    library.gabro_tree_side(changed(old_mode, new_mode, shown, is_renamed), is_selected, SideInfo(*side), found)
    return found


class Error(Exception):
    """A call returned another code than done. `code` is its name, one of `CODES`, and the text its sentence."""

    def __init__(self, code: int) -> None:
        """Makes the error of a code."""
        self.code = CODES[code]
        super().__init__(words(code))
