#!/usr/bin/env python3
"""keys.py [--check] [ROOT]: writes the keys of docs/RULES.md into each file of this tree, or of another, that names them.

The table below the heading "Keys and the mouse" of docs/RULES.md is the source. This script writes its words into docs/KEYS.md, and
between the lines `keys: made by tools/dev/make-pages` and `end of keys` of the files of PARTS: man pages, `--help` and tables of other
documents. With --check it writes nothing, and says which file is not as it would write it.

It fails with one line if the table has another key, event or menu item than the definitions of `scm_input` and `scm_view_state`."""
import pathlib
import re
import sys
import textwrap

sys.dont_write_bytecode = True
from parts import Wrong, with_part, write_all  # noqa: E402
from parts import roff as in_roff  # noqa: E402

ARGUMENTS = [it for it in sys.argv[1:] if it != "--check"]
ROOT = pathlib.Path(ARGUMENTS[0]).resolve() if ARGUMENTS else pathlib.Path(__file__).resolve().parents[3]
RULES, PAGE = ROOT / "docs/RULES.md", ROOT / "docs/KEYS.md"
KEY_TABLE, MENUS = ROOT / "crates/scm_input/specs/KeyTable.antt", ROOT / "crates/scm_view_state/specs/Menus.antt"
# the events by the headings of docs/KEYS.md
GROUPS = {
    "Move": (
        "FocusNext", "FocusPrev", "FocusInner", "FocusOuter with fold_section", "FocusOuter", "FocusNextSameKind", "FocusPrevSameKind",
        "FocusNextPage", "FocusPrevPage",
    ),
    "Mark": ("ToggleItem", "ToggleItemAndAdvance", "ToggleAll", "ToggleAllUniform"),
    "Fold and scroll": ("ExpandItem", "ExpandAll", "ScrollDown", "ScrollUp", "PageDown", "PageUp"),
    "End": ("EditCommitMessage", "QuitAccept", "QuitCancel", "QuitInterrupt", "QuitEscape", "Help"),
}
# the events whose keys are enough to begin with
FIRST = (
    "FocusNext", "FocusPrev", "FocusInner", "FocusOuter with fold_section", "ToggleItem", "ToggleAll", "ExpandAll", "QuitAccept",
    "QuitCancel", "Help",
)
# keys of the front end in C, which hands in no events for them
AT_TERMINAL = (
    (["Tab"], "shows both commits, or one"),
    (["ctrl-l"], "draws every row anew"),
    (["ctrl-z"], "stops the program, which `fg` continues"),
    (["p"], "shows the selected item's file with the marked changes, line by line; `p` or `Esc` goes back"),
    (["P"], "shows it with the other changes; `P` or `Esc` goes back"),
    (["E"], "opens the selected item's file in your editor, at its line, in a tool that shows files as they are on the disk"),
    (["? ?"], "shows all keys, also your own, in a tool with the layer; `?` or `Esc` goes back"),
)
# keys of the layer of `scm_front`, which lies over a session
LAYER = (
    (["/"], "searches for a text, downwards"),
    (["n", "N"], "searches for it again, downwards or upwards"),
    (["v"], "begins a range at the selected line; ends it"),
    (["Space"], "while a range is begun: marks its lines, or takes their marks away, and ends it"),
    (["Esc"], "while a range is begun: ends it"),
    (["u"], "undoes the last change of marks"),
    (["ctrl-r"], "does again what was undone last"),
    (["g", "Home"], "selects the first item"),
    (["G", "End"], "selects the last item that is not folded away"),
    (["]", "["], "selects the next or the previous section, also in a file that is folded"),
    (["}", "{"], "selects the next or the previous file"),
    (["ctrl-n", "ctrl-p"], "selects the next or the previous item"),
    ([">", "<"], "shows the columns further right or left"),
)
# those of them for which a program may have others
OF_SECTIONS = [it for it in LAYER if "]" in it[0]]
# how many columns a line of the page of keys has: a pager has two more
PAGE_COLUMNS = 78
MOUSE = (
    (
        "click",
        "selects an item, opens a menu, presses a button; on the checkbox or the fold of the selected item, in a tool with the layer of any item, marks or folds it",
    ),
    ("drag", "in a tool with the layer: begins a range at the line where the button goes down, and moves its end"),
    ("wheel", "scrolls by a row; with shift, in a tool with the layer, shows the columns further right or left"),
)
NAMES = {
    "down": "Down", "up": "Up", "left": "Left", "right": "Right", "pageup": "Page Up", "pagedown": "Page Down", "space": "Space",
    "enter": "Enter", "esc": "Esc",
}
BEGIN, END = "keys: made by tools/dev/make-pages", "end of keys"
HEAD = """# Keys

<!-- made by tools/dev/make-pages from docs/RULES.md; edit the table there, not this page -->

The keys of the selector, on a page to print. [RULES](RULES.md#keys-and-the-mouse) has the exact rules.
"""


def rows_of_rules():
    """The rows of the table of docs/RULES.md: keys, words, event, menu item."""
    text = RULES.read_text()
    section = text[text.index("\n### Keys and the mouse\n") :]
    table = re.search(r"^\| Key \|.*\n\|[-|]+\n((?:\|.*\n)+)", section, re.M)[1]
    rows = [[cell.strip() for cell in line.strip("|").split(" | ")] for line in table.splitlines()]
    return [(re.findall(r"`([^`]+)`", keys), words, event.replace("`", ""), item) for keys, words, event, item in rows]


def defined_keys():
    """The pairs of a key and an event that the key table of `scm_input` defines."""
    found = set()
    for modifiers, char, name, event in re.findall(
        r'\bon (none|shift|control) (?:\(char "(.)"\)|key\.(\w+)) (\w+|\(FocusOuter \w+\))$', KEY_TABLE.read_text(), re.M
    ):
        key = name.lower() or ("space" if char == " " else char)
        event = {"(FocusOuter false)": "FocusOuter", "(FocusOuter true)": "FocusOuter with fold_section"}.get(event, event)
        found.add(({"none": "", "shift": "shift-", "control": "ctrl-"}[modifiers] + key, event))
    return found


def defined_items():
    """The pairs of a menu item and an event that `scm_view_state` defines."""
    found, menu = set(), None
    for name, label, event in re.findall(r'^(\w+)_items =$|\brow \(codes "([^"(]+) \([^"]*"\) (.*)$', MENUS.read_text(), re.M):
        if name:
            menu = name.capitalize()
        else:
            event = event.replace("(events.FocusOuter false)", "FocusOuter").replace("(events.FocusOuter true)", "FocusOuter with fold_section")
            found.add(("%s: %s" % (menu, label), event.replace("events.", "")))
    return found


def check_rows(rows):
    """Fails if the rows have another key or menu item than the definitions, or an event that docs/KEYS.md leaves out."""
    told = {(key, event) for keys, _, event, _ in rows for key in keys}
    items = {(item, event) for _, _, event, item in rows if item != "—"}
    grouped = [event for events in GROUPS.values() for event in events]
    for what, ours, defined in (("key", told, defined_keys()), ("menu item", items, defined_items())):
        for name, event in sorted(ours ^ defined):
            raise Wrong("docs/RULES.md: the %s %s with the event %s is in the table or in the definitions alone" % (what, name, event))
    if sorted(grouped) != sorted(event for _, _, event, _ in rows):
        raise Wrong("docs/RULES.md: the table has an event that a group of tools/dev/pages/keys.py lacks or has twice")


def shown(key):
    """The name of a key for a user: what a letter with shift types, and other keys by the words on them."""
    if re.fullmatch("shift-[A-Za-z]", key):
        return key[-1].upper()
    modifier, name = re.fullmatch("(shift-|ctrl-)?(.+)", key).groups()
    return (modifier or "").replace("shift-", "Shift-") + NAMES.get(name, name)


def named(rows, events):
    """The keys and the words of some events, in the order of these."""
    by_event = {event: (list(dict.fromkeys(shown(key) for key in keys)), words) for keys, words, event, _ in rows}
    return [(keys, re.sub(r"`([^`]+)`", lambda it: "`%s`" % shown(it[1]), words)) for keys, words in (by_event[it] for it in events)]


def markdown(rows):
    """A table of keys for a document."""
    lines = ["| %s | %s |" % (", ".join("`%s`" % it for it in keys), words) for keys, words in rows]
    return "\n".join(["| Key | What it does |", "|---|---|", *lines, ""])


def plain(rows, columns=79, width=0):
    """Lines of keys for a text of at most so many columns, of which the keys have at least `width`."""
    told = [(", ".join(keys), words.replace("`", "")) for keys, words in rows]
    width = max(width, 2 + max(len(keys) for keys, _ in told))
    return "".join(
        textwrap.fill(words, columns, initial_indent="  " + keys.ljust(width), subsequent_indent=" " * (2 + width)) + "\n" for keys, words in told
    )


def macro(name, lines):
    """Lines as a macro of C."""
    return "#define %s \\\n" % name + " \\\n".join('    "%s\\n"' % line for line in lines) + "\n"


def c_text(rows):
    """The keys that are enough to begin with as a macro of C, and those of the page of keys by its parts."""
    parts = [(heading, named(rows, events)) for heading, events in GROUPS.items()]
    width = 2 + max(len(", ".join(keys)) for _, group in parts for keys, _ in group)

    def lines(heading, group):
        return [heading + ":", *plain(group, PAGE_COLUMNS, width).splitlines()]

    session = [line for heading, group in parts for line in ["", *lines(heading, group)]]
    macros = (
        macro("KEYS", ["Keys:", *plain(first(rows)).splitlines()]),
        macro("KEYS_OF_LAYER", lines("With the layer", [it for it in LAYER if it not in OF_SECTIONS])),
        macro("KEYS_OF_SECTIONS", lines("", OF_SECTIONS)[1:]),
        macro("KEYS_AT_TERMINAL", ["", *lines("At a terminal", AT_TERMINAL)]),
        macro("KEYS_OF_SESSION", session),
    )
    return "\n".join(macros)


def roff(rows):
    """Paragraphs of keys for a man page."""

    def paragraph(keys, words):
        return ".TP\n\\fB%s\\fP\n%s\n" % ("\\fP, \\fB".join(map(in_roff, keys)), in_roff(words))

    return "".join(paragraph(keys, words) for keys, words in rows)


def page(rows):
    """The text of docs/KEYS.md."""
    parts = [(heading, named(rows, events)) for heading, events in GROUPS.items()]
    parts += [("At a terminal", AT_TERMINAL)]
    text = HEAD + "".join("\n## %s\n\n%s" % (heading, markdown(part)) for heading, part in parts)
    mouse = "\n".join("| %s | %s |" % it for it in MOUSE)
    text += "\n## With the layer\n\nA tool that has the [layer](RULES.md#a-layer-over-a-session) hears these keys too.\n"
    text += "\n" + markdown(LAYER)
    return text + "\n## With the mouse\n\n| What | What it does |\n|---|---|\n%s\n" % mouse


def first(rows):
    """The keys that are enough to begin with, and those of the layer."""
    return named(rows, FIRST) + list(LAYER)


def man_page(rows, layer=LAYER):
    """The keys of a man page: all of them."""
    return roff(named(rows, [event for events in GROUPS.values() for event in events]) + [*layer, *AT_TERMINAL])


# each file with a part that is made, and what makes it of the rows
PARTS = {
    "programs/scm-select/scm-select.1": man_page,
    "programs/git-select/git-select.1": man_page,
    "programs/diff-editor/gabrosty-diff-editor.1": man_page,
    # the program hears the keys for sections itself, and its page says what they do
    "programs/merge-tool/gabrosty-merge-tool.1": lambda rows: man_page(rows, [it for it in LAYER if it not in OF_SECTIONS]),
    "programs/shared/keys.h": c_text,
    "programs/choosing/front_end.py": lambda rows: 'KEYS = """Keys:\n%s"""\n' % plain(first(rows)),
    # the man pages, which the archive has, name the others
    "tools/archive.md": lambda rows: markdown(named(rows, FIRST)),
}


try:
    read = rows_of_rules()
    check_rows(read)
    texts = {PAGE: page(read), **{ROOT / it: with_part(ROOT / it, ROOT, BEGIN, END, make(read)) for it, make in PARTS.items()}}
    write_all(texts, ROOT, "--check" in sys.argv[1:])
except Wrong as wrong:
    print(wrong)
    sys.exit(1)
