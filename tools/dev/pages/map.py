#!/usr/bin/env python3
"""map.py [--check] [ROOT]: makes docs/MAP.md of this tree or of another, which leads from each rule of docs/RULES.md to what carries it.

tools/dev/pages/map.txt has the table. It gives names alone. This script finds the file of each name in the sources, and writes a link to it
if the page shows the name's column. With --check it writes nothing, and says whether docs/MAP.md is the page that it would write.

It fails with one line if a heading or a name is not there or is there twice, if a contract has no clause `ensures`, or if an entry
has a column twice or one that is none."""
import pathlib
import re
import sys

ARGUMENTS = [it for it in sys.argv[1:] if it != "--check"]
ROOT = pathlib.Path(ARGUMENTS[0]).resolve() if ARGUMENTS else pathlib.Path(__file__).resolve().parents[3]
TABLE, RULES, PAGE, ROWS = (ROOT / it for it in ("tools/dev/pages/map.txt", "docs/RULES.md", "docs/MAP.md", "crates/scm_play/src/rows.rt"))
# each column of the table, with what it names
COLUMNS = {
    "definition": "definition",
    "contract": "function with a contract",
    "runs": "function",
    "lemma": "lemma",
    "test": "test or example",
    "edit": "edit",
}
# the columns that the page shows
SHOWN = "definition", "contract", "edit"
HEAD = """# Map

<!-- made by tools/dev/make-pages from tools/dev/pages/map.txt and the sources; edit the table, not this page -->

Behind each rule of [RULES.md](RULES.md): its definitions, then the functions whose contracts promise it, then the edits that the prover refuses, or a dash. A link leads to a file, in which you search
for the name. `tools/dev/pages/map.txt` also names the code, the lemmas and the tests.
"""
DEFINITION = re.compile(r"^ *(?:pub )?(?:abbrev|unfoldable|record|data)(?: pub)? ([\w-]+)", re.M)
# a lemma, or an example that the prover computes: a name with its type, on the same line or below
LEMMA = re.compile(r"^(?: *pub )?([\w-]+)(?: :|(?=\n +:))", re.M)
FUNCTION = re.compile(r"(?P<test>#\[test\]\s+)?^ *(?:pub(?:\([^)]*\))? )?fn (?P<name>\w+)", re.M)
# from the name of a function to its body
SIGNATURE = re.compile(r".*?(?:^ *\{|\{$)", re.M | re.S)
OWNER = re.compile(r"^(?:pub )?(?:impl|trait)\b(.*)$|^\}", re.M)


class Wrong(Exception):
    """What is wrong, in one line."""


def sources(pattern):
    """The sources that a pattern names, each with its crate and its text."""
    for path in sorted(ROOT.glob("crates/" + pattern)):
        yield path.relative_to(ROOT).parts[1], path, path.read_text()


def owner_at(text, place):
    """The type or trait that a place of a source belongs to, if any."""
    last = None
    for last in OWNER.finditer(text, 0, place):
        pass
    if not last or last[1] is None:
        return None
    words, before = last[1], None
    while words != before:
        words, before = re.sub(r"<[^<>]*>", "", words), words
    return re.search(r"(?:.*\bfor )?(\w+)", words)[1]


def functions():
    """Each function: its parts (crate, module, perhaps its type, name), its file, whether it is a test, and whether it has a contract."""
    for crate, path, text in sources("*/src/**/*.rt"):
        for it in FUNCTION.finditer(text):
            owner = owner_at(text, it.start("name"))
            signature = SIGNATURE.match(text, it.end())
            has_contract = bool(signature and re.search(r"^ *ensures\b", signature[0], re.M))
            yield (crate, path.stem, *([owner] if owner else []), it["name"]), path, bool(it["test"]), has_contract


def names_in(pattern, regex):
    """Each name that a regular expression finds in sources: its parts (crate, file, name), and its file."""
    for crate, path, text in sources(pattern):
        for name in sorted({it[1] for it in regex.finditer(text)}):
            yield (crate, path.stem, name), path


def all_names():
    """For each column what it may name: parts and a file."""
    read = list(functions())
    examples = [*names_in("scm_worked_examples/proofs/*.antt", LEMMA), *names_in("*/proofs/*Examples.antt", LEMMA)]
    return {
        "definition": list(names_in("*/specs/**/*.antt", DEFINITION)),
        "contract": [it[:2] for it in read if it[3]],
        "runs": [it[:2] for it in read if not it[2]],
        "lemma": list(names_in("*/proofs/*Lemmas.antt", LEMMA)),
        "test": [it[:2] for it in read if it[2]] + examples,
        "edit": [((*it.relative_to(ROOT).parts[1:3], it.stem), it) for it in sorted(ROOT.glob("crates/*/*/*.edit"))],
    }


def means(name, parts):
    """Whether a name, whose parts `::` separates, means what has these parts: it may leave out any but the last one."""
    wanted = name.split("::")
    rest = iter(parts)
    return wanted[-1] == parts[-1] and all(it in rest for it in wanted)


def link(title, path):
    """A link from the page to a file of the tree."""
    return "[%s](../%s)" % (title, path.relative_to(ROOT))


def row_link(name):
    """The link to a group of rows of the table of scripts, by the beginning of the comment above it."""
    found = [it for it in ROWS.read_text().splitlines() if it.startswith("# " + name)]
    if len(found) != 1:
        raise Wrong("%d groups of rows, and not one, begin with %r" % (len(found), name))
    return link("“%s”" % name, ROWS)


def name_link(column, name, names):
    """The link to what a name of a column means."""
    if column == "test" and name.startswith('"'):
        return row_link(name.strip('"'))
    found = [it for it in names[column] if means(name, it[0])]
    if not found:
        raise Wrong("no %s has the name %s" % (COLUMNS[column], name))
    if len(found) > 1:
        raise Wrong("%s is the name of more than one %s: %s" % (name, COLUMNS[column], ", ".join("::".join(it[0]) for it in found)))
    parts, path = found[0]
    is_method = column in ("contract", "runs") and len(parts) == 4
    return link("`%s`" % ("::".join(parts[2:]) if is_method else parts[-1]), path)


def cell(column, text, names):
    """A cell of the page, from the names of an entry, which `, ` separates outside of quotes."""
    wanted = re.findall(r'"[^"]*"|[^\s,]+', text or "")
    return ", ".join(name_link(column, it, names) for it in wanted) or "—"


def anchor(heading):
    """What a link to a heading has behind its `#`."""
    return re.sub(r"[^\w\- ]", "", heading.lower()).replace(" ", "-")


def entries():
    """The entries of the table: the number of its line, its heading, its rule, and the names of each column."""
    heading = entry = None
    for number, line in enumerate(TABLE.read_text().splitlines(), 1):
        if line.startswith("#") or not line.strip():
            continue
        if line.startswith("["):
            heading = line.strip("[]")
        elif not line.startswith(" "):
            if entry:
                yield entry
            entry = (number, heading, line, {})
        else:
            column, text = line.split(None, 1)
            if column not in COLUMNS or column in entry[3]:
                raise Wrong("%s:%d: %s is no column, or the entry has it twice" % (TABLE.relative_to(ROOT), number, column))
            entry[3][column] = text
    if entry:
        yield entry


def parts_of_rules():
    """The headings of RULES.md below each part of it, the part's own among them."""
    parts = {}
    for marks, heading in re.findall(r"^(##+) (.*)$", RULES.read_text(), re.M):
        if marks == "##":
            below = parts.setdefault(heading, [])
        below.append(heading)
    return parts


def page():
    """The text of docs/MAP.md."""
    names, parts = all_names(), parts_of_rules()
    tables = {it: [] for it in parts}
    for number, heading, rule, named in entries():
        try:
            part = [it for it in parts if heading in parts[it]]
            if len(part) != 1:
                raise Wrong("docs/RULES.md has %d headings, and not one, with the words %s" % (len(part), heading))
            cells = {it: cell(it, named.get(it), names) for it in COLUMNS}
        except Wrong as wrong:
            raise Wrong("%s:%d: %s" % (TABLE.relative_to(ROOT), number, wrong)) from None
        # what only tests carry is no row
        if any(named.get(it) for it in SHOWN):
            row = "- [%s](RULES.md#%s): %s" % (rule, anchor(heading), "; ".join(cells[it] for it in SHOWN))
            tables[part[0]].append((parts[part[0]].index(heading), row))
    shown = [(it, [row for _, row in sorted(tables[it], key=lambda row: row[0])]) for it in parts if tables[it]]
    return HEAD + "".join("\n## %s\n\n%s\n" % (part, "\n".join(rows)) for part, rows in shown)


try:
    text = page()
    if "--check" not in sys.argv[1:]:
        PAGE.write_text(text)
    elif not PAGE.exists() or PAGE.read_text() != text:
        raise Wrong("docs/MAP.md is not what tools/dev/make-pages writes: run it")
except Wrong as wrong:
    print(wrong)
    sys.exit(1)
