#!/usr/bin/env python3
"""options.py [--check] [ROOT]: writes, from the table of programs/git-select/options.py of this tree or of another, what has the
options of git-select: the parts of its man page between the lines `options: made by tools/dev/make-pages` and `end of options`, and
the files by which bash, zsh and fish complete them (programs/git-select/completions). With --check it writes nothing, and says which
file is not as it would write it."""
import pathlib
import sys
import textwrap

sys.dont_write_bytecode = True
from parts import Wrong, roff, with_part, write_all  # noqa: E402

ARGUMENTS = [it for it in sys.argv[1:] if it != "--check"]
ROOT = pathlib.Path(ARGUMENTS[0]).resolve() if ARGUMENTS else pathlib.Path(__file__).resolve().parents[3]
PROGRAMS = ROOT / "programs"
PAGE, COMPLETIONS = PROGRAMS / "git-select/git-select.1", PROGRAMS / "git-select/completions"
sys.path[:0] = [str(PROGRAMS / "git-select"), str(PROGRAMS)]
from options import FINISH, OPTIONS, UNDO  # noqa: E402

MADE = "made by tools/dev/make-pages"
WIDTH = 130
# the names of commits that are completed have no letter that a shell reads: names of branches may. No program looks at signatures
COMMITS = "env GIT_NO_LAZY_FETCH=1 GIT_ALLOW_PROTOCOL= git log --no-show-signature -20 --format=%h 2> /dev/null"
ABOUT = "stage, take back, stash or commit chosen lines"
BASH = """# Completes git-select, and git select, in bash: {made}.
_git_select() {{
    local name word=${{COMP_WORDS[COMP_CWORD]}} words=
    compopt +o nospace 2> /dev/null
    case ${{COMP_WORDS[COMP_CWORD - 1]}} in
{cases}
    *) case $word in -*) words="{names}" ;; esac ;;
    esac
    # without words, files are completed
    COMPREPLY=()
    for name in $words; do
        case $name in "$word"*) COMPREPLY+=("$name") ;; esac
    done
}}
complete -o bashdefault -o default -F _git_select git-select
"""
ZSH = """#compdef git-select
#description {about}
# Completes git-select, and git select, in zsh: {made}.
_git-select() {{
  local -a commits
  commits=(${{(f)"$({commits})"}})
  _arguments -S \\
{lines}
    '*:path:_files'
}}
_git-select "$@"
"""


def names_of(option):
    """The names of an option with its value, for a man page."""
    value = "*%s*" % option.value if option.value else ""
    names = ["`%s`%s" % (name, value and ("`=`" if name.startswith("--") else " ") + value) for name in option.names]
    return ", ".join(names)


def paragraph(option):
    """The paragraph of an option in the man page."""
    lines = textwrap.wrap(roff(option.page), WIDTH, break_on_hyphens=False, break_long_words=False)
    # a line that begins with a point would be a request
    return ".TP\n%s\n%s\n" % (roff(names_of(option)), "\n".join(r"\&" + it if it[0] in ".'" else it for it in lines))


def man_page():
    return "".join(map(paragraph, OPTIONS))


def synopsis():
    """The lines of the man page that say which options are given together."""
    ways = [it for it in OPTIONS if it.way and it.way not in (FINISH, UNDO)]
    mends = [it for it in OPTIONS if it.way in (FINISH, UNDO)]
    others = [it for it in OPTIONS if it.value and not it.way]
    both = ".br\n".join((
        ".B git select\n[%s]\n%s[*PATH* ...]\n" % (either(ways), "".join("[%s]\n" % names_of(it) for it in others)),
        ".B git select\n%s\n" % either(mends),
    ))
    return "".join(line if line[0] == "." else roff(line) for line in both.splitlines(True))


def either(options):
    return " | ".join(map(names_of, options))


def bash():
    """The file for bash."""
    cases = ["    %s) words=$(%s) ;;" % ("|".join(it.names), COMMITS) for it in OPTIONS if it.values == "commits"]
    cases += ["    %s) ;;" % "|".join(it.names) for it in OPTIONS if it.value and it.values != "commits"]
    names = " ".join(name for it in OPTIONS for name in (*it.names, *(["-h", "--help"] if it is OPTIONS[-1] else [])))
    return BASH.format(made=MADE, cases="\n".join(cases), names=names)


def in_quotes(text):
    """A text in single quotes, as zsh and fish read it."""
    return "'%s'" % text.replace("'", "'\\''")


def for_zsh(option):
    """Yields the lines of an option for zsh."""
    ways = " ".join(name for it in OPTIONS if it.way for name in it.names)
    others = ways if option.way else " ".join(option.names)
    actions = {"commits": ":commit:compadd -a commits", "files": ":file:_files", None: ":text: "}
    action = actions[option.values] if option.value else ""
    for name in option.names:
        sign = "" if not option.value else "=" if name.startswith("--") else "+"
        text = option.help.replace("[", "\\[").replace("]", "\\]").replace(":", "\\:")
        yield "    %s \\" % in_quotes("(%s)%s%s[%s]%s" % (others, name, sign, text, action))


def zsh():
    """The file for zsh."""
    lines = [line for option in OPTIONS for line in for_zsh(option)]
    return ZSH.format(made=MADE, about=ABOUT, commits=COMMITS, lines="\n".join([*lines, "    '(-h --help)'{-h,--help}'[show the help]' \\"]))


def for_fish(option):
    """The line of an option for fish."""
    names = ["-l " + name[2:] if name.startswith("--") else "-s " + name[1:] for name in option.names]
    values = {"commits": " -x -a '(%s)'" % COMMITS, "files": " -r -F", None: " -x"}
    return "complete -c git-select %s%s -d %s\n" % (" ".join(names), values[option.values] if option.value else "", in_quotes(option.help))


def fish():
    """The file for fish."""
    head = "# Completes git-select, and git select, in fish: %s.\n" % MADE
    return head + "".join(map(for_fish, OPTIONS)) + "complete -c git-select -s h -l help -d 'show the help'\n"


def all_texts():
    """The text of each file."""
    page = with_part(PAGE, ROOT, "synopsis: " + MADE, "end of synopsis", synopsis())
    begin, end = "options: " + MADE, "end of options"
    texts = {COMPLETIONS / "git-select.bash": bash(), COMPLETIONS / "_git-select": zsh(), COMPLETIONS / "git-select.fish": fish()}
    return {PAGE: with_part(PAGE, ROOT, begin, end, man_page(), page), **texts}


try:
    write_all(all_texts(), ROOT, "--check" in sys.argv[1:])
except Wrong as wrong:
    print(wrong)
    sys.exit(1)
