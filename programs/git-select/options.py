"""The options of git-select, in one table. The help is made of it, and tools/dev/make-pages makes of it the list of the man page and what
shells complete."""
import collections
import types

from choosing.words import version_of

# An option: its names, the value that follows it, its words in the help, and what the man page says, where `CODE` and *VALUE* are set
# off. `way` is what it does with a choice, by the name of a class behind that of its module, or how what was cut off is mended: one of these can
# be given. `values` says what the value may be: `commits` or `files`. `taken` is how the reader takes it, where that is not by its name.
Option = collections.namedtuple("Option", "names value help page way values taken", defaults=(None, None, {}))

FINISH, UNDO = "finish", "undo"
STAGE, UNSTAGE, RESTORE, STASH = "ways.Stage", "ways.Unstage", "restore.Restore", "stash.Stash"
COMMIT, AMEND, FIXUP, SPLIT = "commits.Commit", "commits.Amend", "commits.Fixup", "commits.Split"
# how files that git does not know are shown; no folder of them is one item, so two words mean the same
UNTRACKED = "all", "normal", "no"
# those that take a message, and those whose choice can be edited: it goes into the index
TOLD, TOLD_WORDS = (COMMIT, AMEND, SPLIT, STASH), "--commit, --amend, --split and --stash"
EDITED = STAGE, UNSTAGE, COMMIT, AMEND, FIXUP
# what can follow a choice, each of it a choice of what is left
THEN = {"stage": STAGE, "restore": RESTORE, "stash": STASH, "commit": COMMIT}
OPTIONS = (
    Option(
        ["--unstage"], None, "take chosen changes out of the index",
        "Shows what is staged. What you mark is taken out of the index; the working tree stays.", UNSTAGE,
    ),
    Option(
        ["--restore"], None, "take chosen changes back in the working tree, to what the index has; git keeps what the files had",
        "Shows what changed in the working tree. What you mark is taken back, to what the index has. Before a file is written, git "
        "stores its contents, and their name is printed. `git cat-file blob` *NAME* prints them, until git removes objects that nothing "
        "refers to (after two weeks, if `gc.pruneExpire` is not set). Files that the index does not have are left alone.", RESTORE,
    ),
    Option(
        ["--stash"], None, "take chosen changes back in the working tree, and keep them as a stash, which git stash pop brings back",
        "Shows the same changes. What you mark is taken back, and kept as a stash. Then it says how you have it back: by `git stash pop` "
        "if that works, and else by what does.", STASH,
    ),
    Option(
        ["--commit"], None, "commit chosen changes, with those that are staged; `e` edits the message",
        "Shows the same changes as without an option, and commits what is marked, with what was staged before. The files of that are "
        "named first, and the last row of the terminal has their number. `e` edits the message, in git's editor. It begins as "
        "`commit.template` says. If there is none, or it is the template as it is, git opens its editor after `c`. Hooks run as with "
        "`git commit`. If git does not commit, the index is as it was.", COMMIT,
    ),
    Option(
        ["--amend"], None, "add chosen changes, and those that are staged, to the last commit; `e` edits its message",
        "Does the same, and adds it to the last commit. The message begins as the last commit has it.", AMEND,
    ),
    Option(
        ["--fixup"], "COMMIT", "commit chosen changes, with those that are staged, as a fixup of this commit",
        "Does the same, and makes a fixup of this commit, for `git rebase --autosquash`.", FIXUP, "commits",
    ),
    Option(
        ["--split"], None, "make two commits of the last one: the first has the chosen changes, and the second the rest",
        "Shows what the last commit changes, and makes two commits of it: the first has what is marked, and the second has the files of "
        "the last commit. Both have its author and its message; `e` edits the first one's message. Index and working tree stay, and "
        "hooks do not run.", SPLIT,
    ),
    Option(
        ["--finish"], None, "finish a restore or a stash that was cut off",
        "Finishes what `--restore` or `--stash` was writing when it was cut off, as by a loss of power. The next call of `git select` "
        "says if this is needed. A file that changed since is named, and nothing is touched then.", FINISH,
    ),
    Option(
        ["--undo"], None, "undo a restore or a stash that was cut off",
        "Undoes what was cut off, in place of that, and removes a lock of the index that was left.", UNDO,
    ),
    Option(
        ["-m", "--message"], "TEXT", "the message to begin with, for " + TOLD_WORDS,
        "The message to begin with, for `--commit`, `--amend`, `--split` (of the first commit) and `--stash`.",
    ),
    Option(
        ["-w", "--ignore-all-space"], None, "leave lines that differ by blanks alone as they are now",
        "Shows lines that differ by blanks alone as they are now in what is written, and leaves them so, whatever you mark. Blanks are tabs, "
        "vertical tabs, form feeds, carriage returns and spaces. The row of a file says how many such lines it has. It is not for `--stash`.",
        None, None, {"action": "store_true"},
    ),
    Option(
        ["--only"], "PATH", "show only what this path or pathspec names; can be given again", "Shows only what *PATH* names, which is a "
        "pathspec of git (gitglossary). It can be given again, and is the same as *PATH* without an option. What is staged goes into a "
        "commit all the same.", None, "files", {"action": "append", "default": []},
    ),
    Option(
        ["--edit"], None, "open what is chosen of a file in the editor before it is put in place",
        "Opens what is marked of a file in git's editor, before it goes into the index or into a commit: the whole file, as it is to be "
        "there. What you write is taken byte for byte. A file of which all or nothing is marked is not opened. If the editor fails, or "
        "leaves an empty file, nothing is changed. It is for no option that writes the working tree, and not for `--split`.",
        None, None, {"action": "store_true"},
    ),
    Option(
        ["--then"], "WAY", "choose once more when that is done, of what is left: to %s it" % ", ".join(THEN),
        "Opens the screen once more when all that was marked is done, over what is left: for `stage`, `restore`, `stash` or `commit`. "
        "So `git select --then=restore` stages some lines and takes others back. If the first choice is given up or refused, the second "
        "one is not asked for.", None, None, {"choices": tuple(THEN)},
    ),
    Option(
        ["--untracked-files"], "MODE", "show files that git does not know (all, normal), or not (no); -uMODE for short, and -u for all",
        "Shows files that git does not know: each of them (`all`, and `normal`, which is the same here), or none (`no`). `-u`*MODE* is "
        "short for it, and *MODE* is `all` if it is missing. Without it `status.showUntrackedFiles` says that.", None, None,
        {"dest": "untracked", "choices": UNTRACKED},
    ),
    Option(
        ["--no-untracked"], None, "show no files that git does not know", "The same as `-uno`.", None, None,
        {"dest": "untracked", "action": "store_const", "const": "no"},
    ),
    Option(
        ["--read-all"], None, "read also the largest files, beyond 20 MB in all",
        "Reads all files. Without it the largest ones are not read, until the others have 20 MB together: such a file is one item.",
        None, None, {"action": "store_true"},
    ),
    Option(
        ["-v", "--verbose"], None, "name each file when all is done, also if they are more than 20",
        "Names each file when all is done. Without it more than twenty are counted.", None, None, {"action": "store_true"},
    ),
    Option(
        ["--marks"], "FILE", "take up the marks that were kept in this file",
        "Begins with the marks that were kept when something was refused, or the front end was killed.", None, "files",
    ),
    Option(["--version"], None, "print the version", "Prints the version."),
)


def options_of(words, about, epilogue):
    """Returns the options and paths among `words`, and prints the help if it is asked for there. `about` and `epilogue` are parts of it."""
    from choosing.arguments import Arguments

    reader = Arguments("git-select", about, epilogue)
    add_options(reader, version_of("git-select"))
    return read_options(reader, words)


def without_words():
    """Returns the same without words."""
    read = (option for option in OPTIONS if not option.way or option.value)
    names = (option.taken.get("dest") or option.names[-1].strip("-").replace("-", "_") for option in read)
    return types.SimpleNamespace(**{**dict.fromkeys(names), "way": STAGE, "paths": []})


def class_of(way):
    """Returns the class that has this name in the table. Its module is loaded only then."""
    module, _, name = way.partition(".")
    return getattr(__import__(module), name)


def following(options):
    """Returns the options of the choice that follows."""
    way = THEN[options.then]
    more = {"way": way, "message": None, "marks": None, "then": None, "edit": options.edit and way in EDITED}
    return types.SimpleNamespace(**{**vars(options), **more})


def add_options(reader, version):
    """Has `reader` read the options, and paths."""
    ways = reader.add_mutually_exclusive_group()
    for option in OPTIONS:
        if option.value:
            (ways if option.way else reader).add_argument(*option.names, metavar=option.value, help=option.help, **option.taken)
        elif option.way:
            ways.add_argument(*option.names, dest="way", action="store_const", const=option.way, default=STAGE, help=option.help)
        elif option.taken:
            reader.add_argument(*option.names, help=option.help, **option.taken)
        else:
            reader.add_argument(*option.names, action="version", version=version, help=option.help)
    reader.add_argument("paths", metavar="PATH", nargs="*", help="a file or folder to look at; without one, the whole repository")


def read_options(reader, words):
    """Returns the options and paths among `words`. What follows `--` is paths. Ends the program if they do not fit one another."""
    end = words.index("--") if "--" in words else len(words)
    options = reader.parse_intermixed_args([spelled(word) for word in words[:end]])
    options.paths += [*options.only, *words[end + 1 :]]
    if options.fixup is not None:
        options.way = FIXUP
    if options.message is not None and options.way not in TOLD:
        reader.error("a message is for " + TOLD_WORDS)
    if options.edit and options.way not in (*EDITED, FINISH, UNDO):
        reader.error("the editor is for a choice that goes into the index")
    if options.ignore_all_space and STASH in (options.way, THEN.get(options.then)):
        reader.error("a stash has changes of blanks, too")
    if options.way in (FINISH, UNDO) and (options.paths or options.marks or options.edit or options.then or options.ignore_all_space):
        reader.error("--%s takes nothing else" % options.way)
    if not is_text(options.message or ""):
        reader.error("the message is not UTF-8")
    return options


def spelled(word):
    """Returns `-u` and `-uMODE`, in which MODE may be missing as with git, by their long name."""
    if word in ("-u", "--untracked-files"):
        return "--untracked-files=all"
    return "--untracked-files=" + word[2:] if word.startswith("-u") else word


def is_text(words):
    """Whether an argument of the program is UTF-8."""
    try:
        return words.encode() is not None
    except UnicodeEncodeError:
        return False
