/* Merges two changed versions of a file in a terminal, over the library for C: reads three files, has the user settle the conflicts, and
 * writes the merge. No proof covers this file, nor those beside it, of which it is made. */
#define _GNU_SOURCE
#include "again.h"
#include "chosen.h"
#include "keys.h"
#include "merging.h"
#include "program.h"
#include "shown.h"

#include <getopt.h>
#include <signal.h>
#include <stdio.h>
#include <string.h>
#include <sys/ioctl.h>

/* The keys for sections that this program hears itself. */
#define OPEN_CONFLICTS "  ], [                      goes to the next or the previous open conflict\n"

static const char HELP[] =
    "usage: " NAME " [OPTION ..] BASE OURS THEIRS OUTPUT\n\n"
    "Merges the files OURS and THEIRS, which both came from BASE, and writes the merge to OUTPUT. Lines that one side alone changed are\n"
    "taken without asking. Each conflict is shown with our lines, those of the base and theirs: mark what the merge is to have. If there is\n"
    "no conflict, nothing is shown. BASE may be empty, or missing.\n\n"
    "  --path NAME            the name of the file that is shown, if it is not that of OUTPUT\n"
    "  --base-label LABEL, --ours-label LABEL, --theirs-label LABEL\n"
    "                         what is shown of a version, as the name of its branch\n"
    "  --marks FILE           take up the marks of a run that was cut off: it says where they are\n"
    "  --markers              write the merge also if conflicts are open, with conflict markers around these; the status is 1\n"
    "  --marker-length NUMBER how many signs a marker has, if it is not 7; it has more if a line begins so\n"
    "  --version, --help      print the version, or this text\n\n"
    "The status is 0 if the merge was written, 1 if you left it or conflicts are open, and 2 for an error. Unless it is 0, OUTPUT stays,\n"
    "but for --markers.\n\n"
    KEYS
    OPEN_CONFLICTS
    "\nThe man page says how git, jj and hg call this program, and names the variables that choose colours and keys.\n";

/* A no-break space, which no path has as it is shown, is between a path and how many conflicts there are. */
#define AFTER_PATH "\xc2\xa0"

/* The keys that go to another open conflict, and how many open conflicts are named. */
enum { NEXT_OPEN = ']', PREVIOUS_OPEN = '[', MOST_NAMED = 10 };

/* How many signs git gives a conflict marker, and how many may be asked for: more than a line that is shown begins with. */
enum { USUAL_SIGNS = 7, MOST_SIGNS = 9999999 };

/* What the arguments ask for, and what was read for it. */
typedef struct task {
    const char *base, *ours, *theirs, *output; /* paths */
    const char *path;                          /* the name that is shown */
    target target;                             /* OUTPUT, in a folder that is open */
    mode_t permissions;                        /* that all files have that were read */
    bool has_markers;                          /* the merge is written also if conflicts are open */
    size_t marker_length;                      /* how many signs a conflict marker has at least */
    const char *marks;                         /* the file with marks that are taken up, or NULL */
    kept_marks kept;                           /* where marks are kept while the user chooses */
    labels labels;
    layer layer;
    merge merge;
    size_t open; /* how many conflicts the marks leave open */
    int terminal;
    size_t columns; /* of the terminal, when the status row last got its words */
    chosen chosen; /* in the first session: after that the marks are the user's work */
    bool has_run;
} task;

/* ---- What is read ---- */

/* Reads a version. Says what is wrong with it and exits, unless all is well. */
static void read_version(const char *path, text *into, mode_t *permissions) {
    check(read_source(path, into, permissions), path, NULL);
    bool is_binary = into->length > 0 && memchr(into->bytes, 0, into->length);
    check(!is_binary, path, "it has a NUL byte, as no text has: nothing was written");
}

/* Returns whether there is no file at a path. */
static bool is_missing(const char *path) { return access(path, F_OK) != 0 && errno == ENOENT; }

/* Opens the folder of OUTPUT, reads the three versions, and finds their conflicts. */
static void read_versions(task *task) {
    merge *merge = &task->merge;
    check(find_target(task->output, &task->target), task->output, NULL);
    if (!is_missing(task->base)) {
        read_version(task->base, &merge->base, &task->permissions);
    }
    read_version(task->ours, &merge->ours, &task->permissions);
    read_version(task->theirs, &merge->theirs, &task->permissions);
    check_code(find_conflicts(merge), "the files cannot be compared");
    task->open = merge->conflicts;
}

/* Gives the conflicts the marks that were kept, if the user names a file of them. */
static void take_up_marks(task *task, uint64_t known) {
    text lines = {0}, *marks = &task->merge.marks;
    const char *why = task->marks ? read_marks(task->marks, known, &lines) : NULL;
    check(!why, task->marks, why);
    piece left = {lines.bytes, lines.length}, found = next_marks(&left);
    if (task->marks) {
        check(found.length == marks->length, task->marks, "it has not the marks of each conflict");
        memcpy(marks->bytes, found.bytes, found.length);
        check_code(count_open(&task->merge, &task->open), "cannot go on");
    }
    free(lines.bytes);
}

/* Has the marks be kept while the user chooses, and takes up those that were kept. */
static void begin_keeping(task *task) {
    const text *versions[] = {&task->merge.base, &task->merge.ours, &task->merge.theirs};
    uint64_t known = KNOWN_BY_NOTHING;
    for (size_t i = 0; i < sizeof versions / sizeof *versions; i++) {
        known = known_by(known, (piece){versions[i]->bytes, versions[i]->length});
    }
    take_up_marks(task, known);
    task->kept = begin_marks(known_by(KNOWN_BY_NOTHING, (piece){task->output, strlen(task->output)}), known, task->marks);
}

/* ---- What is shown ---- */

/* Adds how many conflicts there are, and how many of them are open if that is another number. */
static bool add_count(text *into, const task *task) {
    size_t all = task->merge.conflicts, open = task->open;
    return append_words(into, all == 1 ? "1 conflict" : "%zu conflicts", all) && (open == all || append_words(into, ", %zu open", open));
}

/* Returns how many columns the terminal has. */
static size_t columns_of(int terminal) {
    struct winsize size = {0};
    bool is_known = ioctl(terminal, TIOCGWINSZ, &size) == 0 && size.ws_col > 0;
    return is_known ? size.ws_col : WIDTH;
}

/* Returns how many characters UTF-8 has: that many columns, unless some are wide. */
static size_t characters_of(const char *words) {
    size_t count = 0;
    for (; *words; words++) {
        count += (*words & 0xc0) != 0x80;
    }
    return count;
}

/* Adds two blanks and words, if `into` then has at most `room` characters. */
static bool add_if_it_fits(text *into, const char *words, size_t room) {
    bool fits = characters_of(into->bytes) + 2 + characters_of(words) <= room;
    return !fits || append_words(into, "  %s", words);
}

/* Has the status row say how many conflicts are open, before what accepting does. The row leaves out words that do not fit, all of them: so
 * those that can be missed are left out here. The numbers of lines and files come before them. */
static void show_open(gabro_session *session, const task *task) {
    text words = {0};
    size_t numbers = (size_t)snprintf(NULL, 0, "  lines: %zu, files: 1  ", task->merge.marks.length);
    size_t room = task->columns > numbers ? task->columns - numbers : 0;
    bool is_made = append_words(&words, "open: %zu/%zu", task->open, task->merge.conflicts);
    is_made = is_made && (task->open == 0 || add_if_it_fits(&words, "]: next", room)) && add_if_it_fits(&words, task->layer.accept, room);
    if (is_made) {
        gabro_accept_text(session, words.bytes, words.length);
    }
    free(words.bytes);
}

/* Begins a session that shows the merge, with the first open conflict selected. */
static void begin(gabro_session *session, const task *task, int terminal) {
    text title = {0};
    bool is_made = add_shown(&title, task->path) && append(&title, AFTER_PATH "(", 3) && add_count(&title, task) && append(&title, ")", 1);
    check(is_made, "the merge cannot be shown", NULL);
    uint32_t code = show_merge(session, (piece){title.bytes, title.length}, &task->merge);
    check(code != GABRO_TOO_LONG, task->path, "a line is too long to be shown: nothing was written");
    check_code(code, "the merge cannot be shown");
    code = begin_layer(session, &task->layer, WIDTH, HEIGHT);
    check(code != GABRO_NOT_ACCEPTED, task->path, "it has too many lines to be shown: nothing was written");
    check_code(code, "the merge cannot be shown");
    free(title.bytes);
    prepare(session, &task->layer, terminal);
    if (task->layer.is_on) {
        check_code(label_conflicts(session, &task->merge, &task->labels), "the merge cannot be shown");
        gabro_key first = next_open(&task->merge, GABRO_NO_INDEX, true);
        check_code(gabro_start(session, GABRO_AS_IT_IS, &first), "cannot go on");
        show_open(session, task);
    }
}

/* Follows the marks: keeps them, and says in the status row how many conflicts they leave open. Nothing fails if there is no memory for it: the
 * row then says what it did. */
static void follow_marks(void *context, gabro_session *session) {
    task *task = context;
    if (gabro_stage(session) == GABRO_WAITING && keep_marks(session, &task->merge) == GABRO_DONE) {
        size_t open = open_by_marks(&task->merge), columns = columns_of(task->terminal);
        bool is_other = open != task->open || columns != task->columns;
        task->open = open;
        task->columns = columns;
        if (is_other) {
            show_open(session, task);
        }
    }
}

/* Keeps the marks where the user rests. */
static void keep_here(void *context, gabro_session *session) {
    task *task = context;
    keep_now(&task->kept, session);
}

/* Follows what was typed. Nothing is asked about what nobody changed. */
static void follow(void *context, gabro_session *session) {
    task *task = context;
    follow_marks(task, session);
    quit_if_unchanged(&task->chosen, session);
}

/* Goes to the next open conflict, or to the previous one. */
static void press_key(void *context, gabro_session *session, uint32_t key) {
    const task *task = context;
    gabro_key selected;
    if (key == NEXT_OPEN || key == PREVIOUS_OPEN) {
        follow_marks(context, session);
        size_t section = gabro_selected(session, &selected) == GABRO_DONE ? selected.section : GABRO_NO_INDEX;
        gabro_key next = next_open(&task->merge, section, key == NEXT_OPEN);
        gabro_select(session, &next);
    }
}

/* Runs the session, under a title that says how many conflicts there are. Returns whether the terminal is still there. */
static bool run(gabro_session *session, task *task, int terminal) {
    text title = {0};
    const char *asked = getenv("SELECT_TITLE");
    bool is_on = task->layer.is_on;
    const char *keys = page_of_keys(&task->layer, PAGE_OF_KEYS(OPEN_CONFLICTS));
    const gabro_hooks hooks = {.context = task, .changed = is_on ? follow : NULL, .rested = keep_here, .pressed = is_on ? press_key : NULL, .keys = keys};
    check(append_words(&title, NAME ": ") && add_count(&title, task), "cannot go on", NULL);
    task->chosen = is_on && !task->has_run ? begin_chosen(session) : (chosen){0};
    task->has_run = true;
    bool is_there = run_in_terminal(session, terminal, asked ? asked : title.bytes, &hooks);
    free(task->chosen.first.bytes);
    free(title.bytes);
    return is_there;
}

/* Reads a line of the terminal. Returns its first letter, or 0 if there is none, and -1 at the end. */
static int read_letter(int terminal) {
    char line[256];
    ssize_t count;
    do {
        count = read(terminal, line, sizeof line);
    } while (count < 0 && errno == EINTR);
    return count <= 0 ? -1 : line[0] == '\n' ? 0 : (unsigned char)line[0];
}

/* Adds how many conflicts are open, and in brackets their numbers, or the first ones. */
static bool add_open(text *into, const task *task) {
    const merge *merge = &task->merge;
    size_t named = 0;
    bool is_added = append_words(into, "%zu of %zu conflicts %s open (", task->open, merge->conflicts, task->open == 1 ? "is" : "are");
    for (size_t i = 0; i < merge->conflicts && named < MOST_NAMED && is_added; i++) {
        if (is_open(merge, &merge->found[i])) {
            is_added = append_words(into, named++ > 0 ? ", %zu" : "%zu", i + 1);
        }
    }
    return is_added && append_words(into, "%s", task->open > named ? " ..)" : ")");
}

/* Asks whether the user goes back to the conflicts that are open. Returns the letter of the answer, as read_letter does. */
static int ask(const task *task, int terminal) {
    text words = {0};
    const char *left = task->has_markers ? "leaves the file with conflict markers" : "leaves the file as it is";
    bool is_made = add_open(&words, task) && append_words(&words, ". Enter goes back, l %s: ", left);
    bool is_asked = is_made && write_bytes(terminal, words.bytes, words.length);
    free(words.bytes);
    return is_asked ? read_letter(terminal) : -1;
}

/* Returns whether this answer, or the end of the terminal, leaves the conflicts open. */
static bool leaves_open(int letter) { return letter < 0 || letter == 'l' || letter == 'L'; }

/* ---- What is written ---- */

/* Writes the merge to the file of the task, with conflict markers if a conflict is open. A limit of the size of files is an error of the
 * write. */
static void write_output(task *task) {
    text merged = {0};
    bool is_marked = task->open > 0;
    check_code(is_marked ? read_with_markers(&task->merge, &task->labels, task->marker_length, &merged) : read_merged(&task->merge, &merged),
               "cannot go on");
    signal(SIGXFSZ, SIG_IGN);
    check(replace_target(&task->target, (piece){merged.bytes, merged.length}, task->permissions), task->output, NULL);
    free(merged.bytes);
}

/* Has the user choose once. Returns whether that was accepted, and else sets `status`. */
static bool choose(task *task, int terminal, int *status) {
    gabro_session session = {0};
    task->terminal = terminal;
    task->columns = columns_of(terminal);
    begin(&session, task, terminal);
    bool is_there = run(&session, task, terminal), is_accepted = gabro_stage(&session) == GABRO_ACCEPTED;
    if (is_accepted) {
        check_code(keep_marks(&session, &task->merge), "cannot go on");
        check_code(count_open(&task->merge, &task->open), "cannot go on");
    } else {
        *status = give_up(&session, is_there);
    }
    gabro_free(&session);
    return is_accepted;
}

/* Has the user settle the conflicts, and writes the merge if none is open any more, or if the user leaves open ones with markers. Returns the
 * status. */
static int settle(task *task) {
    int terminal = open_terminal(), status = GIVEN_UP, letter = 0;
    bool is_accepted;
    begin_keeping(task);
    do {
        is_accepted = choose(task, terminal, &status);
    } while (is_accepted && task->open > 0 && !leaves_open(letter = ask(task, terminal)));
    end_marks(&task->kept);
    if (!is_accepted) {
        return status;
    }
    bool has_open = task->open > 0, is_written = !has_open || (task->has_markers && letter > 0);
    if (is_written) {
        write_output(task);
    }
    if (has_open) {
        text words = {0};
        check(add_open(&words, task), task->output, NULL);
        say("%s: %s %s", words.bytes, task->output, is_written ? "has conflict markers" : "stays as it is");
        free(words.bytes);
    }
    return has_open ? GIVEN_UP : 0;
}

/* ---- The arguments ---- */

/* Returns the length of conflict markers that an argument asks for. */
static size_t read_length(const char *digits) {
    size_t length = 0;
    bool is_right = *digits != '\0';
    for (const char *at = digits; *at && is_right; at++) {
        is_right = '0' <= *at && *at <= '9' && length <= MOST_SIGNS;
        length = 10 * length + (size_t)(*at - '0');
    }
    check(is_right && 0 < length && length <= MOST_SIGNS, "--marker-length", "it takes a number from 1 to 9,999,999");
    return length;
}

/* Reads the options into `task`. Returns the letter of one that asks for a text, or 0. */
static int read_options(int argc, char **argv, task *task) {
    static const struct option options[] = {
        {"path", required_argument, NULL, 'p'},       {"base-label", required_argument, NULL, 'B'},
        {"ours-label", required_argument, NULL, 'O'}, {"theirs-label", required_argument, NULL, 'T'},
        {"markers", no_argument, NULL, 'm'},          {"help", no_argument, NULL, 'h'},
        {"version", no_argument, NULL, 'v'},          {"marks", required_argument, NULL, 'k'},
        {"marker-length", required_argument, NULL, 'l'}, {0},
    };
    int letter;
    opterr = 0;
    /* behind the first path are paths alone: git hands in the name of a file, which may be that of an option */
    while ((letter = getopt_long(argc, argv, "+h", options, NULL)) != -1) {
        check(letter != '?', "wrong arguments", "try " NAME " --help");
        switch (letter) {
        case 'p': task->path = optarg; break;
        case 'B': task->labels.base = (piece){optarg, strlen(optarg)}; break;
        case 'O': task->labels.ours = (piece){optarg, strlen(optarg)}; break;
        case 'T': task->labels.theirs = (piece){optarg, strlen(optarg)}; break;
        case 'm': task->has_markers = true; break;
        case 'l': task->marker_length = read_length(optarg); break;
        case 'k': task->marks = optarg; break;
        default: return letter;
        }
    }
    return 0;
}

/* Reads the paths behind the options into `task`. */
static void read_paths(int count, char **paths, task *task) {
    check(count == 4, "wrong arguments", "try " NAME " --help");
    task->base = paths[0];
    task->ours = paths[1];
    task->theirs = paths[2];
    task->output = paths[3];
    task->path = task->path ? task->path : task->output;
}

/* Reads the environment. Unless that says so, everything is unfolded, and the status row says what accepting does. */
static void read_looks(layer *layer) {
    const char *start = getenv("SELECT_START");
    read_environment(layer);
    layer->folds = start && *start ? layer->folds : GABRO_ALL_OPEN;
    layer->accept = getenv("SELECT_ACCEPT") ? layer->accept : "c writes the merge";
}

int main(int argc, char **argv) {
    task task = {.permissions = ~(mode_t)0, .marker_length = USUAL_SIGNS};
    int asked = read_options(argc, argv, &task);
    if (asked) {
        return print(asked == 'v' ? NAME " " GABRO_VERSION_TEXT "\n" BUILD : HELP);
    }
    read_paths(argc - optind, argv + optind, &task);
    fill_standard_files();
    read_looks(&task.layer);
    hear_ends();
    read_versions(&task);
    int status = 0;
    if (task.open > 0) {
        status = settle(&task);
    } else {
        write_output(&task);
    }
    free_merge(&task.merge);
    return status;
}
