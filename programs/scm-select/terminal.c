/* Selects changes in a terminal, over the library for C: reads files, folders or a state, runs it, and writes what was accepted. No
 * proof covers this file, nor those beside it, of which it is made. */
#define _GNU_SOURCE
#include "again.h"
#include "chosen.h"
#include "decided.h"
#include "handed.h"
#include "kept.h"
#include "keys.h"
#include "layer.h"
#include "opened.h"
#include "program.h"
#include "shown.h"
#include "written.h"

#include <errno.h>
#include <fcntl.h>
#include <getopt.h>
#include <signal.h>
#include <stdio.h>
#include <stdlib.h>
#include <string.h>
#include <unistd.h>

static const char HELP[] =
    "usage: " NAME " [-w] [-o FILE] [--marks FILE] OLD NEW\n"
    "       " NAME " [-w] -d [--marks FILE] LEFT RIGHT\n"
    "       " NAME " [-o FILE] STATE.json\n"
    "       " NAME " --changes CHANGES ACCEPTED\n"
    "       " NAME " --decide < ROWS\n\n"
    "Shows how the file NEW differs from OLD, and writes OLD with the changes that you mark to FILE, or to standard output.\n"
    "With -d, LEFT and RIGHT are folders, and RIGHT then has what LEFT has with the changes that you mark.\n"
    "A state has changes as JSON. With --json, what you accept is written in that form, also of files and folders.\n"
    "With -w, lines that differ by blanks alone are shown as OLD or LEFT has them, and stay so.\n"
    "--marks takes up the marks of a run that was cut off: it says where they are.\n\n"
    "The status is 0 for accepted changes, 1 if you gave up, and 2 for an error.\n\n"
    KEYS
    "\nSELECT_THEME is dark, light, sixteen or none, and NO_COLOR none; SELECT_START is as-is, folded, open or fit. Keys of your own are in\n"
    "~/.config/gabrosty/keys, one a line: \"ctrl-n j\". The man page says more.\n";

/* ---- What is shown ---- */

/* The forms in which changes come. */
typedef enum form { A_STATE, TWO_FILES, TWO_FOLDERS, HANDED_IN } form;

/* What the arguments ask for, and what was read for it. */
typedef struct task {
    form form;
    bool is_as_json;
    blanks blanks;         /* which changes are shown */
    const char *from, *to; /* the paths of what is shown; `to` is NULL for a state */
    const char *output;    /* the file to write to, or NULL for standard output */
    target target;         /* that file, in a folder that is open */
    const char *marks;     /* the file with marks that are taken up, or NULL */
    uint64_t known;        /* by what the two versions that are shown are known, if their marks may be kept for another run */
    mode_t permissions;    /* that all files have that were read */
    layer layer;
    text bytes;            /* of the state, or of what was handed in */
    differing file;
    folders folders;
    handed handed;
    opening opening;
} task;

/* How many bytes of a file take so long to be compared that the user is told. */
enum { MANY_BYTES = 1 << 22 };

/* Has a version be known. */
static uint64_t known_version(uint64_t known, const version *version) {
    uint64_t mode = version->mode;
    return known_by(known_by(known, (piece){(const char *)&mode, sizeof mode}), version->bytes);
}

/* Leaves out the changes of blanks, if the user or the program asks for it. Such changes are known by that, too: they have other items. */
static void leave_out(task *task, change *change) {
    static const char left_out[] = "without blanks";
    blanks blanks = task->form == HANDED_IN ? task->handed.blanks : task->blanks;
    if (blanks != ALL_CHANGES) {
        check_code(leave_out_blanks(change, blanks), "the changes cannot be shown");
        task->known = known_by(task->known, (piece){left_out, sizeof left_out});
    }
}

/* Adds a change to the state. On a terminal it says meanwhile what takes long. If a line is too long to be shown, says so. */
static void add(gabro_session *session, task *task, change *change) {
    if (task->form != HANDED_IN) {
        task->known = known_version(known_version(known_by(task->known, change->path), &change->old), &change->new);
    }
    if (task->is_as_json && task->form != HANDED_IN) {
        show_modes(change);
    }
    leave_out(task, change);
    bool had_lines = change->has_lines;
    bool is_long = change->old.bytes.length + change->new.bytes.length > MANY_BYTES && isatty(STDERR_FILENO);
    if (is_long) {
        print_shown("", "comparing %.*s ..", (int)change->path.length, change->path.bytes);
    }
    check_code(add_change(session, change), "the changes cannot be shown");
    if (is_long) {
        fputs("\r\x1b[K", stderr);
    }
    if (had_lines && !change->has_lines) {
        int length = (int)change->path.length;
        say("%.*s has a line that is too long to be shown: its changes are one item", length, change->path.bytes);
    }
}

static void open_state(gabro_session *session, task *task) {
    check(read_source(task->from, &task->bytes, &task->permissions), task->from, NULL);
    check_code(open_layer(session, &task->layer, &task->bytes, 0, 0), task->from);
}

static void open_files(gabro_session *session, task *task) {
    differing *file = &task->file;
    check(read_contents(task->from, &file->old, &task->permissions), task->from, NULL);
    check(read_contents(task->to, &file->new, &task->permissions), task->to, NULL);
    file->path = task->to;
    check(show_difference(file), task->to, NULL);
    check_code(gabro_state_new(session, false), task->to);
    add(session, task, &file->change);
}

/* Checks that no folder of the two lies in the other one, or is it: what is written would be read, and what is read be taken away. */
static void check_apart(const task *task) {
    int left = task->folders.left.top, right = task->folders.right.top;
    check(!is_same_folder(left, right), task->to, "it is the same folder as LEFT");
    check(!lies_in(left, right), task->from, "it lies in RIGHT");
    check(!lies_in(right, left), task->to, "it lies in LEFT");
}

static void open_folders(gabro_session *session, task *task) {
    char *path = NULL;
    check(open_top(&task->folders.left, task->from), task->from, NULL);
    check(open_top(&task->folders.right, task->to), task->to, NULL);
    check_apart(task);
    bool is_read = read_folders(&task->folders, &path);
    check(is_read, path ? path : task->to, NULL);
    check_code(gabro_state_new(session, false), task->to);
    for (size_t i = 0; i < task->folders.differ; i++) {
        add(session, task, &task->folders.files[i].change);
    }
}

static void open_handed(gabro_session *session, task *task) {
    check(read_source(task->from, &task->bytes, &task->permissions), task->from, NULL);
    const char *why = read_handed((piece){task->bytes.bytes, task->bytes.length}, &task->handed);
    check(!why, task->from, why);
    check_code(open_commits(session, &task->handed), task->from);
    for (size_t i = 0; i < task->handed.count; i++) {
        add(session, task, &task->handed.changes[i].change);
    }
}

/* Gives the files the marks that were kept, if the user names a file of them. */
static void take_up_marks(gabro_session *session, const task *task) {
    text lines = {0};
    size_t files = 0;
    const char *why = task->marks ? read_marks(task->marks, task->known, &lines) : NULL;
    check(!why, task->marks, why);
    piece left = {lines.bytes, lines.length};
    check_code(gabro_files(session, &files), "cannot go on");
    for (size_t i = 0; task->marks && i < files; i++) {
        piece marks = next_marks(&left);
        check(gabro_state_marks(session, i, marks.bytes, marks.length) == GABRO_DONE, task->marks, "it has not the marks of each file");
    }
    free(lines.bytes);
}

/* The key that marks everything. */
static const char MARK_ALL[] = "shift-A";

/* Begins a session over the state that was made, with the marks that it begins with. */
static void begin(gabro_session *session, task *task) {
    take_up_marks(session, task);
    if (task->form == HANDED_IN) {
        const char *why = mark_handed(session, &task->handed);
        check(!why, task->from, why);
    }
    uint32_t code = begin_layer(session, &task->layer, WIDTH, HEIGHT);
    check(code != GABRO_NOT_ACCEPTED, task->to, "there are too many lines to be shown: hand in fewer files");
    check_code(code, task->to);
    if (task->handed.is_all_marked) {
        gabro_press(session, MARK_ALL, sizeof MARK_ALL - 1);
    }
}

typedef void opener(gabro_session *session, task *task);

/* Opens a session over what the arguments name. */
static void open_session(gabro_session *session, task *task) {
    static opener *const opens[] = {open_state, open_files, open_folders, open_handed};
    opens[task->form](session, task);
    if (task->form != A_STATE) {
        begin(session, task);
    }
}

/* Returns whether a task has two versions that are equal, so that there is nothing to choose, and says so. */
static bool has_nothing(const task *task) {
    bool is_equal = task->form == TWO_FILES && is_same(&task->file.change.old, &task->file.change.new);
    bool has_none = is_equal || (task->form == TWO_FOLDERS && task->folders.differ == 0);
    if (has_none) {
        say("%s and %s are equal: there is nothing to choose", task->from, task->to);
    }
    return has_none;
}

static void free_task(task *task) {
    free(task->bytes.bytes);
    free_difference(&task->file);
    free_folders(&task->folders);
    free_handed(&task->handed);
    free(task->opening.kept.bytes);
    if (task->output) {
        close(task->target.folder);
    }
}

/* ---- The run, and what is written ---- */

/* The status of a run that ended since the user changed a file with `E`. */
enum { FILE_CHANGED = 3 };

/* Opens the folder of the file to write to, before the user chooses: nothing that comes there meanwhile leads elsewhere. */
static void find_output(task *task) { check(!task->output || find_target(task->output, &task->target), task->output, NULL); }

/* Writes bytes to the file of a task, or to standard output. A limit of the size of files is an error of the write. */
static void write_output(task *task, piece bytes) {
    const char *path = task->output;
    signal(SIGXFSZ, SIG_IGN);
    bool is_written = path ? replace_target(&task->target, bytes, task->permissions)
                           : write_bytes(STDOUT_FILENO, bytes.bytes, bytes.length) && close(STDOUT_FILENO) == 0;
    check(is_written, path ? path : "standard output", NULL);
}

/* Writes the text of accepted changes, or the records of those that were handed in. */
static void write_text(gabro_session *session, task *task) {
    text accepted = {0};
    bool is_handed = task->form == HANDED_IN && !task->is_as_json;
    text plain = {0};
    uint32_t code = is_handed ? write_accepted_sides(session, &task->handed, &accepted) : read_text(session, &accepted);
    check_code(code, "cannot go on");
    piece bytes = {accepted.bytes, accepted.length};
    if (!is_handed) {
        check(add_plain_json(&plain, bytes), "cannot go on", NULL);
        bytes = (piece){plain.bytes, plain.length};
    }
    write_output(task, bytes);
    free(accepted.bytes);
    free(plain.bytes);
}

/* Writes the selected side of the file. */
static void write_file(gabro_session *session, task *task) {
    text bytes = {0};
    side side;
    check_code(read_side(session, 0, &task->file.change, true, &bytes, &side), "cannot go on");
    write_output(task, side.bytes);
    free(bytes.bytes);
}

/* Has the right folder hold the selected sides. */
static void write_folder(gabro_session *session, task *task) {
    failure failure = {0};
    int end = write_right(session, &task->folders, &failure);
    if (end != WRITTEN) {
        const char *left = end == HALF_WRITTEN ? "a part is written" : "nothing was written";
        say("%s: %s: %s", named(failure.path ? failure.path : task->to), failure.why, left);
        exit(FAILED);
    }
}

static void write_accepted(gabro_session *session, task *task) {
    if (task->form == A_STATE || task->form == HANDED_IN || task->is_as_json) {
        write_text(session, task);
    } else if (task->form == TWO_FILES) {
        write_file(session, task);
    } else {
        write_folder(session, task);
    }
}

/* Scrolls up to the message of a commit, if there is one: what unfolds files at the start may have scrolled to the selected one. */
static void show_message(gabro_session *session, const task *task) {
    static const char word[] = "ctrl-pageup";
    if (task->handed.commits > 0) {
        gabro_press(session, word, sizeof word - 1);
    }
}

/* A run: how its marks are kept where the user rests, what was chosen when it began, and how files are opened, if they are. */
typedef struct watched {
    void (*keep)(void *marks, gabro_session *session);
    void *marks;
    opening *opening;
    chosen chosen;
} watched;

static void keep_here(void *marks, gabro_session *session) { keep_now(marks, session); }

static void keep_watched(void *context, gabro_session *session) {
    const watched *watched = context;
    watched->keep(watched->marks, session);
}

static void follow(void *context, gabro_session *session) {
    watched *watched = context;
    quit_if_unchanged(&watched->chosen, session);
}

static const char *open_watched(void *context, gabro_session *session, size_t file, size_t old_line, size_t new_line) {
    const watched *watched = context;
    return open_in_editor(watched->opening, session, file, old_line, new_line);
}

/* Runs the session on the terminal, while its marks are kept. With a layer, nothing is asked about what nobody changed. Returns whether the
 * terminal is still there. */
static bool run_watched(gabro_session *session, const task *task, int terminal, watched *watched) {
    bool has_layer = task->layer.is_on;
    watched->chosen = has_layer ? begin_chosen(session) : (chosen){0};
    const char *keys = page_of_keys(&task->layer, PAGE_OF_KEYS(KEYS_OF_SECTIONS));
    const gabro_hooks hooks = {.context = watched, .changed = has_layer ? follow : NULL, .rested = keep_watched, .keys = keys,
                               .open = watched->opening ? open_watched : NULL};
    bool is_there = run_in_terminal(session, terminal, getenv("SELECT_TITLE"), &hooks);
    free(watched->chosen.first.bytes);
    return is_there;
}

/* Runs the session on the terminal, while its marks are kept for another run. Returns whether the terminal is still there. */
static bool run_again(gabro_session *session, const task *task, int terminal) {
    uint64_t name = known_by(KNOWN_BY_NOTHING, (piece){task->from, strlen(task->from)});
    kept_marks marks = begin_marks(known_by(name, (piece){task->to, strlen(task->to)}), task->known, task->marks);
    watched watched = {.keep = keep_here, .marks = &marks};
    bool is_there = run_watched(session, task, terminal, &watched);
    end_marks(&marks);
    return is_there;
}

/* Runs the session on the terminal. Of changes that were handed in the marks are kept meanwhile. Returns whether the terminal is still there. */
static bool run(gabro_session *session, task *task, int terminal) {
    if (task->form == TWO_FILES || task->form == TWO_FOLDERS) {
        return run_again(session, task, terminal);
    }
    bool is_kept = task->form == HANDED_IN && !task->is_as_json;
    keeper keeper = is_kept ? begin_keeping(&task->target, &task->handed) : (struct keeper){.file = -1};
    bool has_files = is_kept && task->handed.folder.length > 0;
    task->opening = (opening){.handed = &task->handed, .terminal = terminal};
    watched watched = {.keep = keep_on, .marks = &keeper, .opening = has_files ? &task->opening : NULL};
    bool is_there = run_watched(session, task, terminal, &watched);
    end_keeping(&keeper);
    return is_there;
}

/* Has the layer say of each renamed file where it comes from. */
static void label_renames(gabro_session *session, const task *task) {
    bool has_layer = task->layer.is_on && gabro_stage(session) == GABRO_WAITING;
    for (size_t i = 0; has_layer && i < task->handed.count; i++) {
        check_code(label_rename(session, i, &task->handed.changes[i].change), "the changes cannot be shown");
    }
}

/* Writes the marks that were kept when the user had changed a file. Returns the status. */
static int leave_changed(task *task) {
    write_output(task, (piece){task->opening.kept.bytes, task->opening.kept.length});
    return FILE_CHANGED;
}

/* Has the user choose, and writes what is accepted. Returns the status. */
static int select_changes(gabro_session *session, task *task) {
    int terminal = open_terminal();
    prepare(session, &task->layer, terminal);
    label_renames(session, task);
    check_code(name_sections(session, &task->layer), "the changes cannot be shown");
    show_message(session, task);
    bool is_there = run(session, task, terminal);
    if (task->opening.is_changed && is_there) {
        return leave_changed(task);
    }
    if (gabro_stage(session) != GABRO_ACCEPTED) {
        return give_up(session, is_there);
    }
    write_accepted(session, task);
    return 0;
}

/* ---- The arguments ---- */

/* Writes what becomes of the paths of the rows on standard input. Returns the status. */
static int print_decided(void) {
    text rows = {0}, decided = {0};
    check(read_and_close(STDIN_FILENO, &rows), "standard input", NULL);
    check_code(decide(&rows, &decided), "standard input");
    bool is_written = write_bytes(STDOUT_FILENO, decided.bytes, decided.length) && close(STDOUT_FILENO) == 0;
    check(is_written, "standard output", NULL);
    free(rows.bytes);
    free(decided.bytes);
    return 0;
}

/* Reads the options into `task`. Returns the letter of one that asks for a text, or 0. */
static int read_options(int argc, char **argv, task *task) {
    static const struct option options[] = {
        {"dir-diff", no_argument, NULL, 'd'}, {"output", required_argument, NULL, 'o'}, {"json", no_argument, NULL, 'j'},
        {"changes", no_argument, NULL, 'c'},  {"help", no_argument, NULL, 'h'},         {"version", no_argument, NULL, 'v'},
        {"decide", no_argument, NULL, 'D'},   {"marks", required_argument, NULL, 'm'}, {"ignore-all-space", no_argument, NULL, 'w'},
        {0},
    };
    int letter;
    opterr = 0;
    task->form = TWO_FILES;
    /* behind the first path are paths alone: git hands in the name of a file, which may be that of an option */
    while ((letter = getopt_long(argc, argv, "+do:hw", options, NULL)) != -1) {
        check(letter != '?', "wrong arguments", "try " NAME " --help");
        switch (letter) {
        case 'd': task->form = TWO_FOLDERS; break;
        case 'c': task->form = HANDED_IN; break;
        case 'j': task->is_as_json = true; break;
        case 'o': task->output = optarg; break;
        case 'm': task->marks = optarg; break;
        case 'w': task->blanks = BLANKS_OF_OLD; break;
        default: return letter;
        }
    }
    return 0;
}

/* Reads the paths behind the options into `task`. */
static void read_paths(int count, char **paths, task *task) {
    bool is_state = task->form == TWO_FILES && count == 1;
    bool has_output = task->form == TWO_FOLDERS && !task->is_as_json && task->output;
    bool has_marks = task->marks && (is_state || task->form == HANDED_IN);
    bool has_blanks = task->blanks != ALL_CHANGES && (is_state || task->form == HANDED_IN);
    check((count == 2 || is_state) && !has_output && !has_marks && !has_blanks, "wrong arguments", "try " NAME " --help");
    task->form = is_state ? A_STATE : task->form;
    task->from = paths[0];
    task->to = is_state ? NULL : paths[1];
    if (task->form == HANDED_IN) {
        task->output = paths[1];
    }
}

int main(int argc, char **argv) {
    task task = {.permissions = ~(mode_t)0, .folders = {.left = NOT_OPEN, .right = NOT_OPEN}};
    gabro_session session = {0};
    int asked = read_options(argc, argv, &task);
    if (asked == 'D') {
        check(optind == argc, "wrong arguments", "try " NAME " --help");
        return print_decided();
    }
    if (asked) {
        return print(asked == 'v' ? NAME " " GABRO_VERSION_TEXT "\n" BUILD : HELP);
    }
    read_paths(argc - optind, argv + optind, &task);
    check(task.output || task.form == TWO_FOLDERS || fcntl(STDOUT_FILENO, F_GETFD) >= 0, "standard output", NULL);
    fill_standard_files();
    read_environment(&task.layer);
    hear_ends();
    find_output(&task);
    open_session(&session, &task);
    bool is_chosen = !has_nothing(&task);
    int status = is_chosen ? select_changes(&session, &task) : 0;
    if (!is_chosen && task.form == TWO_FILES) {
        write_output(&task, task.file.change.new.bytes);
    }
    gabro_free(&session);
    free_task(&task);
    return status;
}
