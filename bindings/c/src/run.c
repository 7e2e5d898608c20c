/* gabro_run, a session at a terminal: raw mode, new sizes, signals, and the editor of a message; and gabro_free. It is a part of the library for C that
 * is written in C, over the other calls. No proof covers this file. */
#define _GNU_SOURCE
#include "bytes.h"

#include <dirent.h>
#include <limits.h>
#include <sched.h>
#include <signal.h>
#include <stdatomic.h>
#include <stdio.h>
#include <string.h>
#include <sys/ioctl.h>
#include <sys/wait.h>
#include <termios.h>
#include <time.h>

/* The call of the library that `gabro_free` makes. No header declares it, and the shared library does not export it. */
extern void gabrosty_close(gabro_session *session);

void gabro_free(gabro_session *session) {
    if (session) {
        gabrosty_close(session);
    }
}

/* Keeps the title; takes the second screen, a title, the mouse, and marks around what is pasted; and gives the terminal back, also
 * where a paint was cut off: an update ends, and symbols wrap. */
static const char KEEP_TITLE[] = "\x1b[22;2t";
static const char TITLE[] = "\x1b]2;";
static const char TAKE[] = " (? for help)\x1b\\\x1b[?1049h\x1b[?25l\x1b[?1000;1002;1006h\x1b[?2004h";
static const char GIVE_BACK[] = "\x1b[?2026l\x1b[?7h\x1b[0m\x1b[?2004l\x1b[?1000;1002;1006l\x1b[?25h\x1b[?1049l\x1b[23;2t";
static const char CLEAR[] = "\x1b[0m\x1b[2J";
/* The begin and the end of an update. Both alone are written where nothing has changed: so who types into the program sees that it was
 * heard. */
static const char UPDATE[] = "\x1b[?2026h", END_OF_UPDATE[] = "\x1b[?2026l";
enum { END = sizeof END_OF_UPDATE - 1 }; /* the length of each of them */

enum { CONTROL_C = 3, TAB = 9, CONTROL_L = 12, CONTROL_Z = 26, ESC = 27, SILENCE = 50 /* milliseconds */, MOST_WAITS = 20 /* silences */ };
/* No key of a terminal has as many bytes. */
enum { MOST_OF_A_KEY = 64 };
/* The marks around what is pasted. */
static const char PASTE[] = "\x1b[200~", END_OF_PASTE[] = "\x1b[201~";
enum { MARK = sizeof PASTE - 1 };
/* What `E` says if there is no file that it opens. */
static const char NOTHING_TO_OPEN[] = "nothing to open";
/* The name of the page of keys, and the mode of a file that has one. */
static const char KEYS[] = "Keys";
enum { MODE = 0100644 };

typedef struct run {
    gabro_session *session;
    int terminal;
    const char *title;
    const gabro_hooks *hooks; /* what the program does within the run, or NULL */
    struct termios settings_before;
    bool is_taken;
    uint16_t width, height; /* of the session's screen; 0 before the first turn */
    text frame;
    gabro_pager pager; /* what accepting gives, or the page of keys, while that is shown */
    gabro_session keys;   /* a session of the page of keys alone, which is closed before that is shown first */
    gabro_session *paged; /* the session whose file the pager shows */
    text held;         /* what was typed into the pager and is not handed in yet */
    const char *notice; /* what the last row says until something is typed, or NULL */
    bool is_pasting;   /* a paste into the pager goes on, also once that is closed */
    size_t matched;    /* how many bytes of the mark at its end have come */
    int error; /* an errno that ends the run, or 0 */
} run;

/* ---- Signals ---- */

enum { STOP, CONTINUE, NEW_SIZE, INTERRUPT, QUIT, HANG_UP, TERMINATE, TOO_LARGE, SIGNALS };
static const int NUMBERS[SIGNALS] = {SIGTSTP, SIGCONT, SIGWINCH, SIGINT, SIGQUIT, SIGHUP, SIGTERM, SIGXFSZ};

static struct sigaction actions_before[SIGNALS];
/* What handlers have seen. */
static volatile sig_atomic_t ended_by, is_stopped, is_continued, is_resized;
/* A pipe, to which handlers write. So a wait ends if a signal comes, whichever thread of the process it comes to. */
static int wake[2];
/* The end that handlers write to, or -1, and how many handlers are at work: in a program of several threads one may still be when the run
 * has ended. */
static atomic_int wake_end = -1, at_work;

static void on_signal(int number) {
    int error = errno;
    at_work++;
    int end = wake_end;
    *(number == SIGTSTP ? &is_stopped : number == SIGCONT ? &is_continued : number == SIGWINCH ? &is_resized : &ended_by) = number;
    ssize_t count = end < 0 ? 0 : write(end, "", 1); /* a pipe that is full wakes too */
    (void)count;
    at_work--;
    errno = error;
}

/* Sets the action of a signal, unless the program was begun with it ignored, as under nohup. */
static void handle(int signal, void (*handler)(int)) {
    bool ends_run = signal > NEW_SIZE;
    /* a write that waits goes on after a signal, unless that ends the run */
    struct sigaction action = {.sa_handler = handler, .sa_flags = ends_run ? 0 : SA_RESTART};
    if (actions_before[signal].sa_handler != SIG_IGN || signal == CONTINUE || signal == NEW_SIZE) {
        sigaction(NUMBERS[signal], &action, NULL);
    }
}

static void hear_signals(void) {
    for (int i = 0; i < TOO_LARGE; i++) {
        handle(i, on_signal);
    }
    handle(TOO_LARGE, SIG_IGN); /* a write says it */
}

static void restore_signals(void) {
    for (int i = 0; i < SIGNALS; i++) {
        sigaction(NUMBERS[i], &actions_before[i], NULL);
    }
}

/* Keeps the actions of signals. Returns false with errno set if that fails. */
static bool keep_signals(void) {
    ended_by = is_stopped = is_continued = is_resized = 0;
    at_work = 0; /* a fork may have copied another number */
    for (int i = 0; i < SIGNALS; i++) {
        sigaction(NUMBERS[i], NULL, &actions_before[i]);
    }
    bool is_open = pipe2(wake, O_CLOEXEC | O_NONBLOCK) == 0;
    wake_end = is_open ? wake[1] : -1;
    return is_open;
}

/* Gives back the actions of signals. The pipe is closed when no handler writes to it any more: its number may be another file's then. */
static void forget_signals(void) {
    restore_signals();
    wake_end = -1;
    while (at_work > 0) {
        sched_yield();
    }
    close(wake[0]);
    close(wake[1]);
}

/* Returns the time in milliseconds, from a beginning of its own. */
static int64_t now(void) {
    struct timespec time;
    clock_gettime(CLOCK_MONOTONIC, &time);
    return (int64_t)time.tv_sec * 1000 + time.tv_nsec / 1000000;
}

/* Polls files as `poll` does. A signal of the caller's program ends no wait, and makes none longer. */
static int poll_on(struct pollfd *files, nfds_t count, int milliseconds) {
    int64_t end = now() + milliseconds;
    int ready = poll(files, count, milliseconds);
    while (ready < 0 && errno == EINTR) {
        int64_t left = end - now();
        ready = poll(files, count, milliseconds < 0 ? -1 : left > 0 ? (int)left : 0);
    }
    return ready;
}

/* Waits for something typed, a signal, or the silence of `milliseconds` (without an end if that is -1). Returns whether there is
 * something to read. */
static bool wait_for_input(int terminal, int milliseconds, bool *is_silent) {
    struct pollfd files[] = {{.fd = terminal, .events = POLLIN}, {.fd = wake[0], .events = POLLIN}};
    char bytes[64];
    int count = poll_on(files, 2, milliseconds);
    while (files[1].revents && read(wake[0], bytes, sizeof bytes) > 0) {
    }
    *is_silent = count == 0;
    return count > 0 && files[0].revents;
}

/* Returns whether what ended a read is no error: a signal of the caller's program, or a terminal that has nothing (O_NONBLOCK). */
static bool reads_on(void) { return errno == EINTR || errno == EAGAIN; }

/* Has the interrupt keys do nothing to this program, while they belong to the editor, or ends that. */
static void ignore_keys_of_signals(bool is_ignored) {
    handle(INTERRUPT, is_ignored ? SIG_IGN : on_signal);
    handle(QUIT, is_ignored ? SIG_IGN : on_signal);
}

/* ---- The terminal ---- */

/* Returns whether the terminal has these settings now. In the background this stops until the program is in the foreground. */
static bool set_terminal(const run *run, const struct termios *settings) {
    int status;
    do {
        status = tcsetattr(run->terminal, TCSAFLUSH, settings);
    } while (status != 0 && errno == EINTR && !ended_by);
    return status == 0;
}

/* Returns whether the terminal is another program's, which has set it as it likes. */
static bool is_in_background(const run *run) {
    pid_t group = tcgetpgrp(run->terminal);
    return group >= 0 && group != getpgrp();
}

/* Writes to the terminal. A signal of the caller's program, and a terminal without room for a while (O_NONBLOCK), are no errors. A signal
 * that ends the run ends a write that waits; of a terminal without room, after a second. */
static void write_terminal(run *run, const char *bytes, size_t length) {
    for (int waits = 0; length > 0 && waits < MOST_WAITS;) {
        ssize_t count = write(run->terminal, bytes, length);
        if (count < 0 && errno == EAGAIN) {
            wait_to_write(run->terminal, SILENCE);
            waits += ended_by != 0;
        } else if (count < 0 && (errno != EINTR || ended_by)) {
            run->error = run->error ? run->error : EIO;
            return;
        }
        bytes += count > 0 ? count : 0;
        length -= count > 0 ? (size_t)count : 0;
    }
}

static void write_words(run *run, const char *words) { write_terminal(run, words, strlen(words)); }

/* Takes the terminal: each key and click comes as it is typed, and the next frame has every row. */
static void take(run *run) {
    struct termios settings = run->settings_before;
    cfmakeraw(&settings);
    if (!set_terminal(run, &settings)) {
        run->error = EIO;
        return;
    }
    if (!run->is_taken) {
        write_words(run, KEEP_TITLE);
    }
    run->is_taken = true;
    write_words(run, TITLE);
    write_words(run, run->title);
    write_words(run, TAKE);
}

static void give_back(run *run) {
    if (run->is_taken) {
        write_words(run, GIVE_BACK);
        if (!is_in_background(run)) {
            set_terminal(run, &run->settings_before);
        }
        run->is_taken = false;
    }
}

/* The run that may have the terminal, for a check that fails, and what SIGILL did before it. */
static run *volatile checked;
static struct sigaction check_before;

/* Gives the terminal back, and ends as the program would without a run: a check that is compiled in ends it by this signal. */
static void on_failed_check(int number) {
    ended_by = number; /* no write waits for long */
    if (checked) {
        give_back(checked);
    }
    sigaction(number, &check_before, NULL);
    raise(number);
}

/* Has a check that fails give the terminal of `run` back. */
static void hear_failed_check(run *run) {
    struct sigaction action = {.sa_handler = on_failed_check};
    checked = run;
    sigaction(SIGILL, &action, &check_before);
}

static void forget_failed_check(void) {
    sigaction(SIGILL, &check_before, NULL);
    checked = NULL;
}

/* Stops the whole job with the terminal given back, and comes back when it goes on. */
static void stop(run *run) {
    is_stopped = 0;
    if (actions_before[STOP].sa_handler == SIG_IGN) {
        return;
    }
    give_back(run);
    handle(STOP, SIG_DFL);
    kill(0, SIGTSTP);
    handle(STOP, on_signal);
    is_continued = 1;
}

/* Gives the session the terminal's size, or the largest. From another size the screen scrolls to what is selected. If memory for
 * it fails, the next turn tries again. */
static void follow_size(run *run) {
    struct winsize size = {0};
    if (ioctl(run->terminal, TIOCGWINSZ, &size) != 0 || size.ws_col == 0 || size.ws_row == 0) {
        size = (struct winsize){.ws_col = 80, .ws_row = 24};
    }
    uint16_t width = size.ws_col < GABRO_MAX_COLUMNS ? size.ws_col : GABRO_MAX_COLUMNS;
    uint16_t height = size.ws_row < GABRO_MAX_ROWS ? size.ws_row : GABRO_MAX_ROWS;
    bool is_first = run->width == 0;
    if (width != size.ws_col || height != size.ws_row) {
        write_words(run, CLEAR);
    }
    gabro_repaint(run->session);
    if (width == run->width && height == run->height) {
        return;
    }
    if (gabro_resize(run->session, width, height) != GABRO_DONE) {
        is_resized = 1;
        return;
    }
    run->width = width, run->height = height;
    gabro_press(run->session, is_first ? "none" : "ensure", is_first ? 4 : 6);
}

/* Does what signals asked for. Returns whether every row is to be drawn. */
static bool follow_terminal(run *run) {
    if (is_stopped) {
        stop(run);
    }
    if (is_continued) {
        is_continued = 0;
        take(run);
        is_resized = 1;
    }
    if (!is_resized) {
        return false;
    }
    is_resized = 0;
    follow_size(run);
    return true;
}

/* gabro_pager_paint of a run, as a writer. */
static uint32_t write_page(void *context, char *out, size_t length, size_t *written) {
    const run *run = (const struct run *)context;
    return gabro_pager_paint(run->paged, &run->pager, run->width, run->height, out, length, written);
}

/* Sets the frame to what makes the terminal show the pager, if it is open, or else the session. Returns the code of the call. */
static uint32_t read_frame(run *run) {
    return run->pager.is_open ? read_all(write_page, run, &run->frame) : read_session(run->session, gabro_paint, &run->frame);
}

/* Says on the last row, reversed, what there is to say. Then the next update has every row. */
static void write_notice(run *run) {
    char row[GABRO_MAX_COLUMNS + 64];
    int length = snprintf(row, sizeof row, "\x1b[?7l\x1b[%d;1H\x1b[0;7m%-*.*s\x1b[0m\x1b[?7h", run->height, run->width, run->width, run->notice);
    write_terminal(run, row, (size_t)length);
    gabro_repaint(run->session);
}

/* Draws what has changed. Returns whether the terminal shows it; if memory fails, the next turn tries again. */
static bool draw(run *run) {
    if (is_resized || read_frame(run) != GABRO_DONE) {
        return false;
    }
    bool is_empty = run->frame.length == 0, is_whole = !is_empty && !run->notice;
    write_terminal(run, is_empty ? UPDATE : run->frame.bytes, is_empty ? END : run->frame.length - (is_whole ? 0 : END));
    if (run->notice) {
        write_notice(run);
    }
    write_words(run, is_whole ? "" : END_OF_UPDATE);
    return true;
}

/* ---- The editor of a message ---- */

/* Opens the terminal once more, for a program that expects each read and write to wait: the caller's may not (O_NONBLOCK). Returns -1 if
 * that fails. */
static int open_again(const run *run) {
    char path[PATH_MAX];
    return ttyname_r(run->terminal, path, sizeof path) == 0 ? open(path, O_RDWR | O_NOCTTY | O_CLOEXEC) : -1;
}

/* Gives a program the terminal as its standard files. */
static void give_files(int terminal) {
    for (int file = 0; file <= STDERR_FILENO; file++) {
        dup2(terminal, file);
        fcntl(file, F_SETFD, 0);
    }
}

/* Holds back all signals: no handler of this program comes in what is to be another one. */
static void hold_signals(sigset_t *before) {
    sigset_t all;
    sigfillset(&all);
    sigprocmask(SIG_BLOCK, &all, before);
}

/* Returns whether the user's editor has edited the file at `path`. It has the terminal, and the signals as they were before. */
static bool run_editor(const run *run, const char *path) {
    int terminal = open_again(run);
    sigset_t before;
    hold_signals(&before);
    pid_t editor = fork();
    if (editor == 0) {
        restore_signals();
    }
    sigprocmask(SIG_SETMASK, &before, NULL);
    if (editor == 0) {
        give_files(terminal < 0 ? run->terminal : terminal);
        execl("/bin/sh", "sh", "-c", "eval \"${VISUAL:-${EDITOR:-vi}} \\\"\\$1\\\"\"", "sh", path, (char *)NULL);
        _exit(EXIT_FAILURE);
    }
    int status = EXIT_FAILURE;
    if (terminal >= 0) {
        close(terminal);
    }
    while (editor > 0 && waitpid(editor, &status, 0) < 0 && errno == EINTR) {
    }
    return editor > 0 && WIFEXITED(status) && WEXITSTATUS(status) == 0;
}

/* Returns the folder for temporary files: TMPDIR if that is a whole path, else /tmp. The current folder may be a stranger's. */
static const char *temporary_folder(void) {
    const char *folder = getenv("TMPDIR");
    return folder && *folder == '/' ? folder : "/tmp";
}

/* The file in which a message is edited, and the folder that it is in alone. An editor writes other files beside it, and may follow links
 * there: nobody else can put one into this folder. */
typedef struct draft {
    char folder[PATH_MAX], path[PATH_MAX];
    int opened; /* the folder, or -1 */
} draft;

static const char DRAFT[] = "message";

/* Makes a folder of a name that nobody knows before, for its owner alone. Returns false with errno set if that fails; `folder` is empty
 * then. */
static bool make_folder(char *folder, size_t room) {
    int length = snprintf(folder, room, "%s/message-XXXXXX", temporary_folder());
    bool is_too_long = length + sizeof DRAFT >= room;
    bool is_made = !is_too_long && mkdtemp(folder);
    if (!is_made) {
        folder[0] = 0;
    }
    errno = is_too_long ? ENAMETOOLONG : errno;
    return is_made;
}

/* Opens the folder of a draft, unless another user has put a folder of theirs in its place. Returns false with errno set if that fails. */
static bool open_folder(draft *draft) {
    struct stat found;
    draft->opened = open(draft->folder, O_RDONLY | O_DIRECTORY | O_NOFOLLOW | O_CLOEXEC);
    bool is_known = draft->opened >= 0 && fstat(draft->opened, &found) == 0;
    bool is_own = is_known && found.st_uid == geteuid();
    if (is_known && !is_own) {
        close(draft->opened);
        draft->opened = -1;
        errno = EPERM;
    }
    return is_own;
}

/* Makes the file of a draft. Returns false with errno set if that fails. */
static bool fill_draft(const draft *draft, const text *message) {
    int file = openat(draft->opened, DRAFT, O_WRONLY | O_CREAT | O_EXCL | O_NOFOLLOW | O_CLOEXEC, 0600);
    bool is_written = file >= 0 && write_bytes(file, message->bytes, message->length);
    int error = errno;
    if (file >= 0) {
        close(file);
    }
    errno = error;
    return is_written;
}

/* Removes each file in an open folder. */
static void remove_files(int folder) {
    int again = openat(folder, ".", O_RDONLY | O_DIRECTORY | O_CLOEXEC);
    DIR *names = again >= 0 ? fdopendir(again) : NULL;
    for (struct dirent *found = names ? readdir(names) : NULL; found; found = readdir(names)) {
        if (strcmp(found->d_name, ".") != 0 && strcmp(found->d_name, "..") != 0) {
            unlinkat(folder, found->d_name, 0);
        }
    }
    if (names) {
        closedir(names);
    } else if (again >= 0) {
        close(again);
    }
}

/* Removes a draft and its folder, with what the editor left beside it if `is_edited`: else that may be what the user typed. */
static void remove_draft(const draft *draft, bool is_edited) {
    if (draft->opened >= 0) {
        unlinkat(draft->opened, DRAFT, 0);
        if (is_edited) {
            remove_files(draft->opened);
        }
        close(draft->opened);
    }
    rmdir(draft->folder);
}

/* Has the user edit a message, and sets `edited` to the new one. Returns why that failed, or NULL. */
static const char *edit_text(const run *run, const text *message, text *edited) {
    draft draft = {.opened = -1};
    bool is_filled = make_folder(draft.folder, sizeof draft.folder) && open_folder(&draft) && fill_draft(&draft, message);
    int error = errno;
    snprintf(draft.path, sizeof draft.path, "%s/%s", draft.folder, DRAFT);
    bool is_edited = is_filled && run_editor(run, draft.path)
                     && read_and_close(openat(draft.opened, DRAFT, O_RDONLY | O_NOCTTY | O_CLOEXEC), edited);
    remove_draft(&draft, is_edited);
    return is_edited ? NULL : is_filled ? "the editor failed" : strerror(error);
}

/* Says something on the main screen, and why, and waits for Enter. */
static void tell(run *run, const char *what, const char *why) {
    char byte = 0;
    bool is_silent, is_there = true;
    write_words(run, what);
    write_words(run, why);
    write_words(run, "\nPress Enter: ");
    while (byte != '\n' && !ended_by && is_there) {
        if (wait_for_input(run->terminal, -1, &is_silent)) {
            ssize_t count = read(run->terminal, &byte, 1);
            is_there = count > 0 || (count < 0 && reads_on());
        }
    }
}

/* Returns what a code says, until the next call. */
static const char *words_of(uint32_t code) {
    static char words[256];
    words[gabro_words(code, words, sizeof words - 1)] = 0;
    return words;
}

/* Answers with what the user made of the message. If that fails, says why, and answers with the message as it was. */
static void answer(run *run, const text *message) {
    text edited = {0};
    ignore_keys_of_signals(true);
    const char *why = edit_text(run, message, &edited);
    ignore_keys_of_signals(false);
    uint32_t code = why ? GABRO_NOT_NOW : gabro_answer(run->session, edited.bytes, edited.length);
    free(edited.bytes);
    if (code != GABRO_DONE) {
        tell(run, "the message stays: ", why ? why : words_of(code));
        code = gabro_answer(run->session, message->bytes, message->length);
    }
    if (code != GABRO_DONE) {
        run->error = ENOMEM;
    }
}

/* Lets the user edit the message that the session waits for, on the main screen. A stop there stops this program too. */
static void edit_message(run *run) {
    text message = {0};
    if (read_text(run->session, &message) == GABRO_DONE) {
        give_back(run);
        handle(STOP, SIG_DFL);
        answer(run, &message);
        handle(STOP, on_signal);
        is_continued = 1;
    } else {
        run->error = ENOMEM;
    }
    free(message.bytes);
}

/* ---- A file in an editor ---- */

/* Has the program open file `file` on the main screen, and says why if it does not. */
static void open_on_main_screen(run *run, size_t file, size_t old_line, size_t new_line) {
    give_back(run);
    handle(STOP, SIG_DFL);
    ignore_keys_of_signals(true);
    const char *why = run->hooks->open(run->hooks->context, run->session, file, old_line, new_line);
    ignore_keys_of_signals(false);
    if (why) {
        tell(run, "not opened: ", why);
    }
    handle(STOP, on_signal);
    is_continued = 1;
}

/* Has the program open the selected item's file. If there is none, or the program opens no files, says so on the last row. While a dialog is
 * open, this is a no-op. */
static void open_file(run *run) {
    size_t file, old_line, new_line;
    if (gabro_dialog(run->session) != GABRO_NO_DIALOG) {
        return;
    }
    bool is_found = gabro_selected_line(run->session, &file, &old_line, &new_line) == GABRO_DONE;
    if (is_found && run->hooks && run->hooks->open) {
        open_on_main_screen(run, file, old_line, new_line);
    } else {
        run->notice = NOTHING_TO_OPEN;
    }
}

/* ---- What is typed ---- */

/* Hands a key that nothing else hears to the program, by its code. */
static void tell_key(const run *run, uint32_t key) {
    if (key != 0 && run->hooks && run->hooks->pressed) {
        run->hooks->pressed(run->hooks->context, run->session, key);
    }
}

/* Tells the program that what was typed is handled. */
static void tell_change(const run *run) {
    if (run->hooks && run->hooks->changed) {
        run->hooks->changed(run->hooks->context, run->session);
    }
}

/* Tells the program that the user rests. */
static void tell_rest(const run *run) {
    if (run->hooks && run->hooks->rested) {
        run->hooks->rested(run->hooks->context, run->session);
    }
}

/* Shows what accepting gives of the selected item's file, where that item is, or of the first file if nothing is selected: the selected side
 * if `selected`, or the other one. While a dialog is open, or the state has no file, this is a no-op. */
static void open_pager(run *run, bool selected) {
    gabro_key key;
    if (gabro_dialog(run->session) == GABRO_NO_DIALOG && gabro_selected(run->session, &key) == GABRO_DONE) {
        size_t file = key.file == GABRO_NO_INDEX ? 0 : key.file;
        uint32_t code = gabro_pager_open(run->session, file, selected, &run->pager);
        if (code == GABRO_DONE && key.section != GABRO_NO_INDEX) {
            size_t line = key.line == GABRO_NO_INDEX ? 0 : key.line;
            code = gabro_pager_show(run->session, &run->pager, key.section, line, run->height);
        }
        (void)code; /* without a file the pager stays closed */
        run->paged = run->session;
    }
}

/* Adds `lines` to the last file of a session, each without its line feed. Returns the code of the call that failed, or GABRO_DONE. */
static uint32_t add_lines(gabro_session *session, const char *lines) {
    uint32_t code = GABRO_DONE;
    while (*lines && code == GABRO_DONE) {
        size_t length = strcspn(lines, "\n");
        code = gabro_state_line(session, false, false, false, lines, length);
        lines += length + (lines[length] == '\n');
    }
    return code;
}

/* Opens a session over a file that has `lines`. Returns the code of the call that failed, or GABRO_DONE. */
static uint32_t show_lines(gabro_session *session, const char *lines) {
    uint32_t code = gabro_state_new(session, true);
    if (code == GABRO_DONE) {
        code = gabro_state_file(session, KEYS, sizeof KEYS - 1, "", 0, MODE);
    }
    if (code == GABRO_DONE) {
        code = add_lines(session, lines);
    }
    return code == GABRO_DONE ? gabro_begin(session, 80, 24) : code; /* no screen of it is shown */
}

/* Shows the page of keys. If memory for it fails, this is a no-op. */
static void open_keys(run *run) {
    uint32_t code = run->keys.is_open ? GABRO_DONE : show_lines(&run->keys, run->hooks->keys);
    if (code == GABRO_DONE) {
        code = gabro_pager_open(&run->keys, 0, true, &run->pager);
        run->paged = &run->keys;
    }
    if (code != GABRO_DONE) {
        gabro_free(&run->keys);
    }
}

/* Returns whether what was typed may go on as one key: it ends with an ESC, or with a sequence behind one that has not ended. */
static bool may_go_on(const text *typed) {
    const char *bytes = typed->bytes;
    size_t at = typed->length;
    while (at > 0 && typed->length - at < MOST_OF_A_KEY && bytes[at - 1] >= ' ' && bytes[at - 1] < '@') {
        at--;
    }
    bool is_begun = at > 1 && (bytes[at - 1] == '[' || bytes[at - 1] == 'O') && bytes[at - 2] == ESC;
    return is_begun || (typed->length > 0 && bytes[typed->length - 1] == ESC);
}

/* Hands what is held to the pager. If memory for that fails, it is dropped. Once the pager is closed, the screen is drawn as a whole. */
static void hand_to_pager(run *run) {
    uint32_t code = gabro_pager_type(run->paged, &run->pager, run->held.bytes, run->held.length, run->width, run->height);
    (void)code;
    end_at(&run->held, 0);
    if (!run->pager.is_open) {
        gabro_repaint(run->session);
    }
}

/* Returns how many of the bytes that were typed belong to a paste into the pager: pasted text does nothing, however it is cut. A ctrl-c that
 * comes alone ends a paste whose end is lost. */
static size_t pass_over_paste(run *run, const char *bytes, size_t count) {
    size_t passed = 0;
    if (count == 1 && bytes[0] == CONTROL_C) {
        run->is_pasting = false;
    }
    for (; run->is_pasting && passed < count; passed++) {
        run->matched = bytes[passed] == END_OF_PASTE[run->matched] ? run->matched + 1 : bytes[passed] == ESC;
        run->is_pasting = run->matched < MARK;
    }
    return passed;
}

/* Holds a byte that was typed into the pager. If it ends the mark at the beginning of a paste, the paste begins. There is room for it. */
static void hold(run *run, char byte) {
    run->held.bytes[run->held.length] = byte;
    end_at(&run->held, run->held.length + 1);
    size_t length = run->held.length;
    if (length >= MARK && memcmp(run->held.bytes + length - MARK, PASTE, MARK) == 0) {
        end_at(&run->held, length - MARK);
        run->is_pasting = true;
        run->matched = 0;
    }
}

/* Holds what was typed into the pager, and hands it in unless it may go on as one key. If memory for that fails, it is dropped. */
static void hear_in_pager(run *run, const char *bytes, size_t count) {
    bool has_room = make_room(&run->held, run->held.length + count);
    for (size_t at = 0; has_room && at < count;) {
        hold(run, bytes[at++]);
        at += pass_over_paste(run, bytes + at, count - at);
    }
    if (!may_go_on(&run->held)) {
        hand_to_pager(run);
    }
}

/* Handles a key of the run's own, by its code: Tab shows both commits, ctrl-l draws every row, ctrl-z stops, p and P show what accepting
 * gives, and E opens a file. */
static void press_own_key(run *run, uint32_t key) {
    if (key == TAB) {
        gabro_press(run->session, "view", 4);
    } else if (key == CONTROL_L) {
        gabro_repaint(run->session);
    } else if (key == CONTROL_Z) {
        stop(run);
    } else if (key == 'p' || key == 'P') {
        open_pager(run, key == 'p');
    } else if (key == 'E') {
        open_file(run);
    } else {
        tell_key(run, key);
    }
}

/* Returns whether the help is open, and a `?` that closes it shows the page of keys. */
static bool may_show_keys(const run *run) { return run->hooks && run->hooks->keys && gabro_dialog(run->session) == GABRO_HELP; }

/* Returns how many of the bytes that were typed are handed in at once: those up to a `?`, which may open the help; or, where a `?` may show
 * the page of keys, one, so that it is seen which byte closes the help. */
static size_t length_of_piece(const run *run, const char *bytes, size_t count) {
    const char *found = memchr(bytes, '?', count);
    return !found ? count : may_show_keys(run) ? 1 : (size_t)(found - bytes) + 1;
}

/* Hands in what was typed up to a key that means nothing to the session, or to a `?`, and handles the key if it is one of the run's own
 * or the program's. A `?` that closes the help shows the page of keys. Returns how many bytes that were. */
static size_t hear_to_key(run *run, const char *bytes, size_t count) {
    size_t piece = length_of_piece(run, bytes, count), taken = piece;
    bool may_show = bytes[0] == '?' && may_show_keys(run);
    uint32_t key = 0;
    if (gabro_type_to_key(run->session, bytes, piece, &taken, &key) != GABRO_DONE) {
        return count;
    }
    if (may_show && gabro_stage(run->session) == GABRO_WAITING && gabro_dialog(run->session) != GABRO_HELP) {
        open_keys(run);
    }
    press_own_key(run, key);
    return taken;
}

/* Hands in what was typed, in order. What comes after the key that opens the editor, or ends the session, is dropped. What comes after the
 * one that opens the pager is for that. */
static void hear(run *run, const char *bytes, size_t count) {
    size_t heard = pass_over_paste(run, bytes, count);
    run->notice = NULL;
    while (heard < count && !run->pager.is_open && gabro_stage(run->session) == GABRO_WAITING) {
        heard += hear_to_key(run, bytes + heard, count - heard);
    }
    if (run->pager.is_open) {
        hear_in_pager(run, bytes + heard, count - heard);
    }
    while (gabro_stage(run->session) == GABRO_EDITING && !run->error) {
        edit_message(run);
    }
}

/* Hears a silence: what was cut off is a key of its own. */
static void hear_silence(run *run) {
    if (run->pager.is_open) {
        hand_to_pager(run);
    } else {
        gabro_idle(run->session);
    }
}

/* ---- The run ---- */

/* Draws and takes keys until the session waits no more. What comes last as an ESC is drawn once more comes, or silence. After a silence
 * it waits until something is typed, or a signal comes. */
static void take_turns(run *run) {
    char bytes[4096];
    bool is_drawn = false, is_cut = false, was_silent = true;
    while (gabro_stage(run->session) == GABRO_WAITING && !ended_by && !run->error) {
        bool is_silent;
        is_drawn = !follow_terminal(run) && is_drawn;
        is_drawn = is_drawn || draw(run);
        if (wait_for_input(run->terminal, was_silent ? -1 : SILENCE, &is_silent)) {
            ssize_t count = read(run->terminal, bytes, sizeof bytes);
            if (count <= 0) {
                run->error = count < 0 && reads_on() ? run->error : EIO;
                continue;
            }
            hear(run, bytes, (size_t)count);
            tell_change(run);
            is_drawn = is_cut = bytes[count - 1] == ESC || run->held.length > 0;
            was_silent = false;
        } else if (is_silent) {
            hear_silence(run);
            tell_change(run);
            tell_rest(run);
            is_drawn = is_drawn && !is_cut;
            is_cut = false;
            was_silent = true;
        }
    }
}

/* Returns `asked`, or another title if the terminal could take a byte of it for a command. */
static const char *title_of(const char *asked) {
    for (const char *byte = asked; byte && *byte; byte++) {
        if (*byte < ' ' || *byte > '~') {
            asked = NULL;
            break;
        }
    }
    return asked ? asked : "Select changes";
}

/* Runs a session, while no other one runs. */
static int run_alone(run *run) {
    if (tcgetattr(run->terminal, &run->settings_before) != 0 || !keep_signals()) {
        return -1;
    }
    hear_signals();
    hear_failed_check(run);
    is_continued = 1; /* the first turn takes the terminal */
    hear(run, "", 0); /* a message may be waited for */
    take_turns(run);
    give_back(run);
    forget_failed_check();
    forget_signals();
    free(run->frame.bytes);
    free(run->held.bytes);
    gabro_free(&run->keys);
    errno = run->error;
    return ended_by ? ended_by : run->error ? -1 : 0;
}

int gabro_run(gabro_session *session, int terminal, const char *title) { return gabro_run_with(session, terminal, title, NULL); }

int gabro_run_with(gabro_session *session, int terminal, const char *title, const gabro_hooks *hooks) {
    /* the actions of signals, and what handlers have seen, are those of the process */
    static atomic_flag is_running = ATOMIC_FLAG_INIT;
    run run = {.session = session, .terminal = terminal, .title = title_of(title), .hooks = hooks};
    if (atomic_flag_test_and_set(&is_running)) {
        errno = EBUSY;
        return -1;
    }
    int end = run_alone(&run), error = errno;
    atomic_flag_clear(&is_running);
    errno = error;
    return end;
}
