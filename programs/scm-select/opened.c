/* The file of a change, opened in the user's editor. No proof covers this file. */
#define _GNU_SOURCE
#include "opened.h"
#include "below.h"

#include <errno.h>
#include <fcntl.h>
#include <limits.h>
#include <signal.h>
#include <stdio.h>
#include <stdlib.h>
#include <string.h>
#include <sys/wait.h>
#include <unistd.h>

enum { LONGEST_NUMBER = 24 };

static const char NO_NAME[] = "it is no file of the working tree";
static const char NO_FILE[] = "there is no such file by now", NOT_READ[] = "it cannot be read", FAILED_EDITOR[] = "the editor failed";

/* Reads the file at `path` below the open folder: no link on the way is followed. Returns false if it is no file, or cannot be read. */
static bool read_below(below *below, const char *path, text *bytes) {
    place place;
    struct stat found;
    int file = find_place(below, path, &place) ? openat(place.folder, place.name, O_RDONLY | O_NOFOLLOW | O_NONBLOCK | O_CLOEXEC) : -1;
    if (file >= 0 && (fstat(file, &found) != 0 || !S_ISREG(found.st_mode))) {
        close(file);
        file = -1;
    }
    return file >= 0 && read_and_close(file, bytes);
}

/* Gives the editor the signals as they are where no program hears them. The keys of signals, and a file that is too large, are ignored by a run
 * alone. */
static void forget_handlers(void) {
    for (int number = 1; number < NSIG; number++) {
        struct sigaction action;
        bool is_of_run = number == SIGINT || number == SIGQUIT || number == SIGXFSZ;
        if (sigaction(number, NULL, &action) == 0 && (is_of_run || action.sa_handler != SIG_IGN)) {
            signal(number, SIG_DFL);
        }
    }
}

/* Runs the user's editor at a line of a file. Returns whether it ended well. */
static bool run_editor(int terminal, size_t line, const char *path) {
    char at[LONGEST_NUMBER];
    int status = EXIT_FAILURE;
    sigset_t before;
    snprintf(at, sizeof at, "+%zu", line);
    hold_signals(&before); /* no handler of this program comes in what is to be another one */
    pid_t editor = fork();
    if (editor == 0) {
        forget_handlers();
        for (int file = 0; file <= STDERR_FILENO; file++) {
            dup2(terminal, file);
        }
    }
    release_signals(&before);
    if (editor == 0) {
        execl("/bin/sh", "sh", "-c", "eval \"${VISUAL:-${EDITOR:-vi}} \\\"\\$1\\\" \\\"\\$2\\\"\"", "sh", at, path, (char *)NULL);
        _exit(EXIT_FAILURE);
    }
    while (editor > 0 && waitpid(editor, &status, 0) < 0 && errno == EINTR) {
    }
    return editor > 0 && WIFEXITED(status) && WEXITSTATUS(status) == 0;
}

/* Keeps the marks, and has the session end: what it shows is no longer there. */
static void leave_changed(opening *opening, gabro_session *session) {
    static const char word[] = "ctrl-c";
    end_at(&opening->kept, 0);
    opening->is_changed = write_marks(session, opening->handed, &opening->kept) == GABRO_DONE;
    for (int i = 0; opening->is_changed && i < 2 && gabro_stage(session) == GABRO_WAITING; i++) {
        gabro_press(session, word, sizeof word - 1); /* the first one may ask */
    }
}

/* Runs the editor on the file at `path` below `folder`, whose whole path is `whole`. Sets `is_changed` if the file has other bytes then.
 * Returns why that failed, or NULL. */
static const char *edit_below(const opening *opening, below *folder, const char *path, const char *whole, size_t line, bool *is_changed) {
    text before = {0}, after = {0};
    const char *why = read_below(folder, path, &before) ? NULL : NO_FILE;
    if (!why) {
        why = run_editor(opening->terminal, line, whole) ? NULL : FAILED_EDITOR;
        bool is_there = read_below(folder, path, &after);
        bool is_same = is_there && before.length == after.length;
        *is_changed = !is_same || (after.length > 0 && memcmp(before.bytes, after.bytes, after.length) != 0);
    }
    free(before.bytes);
    free(after.bytes);
    return why;
}

const char *open_in_editor(void *context, gabro_session *session, size_t file, size_t old_line, size_t new_line) {
    opening *opening = context;
    const handed *handed = opening->handed;
    piece path = file < handed->count ? handed->changes[file].file : (piece){"", 0};
    char whole[PATH_MAX];
    below folder = NOT_OPEN;
    bool is_changed = false;
    (void)old_line;
    int before = snprintf(whole, sizeof whole, "%.*s", (int)handed->folder.length, handed->folder.bytes);
    bool is_named = path.length > 0 && gabro_path_fault(path.bytes, path.length) == GABRO_PATH_FINE;
    if (!is_named || before <= 0 || (size_t)before + path.length + 2 > sizeof whole) {
        return NO_NAME;
    }
    if (!open_top(&folder, whole)) {
        return NOT_READ;
    }
    const char *below_it = whole + before + 1;
    snprintf(whole + before, sizeof whole - (size_t)before, "/%.*s", (int)path.length, path.bytes);
    const char *why = edit_below(opening, &folder, below_it, whole, new_line, &is_changed);
    close_top(&folder);
    if (is_changed) {
        leave_changed(opening, session);
    }
    return is_changed ? NULL : why;
}
