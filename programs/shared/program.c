/* How the programs of this folder begin, ask the user, and end. No proof covers this file. */
#define _GNU_SOURCE
#include "program.h"
#include "failed.h"
#include "shown.h"

#include <signal.h>
#include <stdio.h>
#include <stdlib.h>

void check(bool is_well, const char *what, const char *why) {
    int error = errno;
    if (!is_well) {
        errno = error;
        say("%s: %s", named(what), why ? why : reason());
        exit(FAILED);
    }
}

void check_code(uint32_t code, const char *what) {
    char words[256];
    words[gabro_words(code, words, sizeof words - 1)] = 0;
    check(code == GABRO_DONE, what, words);
}

void fill_standard_files(void) {
    int file;
    do {
        file = open("/dev/null", O_RDWR | O_CLOEXEC);
    } while (file >= 0 && file <= STDERR_FILENO);
    close(file);
}

void hear_ends(void) {
    hear_failures();
    signal(SIGCHLD, SIG_DFL); /* else the editor's status would be lost */
}

void read_environment(layer *layer) {
    const char *values = NULL, *name = read_layer(layer, &values);
    if (!folder_named("TMPDIR")) {
        unsetenv("TMPDIR"); /* the editor of a message has no files in the current folder, either */
    }
    if (name) {
        say("%s is %s: write %s", name, getenv(name), values);
        exit(FAILED);
    }
}

int print(const char *words) {
    return fputs(words, stdout) >= 0 && fclose(stdout) == 0 ? 0 : FAILED;
}

int open_terminal(void) {
    int terminal = open("/dev/tty", O_RDWR | O_CLOEXEC);
    check(terminal >= 0, "there is no terminal", NULL);
    return terminal;
}

void prepare(gabro_session *session, const layer *layer, int terminal) {
    check_code(start_layer(session, layer, terminal), "cannot go on");
    const char *why = take_keys(session, layer);
    check(!why, "the keys of your own", why);
}

bool run_in_terminal(gabro_session *session, int terminal, const char *title, const gabro_hooks *hooks) {
    int ended_by = gabro_run_with(session, terminal, title, hooks);
    if (ended_by > 0) {
        signal(ended_by, SIG_DFL);
        raise(ended_by);
    }
    check(ended_by >= 0 || errno == EIO, "cannot go on", NULL);
    return ended_by == 0;
}

int give_up(gabro_session *session, bool is_there) {
    bool is_cancelled = gabro_end(session) == GABRO_END_CANCELLED;
    text words = {0};
    check_code(read_text(session, &words), "cannot go on");
    say("%s", is_there ? words.bytes : "the terminal is gone");
    free(words.bytes);
    return !is_there || is_cancelled ? GIVEN_UP : FAILED;
}
