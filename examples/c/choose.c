/* Asks a user which changes of a file to take, and prints the file with these: the tool of docs/TUTORIAL.md. No proof covers this file.
 *
 * It is the least front end. `gabro_run` also follows new sizes, stops and signals, and starts an editor. */
#define _GNU_SOURCE
#include "gabrosty.h"

#include <poll.h>
#include <stdio.h>
#include <string.h>
#include <sys/ioctl.h>
#include <termios.h>
#include <unistd.h>

enum { GIVEN_UP = 1, FAILED = 2, SILENCE = 50 /* milliseconds */, MODE = 0100644, ROOM = 1 << 20 };

/* A file. */
typedef struct contents {
    char bytes[ROOM];
    size_t length;
} contents;

static contents old, new;
static char buffer[2 * ROOM];

/* Reads a file whole. Returns false if it cannot be read, or is too large. */
static bool read_file(const char *path, contents *into) {
    FILE *file = fopen(path, "rb");
    into->length = file ? fread(into->bytes, 1, ROOM, file) : 0;
    bool is_whole = file && !ferror(file) && into->length < ROOM;
    return file && fclose(file) == 0 && is_whole;
}

/* Opens a session that shows how the old file becomes the new one, on a screen of the terminal's size. */
static uint32_t open_session(gabro_session *session, const char *path) {
    struct winsize size = {0};
    if (ioctl(STDERR_FILENO, TIOCGWINSZ, &size) != 0 || size.ws_col == 0 || size.ws_row == 0) {
        size = (struct winsize){.ws_col = 80, .ws_row = 24};
    }
    uint32_t code = gabro_state_new(session, false);
    if (code == GABRO_DONE) {
        code = gabro_state_texts(session, path, strlen(path), "", 0, old.bytes, old.length, MODE, new.bytes, new.length, MODE);
    }
    return code == GABRO_DONE ? gabro_begin(session, size.ws_col, size.ws_row) : code;
}

/* Shows the session, and handles what the user types next, or the silence. Returns whether the terminal is still there. */
static bool take_turn(gabro_session *session) {
    struct pollfd typed = {.fd = STDIN_FILENO, .events = POLLIN};
    size_t length;
    if (gabro_paint(session, buffer, sizeof buffer, &length) == GABRO_DONE && length <= sizeof buffer) {
        fwrite(buffer, 1, length, stderr);
    }
    if (poll(&typed, 1, SILENCE) <= 0) {
        gabro_idle(session);
        return true;
    }
    ssize_t count = read(STDIN_FILENO, buffer, sizeof buffer);
    if (count > 0) {
        gabro_type(session, buffer, (size_t)count);
    }
    return count > 0;
}

/* Takes turns until the changes are accepted or the session has ended. */
static void ask(gabro_session *session) {
    while (gabro_stage(session) == GABRO_WAITING && take_turn(session)) {
    }
}

/* Asks in a terminal that hands over each key as it is typed, and gives it back as it was. */
static void ask_in_terminal(gabro_session *session) {
    struct termios before, raw;
    if (tcgetattr(STDIN_FILENO, &before) != 0) {
        return;
    }
    raw = before;
    cfmakeraw(&raw);
    tcsetattr(STDIN_FILENO, TCSAFLUSH, &raw);
    fputs("\x1b[?1049h\x1b[?25l\x1b[?2004h", stderr); /* the second screen, no cursor, and marks around what is pasted */
    ask(session);
    fputs("\x1b[?7h\x1b[0m\x1b[?2004l\x1b[?25h\x1b[?1049l", stderr);
    tcsetattr(STDIN_FILENO, TCSAFLUSH, &before);
}

/* Prints the file with the selected changes. */
static bool print_selected(gabro_session *session) {
    size_t length = 0;
    uint32_t code = gabro_side_bytes(session, 0, true, buffer, sizeof buffer, &length);
    return code == GABRO_DONE && length <= sizeof buffer && fwrite(buffer, 1, length, stdout) == length && fflush(stdout) == 0;
}

int main(int argc, char **argv) {
    gabro_session session = {0};
    if (argc != 3 || !read_file(argv[1], &old) || !read_file(argv[2], &new)) {
        fputs("usage: choose OLD NEW, two files of less than a mebibyte\n", stderr);
        return FAILED;
    }
    uint32_t code = open_session(&session, argv[2]);
    if (code != GABRO_DONE) {
        size_t length = gabro_words(code, buffer, sizeof buffer);
        fprintf(stderr, "choose: %s: %.*s\n", argv[2], (int)length, buffer);
        return FAILED;
    }
    ask_in_terminal(&session);
    bool is_accepted = gabro_stage(&session) == GABRO_ACCEPTED;
    bool is_printed = is_accepted && print_selected(&session);
    gabro_free(&session);
    return is_printed ? 0 : is_accepted ? FAILED : GIVEN_UP;
}
