/* Runs a session at a terminal while all that is no error comes in its way: signals of the program whose handlers have no SA_RESTART, an
 * open file that never waits, and a user who reads nothing for a while. It prints nothing, and stops at the first thing that is not as
 * gabrosty.h says. */
#undef NDEBUG
#define _GNU_SOURCE
#include "gabrosty.h"

#include <assert.h>
#include <fcntl.h>
#include <poll.h>
#include <pthread.h>
#include <signal.h>
#include <stdlib.h>
#include <string.h>
#include <sys/ioctl.h>
#include <sys/time.h>
#include <termios.h>
#include <time.h>
#include <unistd.h>

enum { WIDTH = 400, HEIGHT = 200, LINES = 300, BETWEEN = 3000 /* microseconds */, REST = 400 /* milliseconds */ };

static volatile sig_atomic_t alarms;

static void on_alarm(int number) { alarms += number == SIGALRM; }

/* Has a signal come again and again, which ends each call that waits. */
static void begin_alarms(void) {
    struct sigaction action = {.sa_handler = on_alarm};
    struct itimerval often = {{0, BETWEEN}, {0, BETWEEN}};
    assert(sigaction(SIGALRM, &action, NULL) == 0 && setitimer(ITIMER_REAL, &often, NULL) == 0);
}

static void wait_for(long milliseconds) {
    struct timespec time = {milliseconds / 1000, milliseconds % 1000 * 1000000};
    nanosleep(&time, NULL);
}

/* Opens a session over many lines that differ, so a frame has more bytes than a terminal takes at once. */
static void open_session(gabro_session *session) {
    static char new_lines[LINES * WIDTH];
    memset(new_lines, 'n', sizeof new_lines);
    for (size_t end = WIDTH - 1; end < sizeof new_lines; end += WIDTH) {
        new_lines[end] = '\n';
    }
    assert(gabro_state_new(session, false) == GABRO_DONE);
    assert(gabro_state_texts(session, "f", 1, "", 0, "", 0, 0100644, new_lines, sizeof new_lines, 0100644) == GABRO_DONE);
    assert(gabro_begin_layer(session, WIDTH, HEIGHT) == GABRO_DONE);
    assert(gabro_press(session, "shift-F", 7) == GABRO_DONE);
}

/* Reads what is shown until nothing comes for a while, or the terminal is closed. */
static void read_on(int user) {
    static char shown[1 << 16];
    struct pollfd more = {.fd = user, .events = POLLIN};
    while (poll(&more, 1, REST) == 1 && read(user, shown, sizeof shown) > 0) {
    }
}

/* A user who reads nothing at first, then opens the help, closes it by Esc alone, marks all and accepts. */
static void *use(void *given) {
    int user = *(const int *)given;
    wait_for(REST);
    read_on(user);
    for (const char *key = "?\x1b" "Ac"; *key; key++) {
        assert(write(user, key, 1) == 1);
        read_on(user);
    }
    return NULL;
}

/* Opens the terminal of a user with or without O_NONBLOCK. */
static int open_terminal(int user, int flags) {
    struct winsize size = {.ws_col = WIDTH, .ws_row = HEIGHT};
    assert(user >= 0 && grantpt(user) == 0 && unlockpt(user) == 0);
    int terminal = open(ptsname(user), O_RDWR | O_NOCTTY | flags);
    assert(terminal >= 0 && ioctl(terminal, TIOCSWINSZ, &size) == 0);
    return terminal;
}

/* The user's thread has no alarms: they come to the one that runs the session. */
static pthread_t begin_user(int *user) {
    pthread_t thread;
    sigset_t alarm;
    sigemptyset(&alarm);
    sigaddset(&alarm, SIGALRM);
    pthread_sigmask(SIG_BLOCK, &alarm, NULL);
    assert(pthread_create(&thread, NULL, use, user) == 0);
    pthread_sigmask(SIG_UNBLOCK, &alarm, NULL);
    return thread;
}

static void run_interrupted(int flags) {
    gabro_session session = {0};
    int user = posix_openpt(O_RDWR | O_NOCTTY), terminal = open_terminal(user, flags);
    char marks[LINES];
    size_t count = 0;
    open_session(&session);
    pthread_t thread = begin_user(&user);
    assert(gabro_run(&session, terminal, NULL) == 0);
    assert(gabro_stage(&session) == GABRO_ACCEPTED && alarms > 0);
    assert(gabro_marks(&session, 0, marks, sizeof marks, &count) == GABRO_DONE && count == LINES && memchr(marks, 0, LINES) == NULL);
    close(terminal);
    assert(pthread_join(thread, NULL) == 0);
    close(user);
    gabro_free(&session);
}

int main(void) {
    begin_alarms();
    run_interrupted(0);
    run_interrupted(O_NONBLOCK);
    return 0;
}
