/* What is said where the program itself fails. No proof covers this file. */
#define _GNU_SOURCE
#include "failed.h"
#include "shown.h"

#include <limits.h>
#include <signal.h>
#include <stdio.h>
#include <string.h>

/* Where marks are kept, in words, or nothing. */
static char kept[2 * PATH_MAX];
static volatile size_t kept_length;

/* The signal of a fault, or 0. */
static volatile sig_atomic_t fault;

void tell_on_failure(const char *path) {
    text shown = {0};
    kept_length = 0;
    bool is_shown = path && add_shown(&shown, path);
    int length = is_shown ? snprintf(kept, sizeof kept, NAME ": your marks are kept; to take them up: --marks %s\n", shown.bytes) : 0;
    kept_length = length > 0 && length < (int)sizeof kept ? (size_t)length : 0;
    free(shown.bytes);
}

static void write_all(const char *bytes, size_t length) {
    ssize_t count = write(STDERR_FILENO, bytes, length);
    (void)count;
}

/* Says it by calls that a handler may make, and ends by the signal. */
static void on_failure(int number) {
    static const char of_check[] = NAME ": a check that is compiled in failed, so the program ends. This is a fault of the program: please report it\n";
    static const char of_fault[] = NAME ": the program failed, and ends. This is a fault of the program: please report it\n";
    write_all(fault ? of_fault : of_check, fault ? sizeof of_fault - 1 : sizeof of_check - 1);
    write_all(kept, kept_length);
    number = fault ? fault : number;
    signal(number, SIG_DFL);
    raise(number);
}

/* Has a run give the terminal back, which hears a failed check. */
static void on_fault(int number) {
    fault = number;
    raise(SIGILL);
}

void hear_failures(void) {
    static const int faults[] = {SIGSEGV, SIGBUS, SIGFPE, SIGABRT};
    signal(SIGILL, on_failure);
    for (size_t i = 0; i < sizeof faults / sizeof *faults; i++) {
        signal(faults[i], on_fault);
    }
}
