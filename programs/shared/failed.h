/* What is said where the program itself fails. */
#ifndef FAILED_H
#define FAILED_H

/* Has a check that fails (SIGILL), and a fault of the program (as SIGSEGV), end it with a sentence. gabro_run gives the terminal back before that. */
void hear_failures(void);

/* Has that sentence name the file at `path`, in which marks are kept, or none if it is NULL. */
void tell_on_failure(const char *path);

#endif
