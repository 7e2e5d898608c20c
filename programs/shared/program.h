/* How the programs of this folder begin, ask the user, and end. */
#ifndef PROGRAM_H
#define PROGRAM_H

#include "layer.h"

/* The status of a program that the user left, or that failed. */
enum { GIVEN_UP = 1, FAILED = 2 };

/* A screen before that of the terminal. On one of fewer than ten columns each word would draw the whole document. */
enum { WIDTH = 80, HEIGHT = 24 };

/* Says what is wrong and exits, unless all is well. If `why` is NULL, errno says why. */
void check(bool is_well, const char *what, const char *why);

/* Says what a code of the library means and exits, unless the call was done. */
void check_code(uint32_t code, const char *what);

/* Fills the places of standard files that are closed, so that no other file comes there. */
void fill_standard_files(void);

/* Has the program end as others do: it says where it fails itself, and hears how a program that it runs has ended. */
void hear_ends(void);

/* Reads the environment into `layer`. Says so and exits if a variable has a value of another form. */
void read_environment(layer *layer);

/* Prints a text, and returns the status. */
int print(const char *words);

/* Opens the terminal that the program runs on. Says so and exits if there is none. */
int open_terminal(void);

/* Gives a session that has begun its layer on the terminal, and the keys of the user's own. Says what is wrong and exits, unless all is
 * well. */
void prepare(gabro_session *session, const layer *layer, int terminal);

/* Runs the session on the terminal, with what the program does within the run, if it does something. If a signal asks for it, ends as that
 * does. Returns whether the terminal is still there. */
bool run_in_terminal(gabro_session *session, int terminal, const char *title, const gabro_hooks *hooks);

/* Says how a session without accepted changes has ended. Returns the status. */
int give_up(gabro_session *session, bool is_there);

#endif
