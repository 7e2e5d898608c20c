/* Texts of others as they can stand on a screen, and what the program says. */
#ifndef SHOWN_H
#define SHOWN_H

#include "files.h"

/* Adds a path as it is shown: what is no UTF-8, or is not seen, written out, and a backslash doubled. So two paths are never shown
 * alike. Returns false if memory for it fails. */
bool add_shown(text *into, const char *path);

/* Has a text of others be as it is shown: what is no UTF-8, or is not seen, written out. Where that is another text, `made` has its bytes,
 * which the caller frees. Returns false if memory for it fails. */
bool show(piece *shown, text *made);

/* Adds a text that has JSON, with all in its strings written out that is not seen. Returns false if memory for it fails. */
bool add_plain_json(text *into, piece json);

/* Returns a path for a message: of a long one its beginning and its end, until the next call. */
const char *named(const char *path);

/* Prints words, in the form of printf, on standard error, and `end` behind them. What the words have that is no UTF-8, or is not
 * seen, is written out: a path, a value or a line of a file can do nothing to the terminal. Every message is printed by this call, but
 * that of a check that fails (failed.h). */
void print_shown(const char *end, const char *form, ...) __attribute__((format(printf, 2, 3)));

/* Prints a message on a line of its own, behind the program's name. */
#define say(...) print_shown("\n", NAME ": " __VA_ARGS__)

#endif
