/* Which files of a choice are left out, and what becomes of each path, as the library decides it. */
#ifndef DECIDED_H
#define DECIDED_H

#include "files.h"

/* Adds a row of gabro_decide_rows: its four bytes and the path. Returns false if memory for it fails. */
bool add_row(text *rows, const char head[4], const char *path);

/* Sets `into` to what gabro_decide_rows writes of `rows`. Returns its code; `into` is empty after any code but GABRO_DONE. */
uint32_t decide(const text *rows, text *into);

/* Returns the first record of what was decided that says that a file is left out, or that nothing is decided, or NULL. */
const char *first_refusal(const text *decided);

#endif
