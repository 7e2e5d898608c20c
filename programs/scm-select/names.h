/* Names that other programs keep for themselves. */
#ifndef NAMES_H
#define NAMES_H

#include <stdbool.h>

/* Returns whether a name is `.git` or `.jj`, or a file system may take it for one: in capitals, with characters that it leaves out,
 * with blanks, dots or a stream behind it, or in its short form. Sets `is_plain` to whether it is just one of the two. */
bool is_of_others(const char *name, bool *is_plain);

#endif
