/* Characters of UTF-8, and those of them that nobody sees. */
#ifndef CHARACTERS_H
#define CHARACTERS_H

#include <stdbool.h>
#include <stddef.h>
#include <stdint.h>

/* Returns how many bytes the character has that `bytes`, of `length` bytes, begins with, and sets `code` to its code point. Returns 0 if
 * there is none, or it is no UTF-8. */
size_t character_at(const char *bytes, size_t length, uint32_t *code);

/* Returns whether a terminal could take a character for a command, for a line end or for an order of reading, or shows nothing for it. */
bool is_unseen(uint32_t code);

/* Returns whether a file system that folds names may leave a character out. */
bool is_ignorable(uint32_t code);

#endif
