/* Folders below one that is opened once. No link below it is followed: a path is opened from there on. */
#ifndef BELOW_H
#define BELOW_H

#include "files.h"

/* A folder that is open, and the one below it that was opened last. */
typedef struct below {
    int top;
    int last;              /* the folder at `path`, or -1 */
    text path;             /* from `top` on */
    bool has_single_steps; /* the kernel opens no path of several folders without links */
} below;

#define NOT_OPEN {.top = -1, .last = -1}

/* A name in a folder that is open, and that a `below` keeps until its next call. */
typedef struct place {
    int folder;
    const char *name;
} place;

/* Opens the folder at `path`, where links are followed as by `find_target`: it is the user's word. Returns false with errno set if that
 * fails. */
bool open_top(below *below, const char *path);

void close_top(below *below);

/* Closes the folder that was opened last, so the next path is followed from the top on. */
void forget_last(below *below);

/* Returns the folder at the first `length` bytes of `path`, open for what lies in it. Returns -1 with errno set if that fails: with
 * ENOTDIR if a part of the path is a link. */
int folder_below(below *below, const char *path, size_t length);

/* Makes the folder `name` in a folder that is open, whose path below the top has `length` bytes. */
typedef struct maker {
    bool (*make)(void *with, int folder, const char *name, size_t length);
    void *with;
} maker;

/* Makes the folder at the first `length` bytes of `path`, and those around it, where they are not there. Returns false with errno set if
 * that fails. */
bool make_folder_below(below *below, const char *path, size_t length, const maker *make);

/* Sets `place` to where `path` is. Returns false with errno set if the folder that it lies in cannot be opened. */
bool find_place(below *below, const char *path, place *place);

/* Returns whether an errno of these calls says that nothing can be at a path. */
bool is_nowhere(int error);

/* Returns whether two folders that are open are one. */
bool is_same_folder(int one, int other);

/* Returns whether a folder that is open lies in another one, at any depth. */
bool lies_in(int inner, int outer);

#endif
