/* The file or folder that the user names, where links are followed one by one. */
#ifndef TARGET_H
#define TARGET_H

#include <limits.h>
#include <stdbool.h>
#include <sys/stat.h>

/* A name in a folder that is open. */
typedef struct target {
    int folder;
    char name[NAME_MAX + 1];
    struct stat status; /* all zeros if nothing is there; of no link but one of /proc, which leads to what is open */
} target;

/* Finds what a path names. Follows no link that another user put into a folder in which others may put theirs, or into a folder that they put
 * there, and finds no file or pipe of such a user there. Returns false with errno set if that fails, to OF_ANOTHER for what it does not follow; nothing is open then. */
bool find_target(const char *path, target *target);

/* Opens the file that a path names, to be read. Follows no such link either, but the file may be another user's. Returns -1 with errno set
 * if that fails. */
int open_named_file(const char *path);

/* Opens a file that the user does not name, to be read, and waits for no pipe. The file, the folder that it lies in, and each link on the way have to
 * be this user's or root's. Returns -1 with errno set if that fails, to EPERM for another user's. */
int open_own_file(const char *path);

/* Opens the folder that a path names, in the same way, to be listed. Returns -1 with errno set if that fails. */
int open_named_folder(const char *path);

#endif
