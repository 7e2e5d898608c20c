/* Who may do what with a file: its permissions, its group and its access list. */
#ifndef ACCESS_H
#define ACCESS_H

#include <stdbool.h>
#include <sys/types.h>

/* Permissions: those of a new file, of all that can be had, and of its owner alone. */
enum { NEW_FILE = 0666, ALL = 0777, OWN_FOLDER = 0700, OTHERS_MAY_WRITE = 0022 };

/* The most bytes that an access list has. */
enum { MOST_LIST = 1 << 16 };

/* The access of a file that is to come: that of an old one in its place if `is_kept`. Else it has no list, and its permissions are for the
 * user's own group. */
typedef struct access {
    bool is_kept;
    mode_t permissions;
    gid_t group;
    size_t length; /* of the list, or 0 */
    char list[MOST_LIST];
} access_rules;

/* Returns the access of a new file with these permissions. */
void set_new_access(access_rules *access, mode_t permissions);

/* Sets `access` to that of an open file. If its list cannot be read, all but the owner have nothing. Returns false with errno set if that
 * fails. */
bool read_access(int file, access_rules *access);

/* Leaves of `permissions` those that a new file has that is made of an open one: to nobody more than that gives. */
bool limit_permissions(int file, mode_t *permissions);

/* Gives a new open file its access. If the group of an old file cannot be kept, all but the owner have what everybody had. Returns false
 * with errno set if that fails. */
bool give_access(int file, const access_rules *access);

/* Gives a new open folder these permissions, and no list of those that the folder around it gives. The group of that folder may have
 * become its group: this gets what all have. Returns false with errno set if that fails. */
bool give_folder_access(int folder, mode_t permissions);

/* Returns permissions in which all but the owner have what everybody has. */
mode_t narrow(mode_t permissions);

/* Returns the bits of a mode that new files and folders do not get. */
mode_t new_file_mask(void);

#endif
