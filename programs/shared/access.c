/* Who may do what with a file: its permissions, its group and its access list. No proof covers this file. */
#define _GNU_SOURCE
#include "access.h"

#include <errno.h>
#include <stdint.h>
#include <string.h>
#include <sys/stat.h>
#include <sys/xattr.h>
#include <unistd.h>

/* The names of an access list, and of that which a folder gives to what is new in it. The form of a list: a head, and entries of a kind,
 * permissions and a number. */
#define ACCESS_LIST "system.posix_acl_access"
#define LIST_OF_NEW "system.posix_acl_default"
enum { HEAD = 4, ENTRY = 8, FOR_OWNER = 0x01, FOR_MASK = 0x10, EACH = 7 };

mode_t new_file_mask(void) {
    mode_t mask = umask(0);
    umask(mask);
    return mask;
}

/* Returns permissions in which the group and others have `those`. */
static mode_t with_others(mode_t permissions, mode_t those) { return (permissions & OWN_FOLDER) | those << 3 | those; }

mode_t narrow(mode_t permissions) { return with_others(permissions, permissions >> 3 & permissions & EACH); }

/* Returns what each entry of the list gives but that of the owner. */
static mode_t least_of_list(const access_rules *access) {
    mode_t least = EACH;
    for (size_t at = HEAD; at + ENTRY <= access->length; at += ENTRY) {
        uint16_t kind = (uint16_t)((unsigned char)access->list[at] | (unsigned char)access->list[at + 1] << 8);
        least &= kind == FOR_OWNER || kind == FOR_MASK ? EACH : (mode_t)(unsigned char)access->list[at + 2];
    }
    return least;
}

/* Returns permissions in which nobody but the owner has more by any rule of `access`, whatever groups they are in. */
static mode_t narrowed(const access_rules *access) {
    mode_t narrow_ones = narrow(access->permissions);
    return access->length > 0 ? with_others(narrow_ones, least_of_list(access) & narrow_ones & EACH) : narrow_ones;
}

void set_new_access(access_rules *access, mode_t permissions) {
    access->is_kept = false;
    access->permissions = permissions;
    access->group = getegid();
    access->length = 0;
}

/* Returns whether an errno says that a file has no access list. */
static bool has_no_list(int error) { return error == ENODATA || error == ENOTSUP; }

bool read_access(int file, access_rules *access) {
    struct stat now;
    if (fstat(file, &now) != 0) {
        return false;
    }
    ssize_t length = fgetxattr(file, ACCESS_LIST, access->list, sizeof access->list);
    bool is_known = length >= 0 || has_no_list(errno);
    access->is_kept = true;
    access->permissions = now.st_mode & (is_known ? ALL : OWN_FOLDER);
    access->group = now.st_gid;
    access->length = length > 0 ? (size_t)length : 0;
    return true;
}

bool limit_permissions(int file, mode_t *permissions) {
    access_rules found;
    bool is_read = read_access(file, &found);
    bool is_plain = is_read && found.length == 0 && found.group == getegid();
    *permissions &= is_plain ? found.permissions : is_read ? narrowed(&found) : 0;
    return is_read;
}

static bool remove_list(int file, const char *name) { return fremovexattr(file, name) == 0 || has_no_list(errno); }

bool give_folder_access(int folder, mode_t permissions) {
    struct stat now;
    if (fstat(folder, &now) != 0) {
        return false;
    }
    bool has_lists = !remove_list(folder, ACCESS_LIST) || !remove_list(folder, LIST_OF_NEW);
    mode_t given = now.st_gid == getegid() ? permissions : narrow(permissions);
    return fchmod(folder, (now.st_mode & S_ISGID) | (has_lists ? given & OWN_FOLDER : given)) == 0;
}

bool give_access(int file, const access_rules *access) {
    struct stat now;
    if (fstat(file, &now) != 0) {
        return false;
    }
    bool has_group = now.st_gid == access->group || (access->is_kept && fchown(file, (uid_t)-1, access->group) == 0);
    bool has_list = has_group && access->length > 0;
    if (has_list && fsetxattr(file, ACCESS_LIST, access->list, access->length, 0) != 0) {
        return false;
    }
    mode_t permissions = has_group ? access->permissions : narrowed(access);
    /* a list that stays gives nobody anything, if the permissions do not */
    return fchmod(file, has_list || remove_list(file, ACCESS_LIST) ? permissions : permissions & OWN_FOLDER) == 0;
}
