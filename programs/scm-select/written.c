/* The right folder of two, as the user wants it. No proof covers this file. */
#define _GNU_SOURCE
#include "written.h"
#include "decided.h"
#include "shown.h"

#include <dirent.h>
#include <stdio.h>
#include <string.h>
#include <sys/random.h>

/* Permissions. */
enum { MAY_RUN = 0111, MAY_READ = 0444 };

/* A file as it is to be. What its marks ask for is a side of it. */
typedef struct wanted {
    const differing *file;
    side side;
    text bytes;
    bool is_there;    /* in the end, as the side */
    found now;        /* what is in its place */
    bool is_other;    /* than what is there */
    bool is_in_spare; /* a file or a link is made for it */
} wanted;

/* A folder for what comes, in which each file has its number for a name. It is used by its descriptor alone. */
typedef struct spare {
    int folder; /* open, or -1 */
    char name[sizeof SPARE + SPARE_DIGITS];
    struct stat status;
} spare;

/* The files of the right folder as they are to be. */
typedef struct plan {
    folders *folders;
    wanted *files;
    spare spare;
    failure *failure;
} plan;

/* The name of a file in the spare folder. */
typedef struct number {
    char name[32];
} number;

static number number_of(size_t index) {
    number number;
    snprintf(number.name, sizeof number.name, "%zu", index);
    return number;
}

/* Keeps where and why a plan fails: in the whole folder if `path` is NULL, and for the reason of errno if `why` is. Returns false. */
static bool fail(plan *plan, const char *path, const char *why) {
    plan->failure->why = why ? why : reason();
    plan->failure->path = path ? strdup(path) : NULL;
    return false;
}

/* ---- What is wanted ---- */

/* Sets `wanted` to what the marks of the file that is numbered `index` ask for. */
static bool read_selected(const folders *folders, gabro_session *session, size_t index, wanted *wanted) {
    wanted->file = &folders->files[index];
    return read_side(session, index, &wanted->file->change, true, &wanted->bytes, &wanted->side) == GABRO_DONE;
}

/* Finds out what the marks of each file ask for. */
static bool read_wanted(plan *plan, gabro_session *session) {
    const folders *folders = plan->folders;
    plan->files = calloc(folders->differ + 1, sizeof *plan->files);
    for (size_t i = 0; plan->files && i < folders->differ; i++) {
        if (!read_selected(folders, session, i, &plan->files[i])) {
            errno = ENOMEM;
            return fail(plan, folders->files[i].path, NULL);
        }
    }
    return plan->files || fail(plan, NULL, NULL);
}

/* Returns whether there is anything at a path below a folder now. */
static bool is_in(below *below, const char *path) {
    struct stat now;
    place at;
    return find_place(below, path, &at) && fstatat(at.folder, at.name, &now, AT_SYMLINK_NOFOLLOW) == 0;
}

/* Adds the row of a file that differs: the left folder is what is there now, and the right one has what is marked in the end. */
static bool add_wanted(text *rows, const wanted *wanted) {
    const change *change = &wanted->file->change;
    char head[] = {change->old.mode == GABRO_ABSENT ? '-' : 'o', change->new.mode == GABRO_ABSENT ? '-' : 'n',
                   wanted->side.mode == GABRO_ABSENT ? '-' : 'c', ' '};
    return add_row(rows, head, wanted->file->path);
}

/* Adds a row for each path. What is in the right folder and is no file that differs stays. */
static bool add_rows(plan *plan, text *rows) {
    folders *folders = plan->folders;
    bool is_added = true;
    size_t next = 0;
    for (size_t i = 0; i < folders->paths.count && is_added; i++) {
        const char *path = folders->paths.at[i];
        if (next < folders->differ && folders->files[next].path == path) {
            is_added = add_wanted(rows, &plan->files[next++]);
        } else if (is_in(&folders->right, path)) {
            is_added = add_row(rows, is_in(&folders->left, path) ? "on= " : "-nn ", path);
        }
    }
    return is_added;
}

/* Fails by the first record that says that a file is left out, or that nothing is decided. Of the two paths of a file that is left out,
 * the one that would lie in the other is named. */
static bool fail_by(plan *plan, const char *refusal) {
    const char *comes = refusal + 2;
    if (*refusal != 'x') {
        return fail(plan, *comes ? comes : NULL, "it is no path that a file can be given");
    }
    const char *blocker = comes + strlen(comes) + 1 + 2;
    return fail(plan, strlen(comes) > strlen(blocker) ? comes : blocker, "it cannot be there beside a file that it would lie in");
}

static int compare_with_wanted(const void *path, const void *wanted) { return strcmp(path, ((const struct wanted *)wanted)->file->path); }

/* Keeps what becomes of a path, as a record says it: no file is there, or what its marks ask for. */
static void keep_outcome(plan *plan, const char *record) {
    wanted *wanted = bsearch(record + 2, plan->files, plan->folders->differ, sizeof *plan->files, compare_with_wanted);
    if (wanted) {
        const version *new = &wanted->file->change.new;
        version chosen = {wanted->side.mode, wanted->side.bytes, new->words};
        wanted->is_there = *record != '-';
        wanted->is_other = wanted->is_there ? !is_same(&chosen, new) : new->mode != GABRO_ABSENT;
    }
}

/* Keeps what becomes of each path. Fails if a file is left out, or nothing is decided. */
static bool keep_outcomes(plan *plan, const text *decided) {
    const char *refusal = first_refusal(decided), *end = refusal ? refusal : decided->bytes + decided->length;
    for (const char *record = decided->bytes; record < end; record += strlen(record) + 1) {
        keep_outcome(plan, record);
    }
    return !refusal || fail_by(plan, refusal);
}

/* Decides what becomes of each path, so that no file is to lie in another one. */
static bool decide_all(plan *plan) {
    text rows = {0}, decided = {0};
    bool is_decided = add_rows(plan, &rows) && decide(&rows, &decided) == GABRO_DONE;
    errno = is_decided ? errno : ENOMEM;
    bool is_kept = is_decided ? keep_outcomes(plan, &decided) : fail(plan, NULL, NULL);
    free(rows.bytes);
    free(decided.bytes);
    return is_kept;
}

/* ---- What comes ---- */

/* Checks that a file of the right folder is as it was shown, and keeps what is there. */
static bool check_unchanged(plan *plan, wanted *wanted) {
    bool is_file;
    bool is_read = read_found(&plan->folders->right, wanted->file->path, &wanted->now, &is_file);
    bool is_unchanged = is_read && is_file && is_same(&wanted->now.version, &wanted->file->new.version);
    if (!is_unchanged) {
        fail(plan, wanted->file->path, is_read ? "it changed meanwhile" : NULL);
    }
    /* its bytes are those that were shown */
    free_found(&wanted->now);
    wanted->now.bytes = wanted->now.words = (text){0};
    return is_unchanged;
}

/* Sets `access` to that of a file of this mode in the place of what is there. It keeps what that has, but for permissions to run it. A
 * new file has no more than the one that it is made of. */
static bool find_access(plan *plan, const wanted *wanted, access_rules *access) {
    const struct stat *source = &wanted->file->old.status;
    bool is_program = wanted->side.mode == PROGRAM_MODE;
    if (S_ISREG(wanted->now.status.st_mode)) {
        int file = open_found(&plan->folders->right, wanted->file->path, &wanted->now);
        bool is_read = file >= 0 && read_access(file, access);
        mode_t kept = is_read ? access->permissions : 0;
        access->permissions = is_program ? kept | (kept & MAY_READ) >> 2 : kept & ~(mode_t)MAY_RUN;
        if (file >= 0) {
            close(file);
        }
        return is_read;
    }
    mode_t most = S_ISREG(source->st_mode) ? wanted->file->old.given : ALL;
    set_new_access(access, (is_program ? ALL : NEW_FILE) & most & ~new_file_mask());
    return true;
}

static bool make_link(int folder, const char *name, piece target) {
    char *words = strndup(target.bytes, target.length);
    bool is_made = words && symlinkat(words, folder, name) == 0;
    free(words);
    return is_made;
}

static bool make_file(plan *plan, const wanted *wanted, size_t index) {
    access_rules access;
    return find_access(plan, wanted, &access) && write_new_file(plan->spare.folder, number_of(index).name, &access, wanted->side.bytes);
}

/* Makes what comes for a wanted file in the spare folder. */
static bool make_wanted(plan *plan, size_t index) {
    wanted *wanted = &plan->files[index];
    const side *side = &wanted->side;
    if (!check_unchanged(plan, wanted)) {
        return false;
    }
    if (!wanted->is_there) {
        return true;
    }
    wanted->is_in_spare = side->mode == LINK_MODE ? make_link(plan->spare.folder, number_of(index).name, side->bytes)
                                                  : make_file(plan, wanted, index);
    return wanted->is_in_spare || fail(plan, wanted->file->path, NULL);
}

/* Returns whether nothing is in an open folder. */
static bool is_empty(int folder) {
    int again = openat(folder, ".", O_RDONLY | O_DIRECTORY | O_CLOEXEC);
    DIR *listed = again < 0 ? NULL : fdopendir(again);
    struct dirent *entry = listed ? readdir(listed) : NULL;
    while (entry && (!strcmp(entry->d_name, ".") || !strcmp(entry->d_name, ".."))) {
        entry = readdir(listed);
    }
    if (listed) {
        closedir(listed);
    } else if (again >= 0) {
        close(again);
    }
    return listed && !entry;
}

/* Returns whether an open folder can be the one that was just made under its name: another user may have put one there meanwhile. */
static bool can_be_new(int folder) {
    struct stat now;
    return fstat(folder, &now) == 0 && now.st_uid == geteuid() && (now.st_mode & OTHERS_MAY_WRITE) == 0 && is_empty(folder);
}

/* Makes the spare folder, with a name that nobody foresees, and opens it. Returns why that failed, or NULL. */
static const char *make_spare(spare *spare, int top) {
    unsigned long long random;
    bool is_chosen = getrandom(&random, sizeof random, 0) == sizeof random;
    snprintf(spare->name, sizeof spare->name, SPARE "%0*llx", (int)SPARE_DIGITS, random);
    if (!is_chosen || mkdirat(top, spare->name, OWN_FOLDER) != 0) {
        return reason();
    }
    spare->folder = openat(top, spare->name, O_RDONLY | O_DIRECTORY | O_NOFOLLOW | O_CLOEXEC);
    if (spare->folder < 0 || fstat(spare->folder, &spare->status) != 0) {
        return reason();
    }
    if (!can_be_new(spare->folder)) {
        close(spare->folder);
        spare->folder = -1;
        return "it cannot be kept from others";
    }
    /* another empty folder of this user's may have the name by now; some disks keep no permissions */
    int given = fchmod(spare->folder, OWN_FOLDER);
    (void)given;
    return NULL;
}

/* Makes all that comes in the spare folder. */
static bool make_all(plan *plan) {
    const char *why = make_spare(&plan->spare, plan->folders->right.top);
    if (why) {
        return fail(plan, plan->spare.name, why);
    }
    for (size_t i = 0; i < plan->folders->differ; i++) {
        if (is_asked_to_end()) {
            return fail(plan, NULL, "a signal asked for the end");
        }
        if (plan->files[i].is_other && !make_wanted(plan, i)) {
            return false;
        }
    }
    return true;
}

/* Removes the spare folder, with what is still in it. Says so if that fails: what was written stays. */
static void remove_spare(const plan *plan) {
    const spare *spare = &plan->spare;
    int top = plan->folders->right.top;
    struct stat now;
    if (spare->folder < 0) {
        return;
    }
    for (size_t i = 0; i < plan->folders->differ; i++) {
        if (plan->files[i].is_in_spare) {
            unlinkat(spare->folder, number_of(i).name, 0);
        }
    }
    close(spare->folder);
    bool is_there = fstatat(top, spare->name, &now, AT_SYMLINK_NOFOLLOW) == 0 && now.st_ino == spare->status.st_ino;
    if (!is_there || unlinkat(top, spare->name, AT_REMOVEDIR) != 0) {
        say("%s cannot be removed: %s", spare->name, is_there ? reason() : "it is no longer there");
    }
}

/* ---- What is put in place ---- */

/* Returns the most permissions of a new folder at the first `length` bytes of a path: those of the left one, if it is there. */
static mode_t permissions_of_folder(below *left, const char *path, size_t length) {
    mode_t most = ALL;
    int like = folder_below(left, path, length), listed = like < 0 ? -1 : openat(like, ".", O_RDONLY | O_DIRECTORY | O_CLOEXEC);
    if (listed >= 0) {
        limit_permissions(listed, &most);
        close(listed);
    }
    return (most & ~new_file_mask()) | OWN_FOLDER;
}

/* A folder that is made below the right one, for a path. */
typedef struct new_folder {
    folders *folders;
    const char *path;
} new_folder;

/* Makes the folder `name`, whose path has `length` bytes. */
static bool make_folder(void *with, int around, const char *name, size_t length) {
    const new_folder *new = with;
    mode_t permissions = permissions_of_folder(&new->folders->left, new->path, length);
    int folder = mkdirat(around, name, OWN_FOLDER) == 0 ? openat(around, name, O_RDONLY | O_DIRECTORY | O_NOFOLLOW | O_CLOEXEC) : -1;
    bool is_new = folder >= 0 && can_be_new(folder), is_made = is_new && give_folder_access(folder, permissions);
    int error = folder < 0 || is_new ? errno : ESTALE;
    if (folder >= 0) {
        close(folder);
    }
    errno = error;
    return is_made;
}

/* Makes the folders that a path lies in, if they are not there. */
static bool make_folders(folders *folders, const char *path) {
    const char *slash = strrchr(path, '/');
    new_folder new = {folders, path};
    maker maker = {make_folder, &new};
    return !slash || make_folder_below(&folders->right, path, (size_t)(slash - path), &maker);
}

/* Removes the folders that a path lies in, as far as they are empty. */
static void remove_folders(below *right, char *path) {
    bool is_empty = true;
    place at;
    for (char *cut = strrchr(path, '/'); cut && is_empty; cut = strrchr(path, '/')) {
        *cut = 0;
        is_empty = find_place(right, path, &at) && unlinkat(at.folder, at.name, AT_REMOVEDIR) == 0;
    }
    /* it may be one of them */
    forget_last(right);
}

/* Takes away the file at a path, and the folders that are empty then. */
static bool take_away(below *right, const char *path) {
    place at;
    if (!find_place(right, path, &at) || unlinkat(at.folder, at.name, 0) != 0) {
        return false;
    }
    char *cut = strdup(path);
    if (cut) {
        remove_folders(right, cut);
    }
    free(cut);
    return true;
}

/* Puts the file that is numbered `index` in place. */
static bool put_in_place(plan *plan, size_t index) {
    wanted *wanted = &plan->files[index];
    place at;
    wanted->is_in_spare = !make_folders(plan->folders, wanted->file->path) || !find_place(&plan->folders->right, wanted->file->path, &at)
                          || renameat(plan->spare.folder, number_of(index).name, at.folder, at.name) != 0;
    return !wanted->is_in_spare;
}

/* Returns whether what was looked at is still there. The way to it is gone anew, from the top. If the system noted a write, or another
 * number of names, it is read once more. */
static bool is_still_there(plan *plan, wanted *wanted) {
    below *right = &plan->folders->right;
    forget_last(right);
    same same = compare_found(right, wanted->file->path, &wanted->now);
    if (same == IS_OTHER) {
        return fail(plan, wanted->file->path, "it changed meanwhile");
    }
    bool is_same = same == IS_SAME || check_unchanged(plan, wanted);
    if (same == MAY_BE_SAME) {
        forget_last(right);
    }
    return is_same;
}

/* Puts a wanted file in place, or takes away what is there, if that is still what was looked at. */
static bool put(plan *plan, size_t index) {
    wanted *wanted = &plan->files[index];
    below *right = &plan->folders->right;
    const char *path = wanted->file->path;
    if (!is_still_there(plan, wanted)) {
        return false;
    }
    bool is_put = wanted->is_there ? put_in_place(plan, index) : take_away(right, path);
    return is_put || fail(plan, path, NULL);
}

/* Puts all in place: what goes makes room for what comes. Returns how that ended. */
static int put_all(plan *plan) {
    bool is_begun = false;
    for (size_t i = 0; i < 2 * plan->folders->differ; i++) {
        size_t index = i % plan->folders->differ;
        bool is_in_turn = plan->files[index].is_there != (i < plan->folders->differ);
        if (plan->files[index].is_other && is_in_turn) {
            if (!put(plan, index)) {
                return is_begun ? HALF_WRITTEN : NOTHING_WRITTEN;
            }
            is_begun = true;
        }
    }
    return WRITTEN;
}

int write_right(gabro_session *session, folders *folders, failure *failure) {
    plan plan = {.folders = folders, .spare = {.folder = -1}, .failure = failure};
    sigset_t before;
    hold_signals(&before);
    /* what was opened before the user chose is looked for anew */
    forget_last(&folders->left);
    forget_last(&folders->right);
    bool is_made = read_wanted(&plan, session) && decide_all(&plan) && make_all(&plan);
    int end = is_made ? put_all(&plan) : NOTHING_WRITTEN;
    remove_spare(&plan);
    release_signals(&before);
    for (size_t i = 0; plan.files && i < folders->differ; i++) {
        free(plan.files[i].bytes.bytes);
    }
    free(plan.files);
    return end;
}
