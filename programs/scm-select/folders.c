/* Files of two folders, or two files, and what differs. No proof covers this file. */
#define _GNU_SOURCE
#include "folders.h"
#include "names.h"
#include "shown.h"

#include <ctype.h>
#include <dirent.h>
#include <stdio.h>
#include <string.h>

enum { FIRST_PATHS = 64, MOST_FOLDERS = 4096 };

bool show_difference(differing *file) {
    static const piece none = {"", 0};
    bool is_shown = add_shown(&file->shown, file->path);
    piece shown = {file->shown.bytes, file->shown.length};
    file->change = (change){.path = shown, .old_path = none, .note = none, .old = file->old.version, .new = file->new.version};
    look_into(&file->change);
    return is_shown;
}

void free_difference(differing *file) {
    free(file->shown.bytes);
    free(file->change.lines.bytes);
    free_found(&file->old);
    free_found(&file->new);
}

/* ---- Paths ---- */

/* Makes room for one more path. */
static bool has_room(paths *paths) {
    if (paths->count == paths->room) {
        size_t room = 2 * paths->room + FIRST_PATHS;
        char **larger = realloc(paths->at, room * sizeof *larger);
        if (!larger) {
            return false;
        }
        paths->at = larger;
        paths->room = room;
    }
    return true;
}

/* Adds a path, which it takes over. */
static bool add_path(paths *paths, char *path) {
    if (!path || !has_room(paths)) {
        free(path);
        errno = ENOMEM;
        return false;
    }
    paths->at[paths->count++] = path;
    return true;
}

static void free_paths(paths *paths) {
    for (size_t i = 0; i < paths->count; i++) {
        free(paths->at[i]);
    }
    free(paths->at);
}

int compare_paths(const void *one, const void *other) { return strcmp(*(char *const *)one, *(char *const *)other); }

/* Orders paths, and leaves each once. */
static void order_paths(paths *paths) {
    size_t kept = 0;
    if (paths->count > 0) {
        qsort(paths->at, paths->count, sizeof *paths->at, compare_paths);
    }
    for (size_t i = 0; i < paths->count; i++) {
        if (kept > 0 && !strcmp(paths->at[kept - 1], paths->at[i])) {
            free(paths->at[i]);
        } else {
            paths->at[kept++] = paths->at[i];
        }
    }
    paths->count = kept;
}

/* ---- What is in a folder ---- */

/* A folder that is listed, and where its paths go: those of folders to be listed, and those of all else. */
typedef struct list {
    const char *below;
    DIR *folder;
    paths *folders, *files;
} list;

/* Returns the path of a name in the folder that is listed, which the caller frees, or NULL. */
static char *path_of(const list *list, const char *name) {
    char *path = NULL;
    return asprintf(&path, "%s%s%s", list->below, *list->below ? "/" : "", name) < 0 ? NULL : path;
}

/* Returns whether a folder is like the one that a run made and could not remove. */
static bool is_left_over(const char *name, const struct stat *status) {
    const char *digits = name + sizeof SPARE - 1;
    bool is_named = !strncmp(name, SPARE, sizeof SPARE - 1) && strlen(digits) == SPARE_DIGITS;
    for (size_t i = 0; is_named && i < SPARE_DIGITS; i++) {
        is_named = isxdigit((unsigned char)digits[i]);
    }
    return is_named && S_ISDIR(status->st_mode) && status->st_uid == geteuid() && (status->st_mode & 077) == 0;
}

/* Returns whether a name is left alone, and says so unless everybody knows that. */
static bool is_left_alone(const list *list, const char *name) {
    bool is_plain, is_kept = is_of_others(name, &is_plain);
    if (is_kept && !is_plain) {
        say("%s%s%s is left out: a file system may take it for .git or .jj", named(list->below), *list->below ? "/" : "", name);
    }
    return is_kept;
}

/* Returns whether a folder lies in as many others as one may. */
static bool is_deep(const char *path) {
    size_t count = 0;
    for (const char *end = strchr(path, '/'); end; end = strchr(end + 1, '/')) {
        count++;
    }
    return count >= MOST_FOLDERS;
}

/* Adds the path of a name in the folder. */
static bool list_name(const list *list, const char *name) {
    struct stat now;
    if (!strcmp(name, ".") || !strcmp(name, "..") || is_left_alone(list, name)) {
        return true;
    }
    if (fstatat(dirfd(list->folder), name, &now, AT_SYMLINK_NOFOLLOW) != 0) {
        return false;
    }
    if (!*list->below && is_left_over(name, &now)) {
        say("%s may be left of a run that was cut off: its files are shown as all others", name);
    }
    char *path = path_of(list, name);
    return S_ISDIR(now.st_mode) ? add_path(list->folders, path) : add_path(list->files, path);
}

/* Returns the next entry of a folder, or NULL with errno 0 at its end. */
static struct dirent *next_entry(DIR *folder) {
    errno = 0;
    return readdir(folder);
}

/* Opens the folder at `path`, to be listed. */
static DIR *open_list(below *below, const char *path) {
    int folder = folder_below(below, path, strlen(path));
    int listed = folder < 0 ? -1 : openat(folder, ".", O_RDONLY | O_DIRECTORY | O_CLOEXEC);
    DIR *opened = listed < 0 ? NULL : fdopendir(listed);
    if (listed >= 0 && !opened) {
        close(listed);
    }
    return opened;
}

/* Adds the paths of all that is in the folder at `path`. */
static bool list_folder(below *below, const char *path, paths *folders, paths *files) {
    list list = {path, is_deep(path) ? NULL : open_list(below, path), folders, files};
    bool is_listed = list.folder;
    errno = is_deep(path) ? TOO_DEEP : errno;
    struct dirent *entry = is_listed ? next_entry(list.folder) : NULL;
    while (is_listed && entry) {
        is_listed = list_name(&list, entry->d_name);
        entry = is_listed ? next_entry(list.folder) : NULL;
    }
    int error = errno;
    if (list.folder) {
        closedir(list.folder);
        is_listed = is_listed && error == 0;
    }
    errno = error;
    return is_listed;
}

/* Adds the paths of all files below a folder. It keeps one folder open at a time. If that fails, sets `failed` to where. */
static bool list_all(below *below, paths *files, char **failed) {
    paths folders = {0};
    bool is_listed = add_path(&folders, strdup(""));
    while (is_listed && folders.count > 0) {
        char *path = folders.at[--folders.count];
        is_listed = list_folder(below, path, &folders, files);
        if (is_listed) {
            free(path);
        } else {
            *failed = path;
        }
    }
    int error = errno;
    free_paths(&folders);
    errno = error;
    return is_listed;
}

/* ---- What differs ---- */

/* Reads both versions of the file `file->path`. Sets `is_file` to whether both are files, links or nothing. */
static bool read_both(folders *folders, differing *file, bool *is_file) {
    bool is_new_file = false;
    bool is_read = read_found(&folders->left, file->path, &file->old, is_file)
                   && read_found(&folders->right, file->path, &file->new, &is_new_file);
    *is_file = *is_file && is_new_file;
    return is_read;
}

/* Returns whether a file is that of jj, which puts it beside those of the right folder for whoever reads them. */
static bool is_of_jj(const differing *file) {
    return !strcmp(file->path, "JJ-INSTRUCTIONS") && file->old.version.mode == GABRO_ABSENT;
}

/* Adds a file if it differs. */
static bool add_if_differing(folders *folders, const char *path) {
    differing file = {.path = path};
    bool is_file = false;
    bool is_read = read_both(folders, &file, &is_file);
    if (is_read && is_file && !is_same(&file.old.version, &file.new.version) && !is_of_jj(&file)) {
        folders->files[folders->differ++] = file;
        return show_difference(&folders->files[folders->differ - 1]);
    }
    if (is_read && !is_file) {
        say("%s is left out: it is neither a file nor a link", named(path));
    }
    int error = errno;
    free_difference(&file);
    errno = error;
    return is_read;
}

bool read_folders(folders *folders, char **path) {
    paths *paths = &folders->paths;
    if (!list_all(&folders->left, paths, path) || !list_all(&folders->right, paths, path)) {
        return false;
    }
    order_paths(paths);
    folders->files = calloc(paths->count + 1, sizeof *folders->files);
    bool is_read = folders->files;
    for (size_t i = 0; i < paths->count && is_read; i++) {
        is_read = add_if_differing(folders, paths->at[i]);
        if (!is_read) {
            int error = errno;
            *path = strdup(paths->at[i]);
            errno = error;
        }
    }
    return is_read;
}

void free_folders(folders *folders) {
    for (size_t i = 0; i < folders->differ; i++) {
        free_difference(&folders->files[i]);
    }
    free(folders->files);
    free_paths(&folders->paths);
    close_top(&folders->left);
    close_top(&folders->right);
}
