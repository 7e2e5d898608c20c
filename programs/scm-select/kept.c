/* The marks of a session that goes on, kept in a file. No proof covers this file. */
#define _GNU_SOURCE
#include "kept.h"

#include <fcntl.h>
#include <string.h>
#include <unistd.h>

/* Returns whether an open file is empty, and the one that was found: another one could be read by who put it there. A file with a second name
 * may be another one of the user's, which someone gave this name. */
static bool can_keep(int file, const target *target) {
    struct stat now;
    bool is_known = fstat(file, &now) == 0 && now.st_nlink == 1 && now.st_size == 0;
    return is_known && now.st_dev == target->status.st_dev && now.st_ino == target->status.st_ino;
}

keeper begin_keeping(const target *target, const handed *handed) {
    bool is_file = S_ISREG(target->status.st_mode);
    int file = is_file ? openat(target->folder, target->name, O_WRONLY | O_NOFOLLOW | O_NONBLOCK | O_CLOEXEC) : -1;
    if (file >= 0 && !can_keep(file, target)) {
        close(file);
        file = -1;
    }
    return (keeper){.file = file, .handed = handed};
}

/* Has the file hold `now`. Returns whether that was done: else it is tried again where the user rests next. */
static bool write_kept(int file, const text *now) {
    return lseek(file, 0, SEEK_SET) == 0 && write_bytes(file, now->bytes, now->length) && ftruncate(file, (off_t)now->length) == 0;
}

void keep_on(void *context, gabro_session *session) {
    keeper *keeper = context;
    text now = {0};
    if (keeper->file < 0 || gabro_stage(session) != GABRO_WAITING || write_marks(session, keeper->handed, &now) != GABRO_DONE) {
        free(now.bytes);
        return;
    }
    bool is_same = now.length == keeper->kept.length && memcmp(now.bytes, keeper->kept.bytes, now.length) == 0;
    if (!is_same && write_kept(keeper->file, &now)) {
        text before = keeper->kept;
        keeper->kept = now;
        now = before;
    }
    free(now.bytes);
}

void end_keeping(keeper *keeper) {
    if (keeper->file >= 0) {
        int is_cut = ftruncate(keeper->file, 0);
        (void)is_cut;
        close(keeper->file);
    }
    free(keeper->kept.bytes);
}
