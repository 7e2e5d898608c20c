/* The marks of a session that goes on, kept in a file for another run. No proof covers this file. */
#define _GNU_SOURCE
#include "again.h"
#include "failed.h"
#include "layer.h"
#include "shown.h"

#include <errno.h>
#include <fcntl.h>
#include <stdio.h>
#include <stdlib.h>
#include <string.h>
#include <sys/file.h>
#include <sys/random.h>
#include <sys/stat.h>
#include <unistd.h>

/* The first line of the file, with what is shown. */
#define FIRST_LINE "marks of " NAME " %016llx\n"

/* The constants of the hash FNV-1a of 64 bits. */
static const uint64_t first = 0xcbf29ce484222325u, prime = 0x100000001b3u;

/* Adds up to eight bytes. The shift lets each bit of them change the lower half, where later bytes go on from it. */
static uint64_t add_word(uint64_t known, uint64_t word) {
    known = (known ^ word) * prime;
    return known ^ known >> 32;
}

/* Adds bytes, eight at a time: a file of a merge may have a gigabyte. */
static uint64_t add_bytes(uint64_t known, const char *bytes, size_t length) {
    uint64_t word;
    size_t at = 0;
    for (; length - at >= sizeof word; at += sizeof word) {
        memcpy(&word, bytes + at, sizeof word);
        known = add_word(known, word);
    }
    for (; at < length; at++) {
        known = add_word(known, (unsigned char)bytes[at]);
    }
    return known;
}

uint64_t known_by(uint64_t known, piece bytes) {
    uint64_t length = bytes.length;
    known = add_bytes(known == KNOWN_BY_NOTHING ? first : known, (const char *)&length, sizeof length);
    return add_bytes(known, bytes.bytes, bytes.length);
}

/* Sets the path of the file that is named by a number. */
static bool set_path(kept_marks *marks, uint64_t name) {
    const char *folder = folder_named("TMPDIR");
    int length = snprintf(marks->path, sizeof marks->path, "%s/%s-%016llx.marks", folder ? folder : "/tmp", NAME, (unsigned long long)name);
    return length < (int)sizeof marks->path;
}

/* Makes the file that is named by a number, for its owner alone, and locks it as long as it is open. */
static int make(kept_marks *marks, uint64_t name) {
    int file = set_path(marks, name) ? open(marks->path, O_RDWR | O_CREAT | O_EXCL | O_NOFOLLOW | O_CLOEXEC, 0600) : -1;
    if (file >= 0) {
        flock(file, LOCK_EX | LOCK_NB);
    }
    return file;
}

/* Returns whether an open file is one of this user's that no run has by now. */
static bool is_left(int file) {
    struct stat found;
    bool is_own = fstat(file, &found) == 0 && S_ISREG(found.st_mode) && found.st_uid == geteuid() && (found.st_mode & OTHERS_MAY_WRITE) == 0;
    return is_own && found.st_size > 0 && flock(file, LOCK_EX | LOCK_NB) == 0;
}

/* Says where the marks are of a run that was killed, if there was one. */
static void tell_left(const kept_marks *marks) {
    int file = open(marks->path, O_RDONLY | O_NOFOLLOW | O_NONBLOCK | O_CLOEXEC);
    if (file >= 0 && is_left(file)) {
        say("a run was cut off, and its marks are kept; to take them up: --marks %s", marks->path);
    }
    if (file >= 0) {
        close(file);
    }
}

kept_marks begin_marks(uint64_t name, uint64_t known, bool has_marks) {
    kept_marks marks = {.known = known};
    uint64_t other;
    marks.file = make(&marks, name);
    if (marks.file < 0 && errno == EEXIST) {
        if (!has_marks) {
            tell_left(&marks);
        }
        marks.file = getrandom(&other, sizeof other, 0) == sizeof other ? make(&marks, other) : -1;
    }
    return marks;
}

/* Adds a line with the marks of a file to what is kept. */
static bool add_line(gabro_session *session, size_t file, text *into) {
    size_t count = 0;
    char byte;
    if (gabro_marks(session, file, &byte, 0, &count) != GABRO_DONE || !make_room(into, into->length + count + 1)) {
        return false;
    }
    char *line = into->bytes + into->length;
    bool is_read = gabro_marks(session, file, line, count, &count) == GABRO_DONE;
    for (size_t i = 0; is_read && i < count; i++) {
        line[i] = line[i] == 1 ? '1' : '0';
    }
    end_at(into, into->length + (is_read ? count : 0));
    return is_read && append(into, "\n", 1);
}

/* Sets `now` to what is kept of the marks as they are now: nothing if nothing is marked. */
static bool make_kept(const kept_marks *marks, gabro_session *session, text *now) {
    size_t files = 0;
    bool is_made = gabro_files(session, &files) == GABRO_DONE && append_words(now, FIRST_LINE, (unsigned long long)marks->known);
    size_t begun = now->length;
    for (size_t i = 0; is_made && i < files; i++) {
        is_made = add_line(session, i, now);
    }
    if (is_made && !memchr(now->bytes + begun, '1', now->length - begun)) {
        end_at(now, 0);
    }
    return is_made;
}

static bool write_kept(int file, const text *now) {
    return lseek(file, 0, SEEK_SET) == 0 && write_bytes(file, now->bytes, now->length) && ftruncate(file, (off_t)now->length) == 0;
}

void keep_now(kept_marks *marks, gabro_session *session) {
    text now = {0};
    if (marks->file < 0 || gabro_stage(session) != GABRO_WAITING || !make_kept(marks, session, &now)) {
        free(now.bytes);
        return;
    }
    bool is_same = now.length == marks->kept.length && (now.length == 0 || memcmp(now.bytes, marks->kept.bytes, now.length) == 0);
    if (!is_same && write_kept(marks->file, &now)) {
        text before = marks->kept;
        marks->kept = now;
        now = before;
        tell_on_failure(marks->kept.length > 0 ? marks->path : NULL);
    }
    free(now.bytes);
}

void end_marks(kept_marks *marks) {
    tell_on_failure(NULL);
    if (marks->file >= 0) {
        unlink(marks->path);
        close(marks->file);
    }
    free(marks->kept.bytes);
}

const char *read_marks(const char *path, uint64_t known, text *lines) {
    char line[sizeof FIRST_LINE + 16];
    mode_t permissions = 0;
    if (!read_source(path, lines, &permissions)) {
        return reason();
    }
    int length = snprintf(line, sizeof line, FIRST_LINE, (unsigned long long)known);
    bool is_it = lines->length >= (size_t)length && memcmp(lines->bytes, line, (size_t)length) == 0;
    if (is_it) {
        memmove(lines->bytes, lines->bytes + length, lines->length - (size_t)length);
        end_at(lines, lines->length - (size_t)length);
    }
    return is_it ? NULL : "it has no marks of what is shown: that may have changed since";
}

piece next_marks(piece *lines) {
    char *end = lines->length > 0 ? memchr(lines->bytes, '\n', lines->length) : NULL;
    size_t length = end ? (size_t)(end - lines->bytes) : lines->length;
    piece marks = {lines->bytes, length};
    for (size_t i = 0; i < length; i++) {
        ((char *)lines->bytes)[i] = lines->bytes[i] == '1';
    }
    *lines = (piece){lines->bytes + length + (end ? 1 : 0), lines->length - length - (end ? 1 : 0)};
    return marks;
}
