/* Bytes in memory, what a session writes, and files: what the loop at a terminal and the front end of programs/scm-select share. No
 * proof covers this file. */
#ifndef BYTES_H
#define BYTES_H

#include "gabrosty.h"

#include <errno.h>
#include <fcntl.h>
#include <poll.h>
#include <stdlib.h>
#include <sys/stat.h>
#include <unistd.h>

/* Bytes with a zero behind them, which is not counted. Before the first call all members are zeros; the caller frees `bytes`. */
typedef struct text {
    char *bytes;
    size_t length;
    size_t room;
} text;

enum { FIRST_ROOM = 1 << 15 };

/* Gives a text room for `room` bytes and the zero behind them. Returns false if that fails; the text is as it was. */
static inline bool make_room(text *text, size_t room) {
    if (text->bytes && text->room >= room) {
        return true;
    }
    char *larger = (char *)realloc(text->bytes, room + 1);
    if (larger) {
        text->bytes = larger;
        text->room = room;
    }
    return larger;
}

/* Gives back the room that a text has beyond its bytes, if that is much. */
static inline void leave_room(text *text) {
    char *smaller = text->room / 2 > text->length ? (char *)realloc(text->bytes, text->length + 1) : NULL;
    if (smaller) {
        text->bytes = smaller;
        text->room = text->length;
    }
}

/* Ends a text after `length` bytes, which it has room for. */
static inline void end_at(text *text, size_t length) {
    text->length = length;
    if (text->bytes) {
        text->bytes[length] = 0;
    }
}

/* Something that writes a text to `out`, clipped to `length` bytes, and the whole length to `written`. It returns a code. */
typedef uint32_t writer(void *context, char *out, size_t length, size_t *written);

/* Sets `into` to what `write` writes. Returns its code, or GABRO_NO_MEMORY; `into` is empty after any code but GABRO_DONE. */
static inline uint32_t read_all(writer *write, void *context, text *into) {
    size_t length = FIRST_ROOM;
    uint32_t code = GABRO_NO_MEMORY;
    end_at(into, 0);
    do {
        if (!make_room(into, length)) {
            return GABRO_NO_MEMORY;
        }
        code = write(context, into->bytes, into->room, &length);
    } while (code == GABRO_DONE && length > into->room);
    end_at(into, code == GABRO_DONE ? length : 0);
    return code;
}

/* A call of the library that writes a text of a session. */
typedef uint32_t reader(gabro_session *session, char *out, size_t length, size_t *written);

/* A session, and what is read of it. */
typedef struct reading {
    gabro_session *session;
    reader *read;
} reading;

/* Makes the call of a reading. */
static inline uint32_t write_reading(void *context, char *out, size_t length, size_t *written) {
    const reading *reading = (const struct reading *)context;
    return reading->read(reading->session, out, length, written);
}

/* Sets `into` to what `read` writes of a session, as `read_all` does. */
static inline uint32_t read_session(gabro_session *session, reader *read, text *into) {
    reading reading = {session, read};
    return read_all(write_reading, &reading, into);
}

/* gabro_text, as a reader. */
static inline uint32_t text_of_stage(gabro_session *session, char *out, size_t length, size_t *written) {
    return gabro_text(session, out, length, written);
}

/* Sets `into` to the text of the session's stage, as `read_session` does. */
static inline uint32_t read_text(gabro_session *session, text *into) { return read_session(session, text_of_stage, into); }

/* The most bytes that are read of a file. */
enum { MOST_BYTES = 1 << 30 };

/* Reads on behind the first `*length` bytes, up to `most` bytes in all, and adds to `*length`. Returns 0 at the end, and -1 with errno
 * set if that fails. */
static inline ssize_t read_more(int file, text *into, size_t *length, size_t most) {
    size_t left = most - *length, wanted = *length < into->room ? into->room : 2 * into->room;
    if (left > 0 && !make_room(into, wanted < most ? wanted : most)) {
        return -1;
    }
    size_t room = into->room - *length;
    ssize_t count;
    do {
        count = read(file, into->bytes + *length, room < left ? room : left);
    } while (count < 0 && errno == EINTR);
    *length += count > 0 ? (size_t)count : 0;
    return count;
}

/* Sets `size` to how many bytes are read of an open file: as many as it has at this moment, so nothing that grows is read without an end.
 * What has no size, as a pipe, is read up to its end, and one byte more than MOST_BYTES says that it is too large. Returns false with
 * errno set to EOVERFLOW if a file has more than that. */
static inline bool find_size(int file, size_t *size) {
    struct stat now;
    bool has_size = fstat(file, &now) == 0 && S_ISREG(now.st_mode) && now.st_size > 0;
    bool is_too_large = has_size && now.st_size > MOST_BYTES;
    *size = has_size && !is_too_large ? (size_t)now.st_size : (size_t)MOST_BYTES + 1;
    errno = is_too_large ? EOVERFLOW : errno;
    return !is_too_large;
}

/* Sets `into` to the bytes of an open file, or does nothing if `file` is -1. Closes it. Returns false with errno set if that fails:
 * EOVERFLOW if the file has more than MOST_BYTES bytes. */
static inline bool read_and_close(int file, text *into) {
    size_t most = 0, length = 0;
    bool is_opened = file >= 0 && find_size(file, &most) && make_room(into, most <= MOST_BYTES ? most : FIRST_ROOM);
    ssize_t count = is_opened ? 1 : -1;
    while (count > 0) {
        count = read_more(file, into, &length, most);
    }
    bool is_read = count == 0 && length <= MOST_BYTES;
    int error = count == 0 && !is_read ? EOVERFLOW : errno;
    end_at(into, is_read ? length : 0);
    leave_room(into);
    if (file >= 0) {
        close(file);
    }
    errno = error;
    return is_read;
}

/* Sets `into` to the bytes of the file at `path`. Returns false with errno set if that fails. */
static inline bool read_file(const char *path, text *into) {
    return read_and_close(open(path, O_RDONLY | O_NOCTTY | O_CLOEXEC), into);
}

/* Waits until a file can be written to again, but not for longer than `milliseconds`, or without an end if that is -1. */
static inline void wait_to_write(int file, int milliseconds) {
    struct pollfd written = {.fd = file, .events = POLLOUT};
    poll(&written, 1, milliseconds);
}

/* Writes `length` bytes to a file or a pipe. A signal that is handled, and a file that takes nothing for a while (O_NONBLOCK), are no
 * errors. Returns false with errno set if it fails. */
static inline bool write_bytes(int file, const char *bytes, size_t length) {
    while (length > 0) {
        ssize_t count = write(file, bytes, length);
        if (count < 0 && errno == EAGAIN) {
            wait_to_write(file, -1);
        } else if (count < 0 && errno != EINTR) {
            return false;
        }
        bytes += count > 0 ? count : 0;
        length -= count > 0 ? (size_t)count : 0;
    }
    return true;
}

#endif
