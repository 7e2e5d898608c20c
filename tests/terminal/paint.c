/* paint [WORDS]: writes what a terminal is sent, and what it has to show then. With WORDS the session has the layer, and its status row
 * says them of accepting. It reads a script of the examples' form, `size W H`, a state, `script`, and lines of these kinds:
 *
 *   press WORD ..    hands in words
 *   type HEX         hands in bytes that a terminal sent
 *   idle             hands in that the terminal is silent
 *   resize W H       goes on on a screen of another size
 *   repaint          forgets what was painted
 *   ROOM             does nothing, and paints into ROOM bytes first
 *
 * After each line it writes a frame: a line `frame STAGE BYTES TEXT PLACES` with the stage and three lengths, the bytes of
 * gabro_paint, the text of the stage, and the places at which a symbol begins, each as `ROW COLUMN LENGTH CODE COMMIT FILE
 * SECTION LINE`, where an index is -1 for none. */
#include "gabrosty.h"

#include <stdio.h>
#include <stdlib.h>
#include <string.h>

enum { BAD_SCRIPT = 3, ROOM_OF_A_PLACE = 120 };

typedef struct {
    char *bytes;
    size_t length;
} text;

static gabro_session session;
static unsigned width, height;

static void stop(const char *why) {
    fprintf(stderr, "paint: %s\n", why);
    exit(BAD_SCRIPT);
}

static char *more_room(char *bytes, size_t room) {
    char *larger = realloc(bytes, room);
    if (!larger) {
        stop("there is no memory");
    }
    return larger;
}

static text read_all(FILE *in) {
    text all = {more_room(NULL, 1), 0};
    for (size_t got = 1; got > 0; all.length += got) {
        all.bytes = more_room(all.bytes, all.length + (1 << 16) + 1);
        got = fread(all.bytes + all.length, 1, 1 << 16, in);
    }
    all.bytes[all.length] = 0;
    return all;
}

/* gabro_text, as a reader. */
static uint32_t text_of_stage(gabro_session *of, char *out, size_t length, size_t *written) { return gabro_text(of, out, length, written); }

/* Returns what `reader` (gabro_paint or text_of_stage) writes into `room` bytes, and into more where that is not enough. */
static text read_session(uint32_t (*reader)(gabro_session *, char *, size_t, size_t *), size_t room) {
    text read = {more_room(NULL, room + 1), 0};
    uint32_t code = reader(&session, read.bytes, room, &read.length);
    while (code == GABRO_DONE && read.length > room) {
        room = read.length;
        read.bytes = more_room(read.bytes, room + 1);
        code = reader(&session, read.bytes, room, &read.length);
    }
    if (code == GABRO_NO_MEMORY) {
        stop("there is no memory");
    }
    return read;
}

static text read_places(void) {
    text places = {more_room(NULL, (size_t)width * height * ROOM_OF_A_PLACE + 1), 0};
    char symbol;
    gabro_key key;
    for (unsigned row = 0; row < height; row++) {
        for (unsigned column = 0; column < width; column++) {
            size_t length = gabro_symbol(&session, (uint16_t)row, (uint16_t)column, &symbol, 0);
            uint32_t code = gabro_owner(&session, (uint16_t)row, (uint16_t)column, &key);
            if (length > 0) {
                places.length += (size_t)sprintf(places.bytes + places.length, "%u %u %zu %u %td %td %td %td\n", row, column,
                    length, code, (ptrdiff_t)key.commit, (ptrdiff_t)key.file, (ptrdiff_t)key.section, (ptrdiff_t)key.line);
            }
        }
    }
    return places;
}

static void print_frame(size_t room) {
    text parts[] = {read_session(gabro_paint, room), read_session(text_of_stage, 1 << 15), read_places()};
    printf("frame %u %zu %zu %zu\n", gabro_stage(&session), parts[0].length, parts[1].length, parts[2].length);
    for (size_t i = 0; i < sizeof parts / sizeof *parts; i++) {
        fwrite(parts[i].bytes, 1, parts[i].length, stdout);
        free(parts[i].bytes);
    }
}

static void press(char *words) {
    for (char *word = strtok(words, " "); word; word = strtok(NULL, " ")) {
        if (gabro_press(&session, word, strlen(word)) == GABRO_NO_WORD) {
            stop(word);
        }
    }
}

static void type(const char *hex) {
    char bytes[4096];
    size_t length = 0;
    unsigned byte;
    for (; length < sizeof bytes && sscanf(hex, "%2x", &byte) == 1; hex += 2) {
        bytes[length++] = (char)byte;
    }
    gabro_type(&session, bytes, length);
}

static void run_line(char *line) {
    size_t room = 1 << 15;
    if (strncmp(line, "press ", 6) == 0) {
        press(line + 6);
    } else if (strncmp(line, "type ", 5) == 0) {
        type(line + 5);
    } else if (strcmp(line, "idle") == 0) {
        gabro_idle(&session);
    } else if (sscanf(line, "resize %u %u", &width, &height) == 2) {
        gabro_resize(&session, (uint16_t)width, (uint16_t)height);
    } else if (strcmp(line, "repaint") == 0) {
        gabro_repaint(&session);
    } else if (sscanf(line, "%zu", &room) != 1) {
        stop(line);
    }
    print_frame(room);
}

/* Opens the session over the JSON of a state, with the layer if there are words for its status row. */
static bool is_opened(const char *json, size_t length, const char *words) {
    uint16_t columns = (uint16_t)width, rows = (uint16_t)height;
    if (!words) {
        return gabro_new(&session, json, length, columns, rows) == GABRO_DONE;
    }
    return gabro_new_layer(&session, json, length, columns, rows) == GABRO_DONE && gabro_accept_text(&session, words, strlen(words)) == GABRO_DONE;
}

int main(int argc, char **argv) {
    text input = read_all(stdin);
    char *json = strchr(input.bytes, '\n');
    char *end = strstr(input.bytes, "\nscript\n");
    if (!json || !end || sscanf(input.bytes, "size %u %u", &width, &height) != 2) {
        stop("this is no script");
    }
    json++;
    if (!is_opened(json, (size_t)(end - json), argc > 1 ? argv[1] : NULL)) {
        stop("the state is refused");
    }
    char *next;
    for (char *line = end + strlen("\nscript\n"); *line; line = next) {
        next = line + strcspn(line, "\n");
        if (*next == '\n') {
            *next++ = 0;
        }
        run_line(line);
    }
    free(input.bytes);
    gabro_free(&session);
    return 0;
}
