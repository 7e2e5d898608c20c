/* timing SHAPE: what a key costs in a session over a state of this shape, all unfolded, on a screen of 80 by 24. It prints a
 * line: the milliseconds until the session begins, the microseconds of keys, each the least of many, and the most memory that
 * the program had, in megabytes.
 *
 * A shape is FILESxSECTIONSxLINES: FILES files, each of SECTIONS changed sections, each of LINES added lines. A shape
 * FILESxSECTIONSxLINES:KIND:COUNT has lines of COUNT characters in place of short ones. KIND is `letters`, `wide` (two
 * columns each), `marked` (letters, each with a combining mark) or `tabs`. FILESxSECTIONSxLINES:pairs:COUNT has lines of COUNT
 * words, removed and added in turn: the last word of an added line is not that of the removed line before it. With `turns` in place
 * of `pairs` a removed line is COUNT times `a b `, and an added one COUNT times `a c `; and with `code` they are COUNT calls, of which the
 * argument of each fourth one differs. With `,both` behind it the screen shows both commits, with `,layer` the session has the layer, and
 * with `,named` its sections show the lines that they stand in too.
 *
 * timing SHAPE first: prints the processor milliseconds of the first paint, and how many bytes it has.
 *
 * timing SHAPE COUNT PAINT WORD ..: hands in the words in turn, COUNT of them, and then prints how many bytes
 * the last paint has. PAINT is `none`, `changed` to paint after each word, `twice` to paint once more then, or `all` to paint
 * every row then. Valgrind counts its instructions, for tools/dev/measure. */
#define _XOPEN_SOURCE 700
#include "gabrosty.h"

#include <stdio.h>
#include <stdlib.h>
#include <string.h>
#include <sys/resource.h>
#include <time.h>

enum { REPEATS = 30, ROOM_OF_AN_ITEM = 120 };

static gabro_session session;

/* How the lines of a pair differ, if removed and added lines take turns. */
typedef enum { NO_PAIRS, LAST_WORD, EACH_OTHER_WORD, SOME_ARGUMENTS } difference;

/* What a state is made of. */
typedef struct {
    size_t files, sections, lines;
    /* The character that each line consists of, as JSON, and how often; a line is short if it is empty. */
    const char *character;
    size_t count;
    difference pairs;
    /* Whether the screen shows both commits. */
    bool shows_both;
    /* Whether the session has the layer, and whether its sections are named. */
    bool has_layer, is_named;
} shape;

static const struct {
    const char *kind, *character;
} characters[] = {{"letters", "x"}, {"wide", "\u6f22"}, {"marked", "e\u0301"}, {"tabs", "\\t"}};

/* Reads a shape, and returns whether it is one. */
static bool is_read_as(const char *words, shape *read) {
    char kind[16] = "";
    *read = (shape){.character = ""};
    int numbers = sscanf(words, "%zux%zux%zu:%15[a-z]:%zu", &read->files, &read->sections, &read->lines, kind, &read->count);
    for (size_t i = 0; i < sizeof characters / sizeof *characters; i++) {
        if (strcmp(kind, characters[i].kind) == 0) {
            read->character = characters[i].character;
        }
    }
    read->pairs = strcmp(kind, "pairs") == 0 ? LAST_WORD : strcmp(kind, "turns") == 0 ? EACH_OTHER_WORD : strcmp(kind, "code") == 0 ? SOME_ARGUMENTS : NO_PAIRS;
    const char *end = strchr(words, ',');
    read->shows_both = end && strcmp(end, ",both") == 0;
    read->is_named = end && strcmp(end, ",named") == 0;
    read->has_layer = read->is_named || (end && strcmp(end, ",layer") == 0);
    return (numbers == 3 || (numbers == 5 && (*read->character || read->pairs))) && (!end || read->shows_both || read->has_layer);
}

static double now(void) {
    struct timespec time;
    clock_gettime(CLOCK_MONOTONIC, &time);
    return (double)time.tv_sec * 1e6 + (double)time.tv_nsec / 1e3;
}

static char *add_words(char *end, const shape *of, size_t index) {
    for (size_t i = 0; of->pairs == EACH_OTHER_WORD && i < of->count; i++) {
        end += sprintf(end, index % 2 ? "a c " : "a b ");
    }
    for (size_t i = 0; of->pairs == SOME_ARGUMENTS && i < of->count; i++) {
        end += sprintf(end, "f%zu(%zu);", i % 7, index % 2 && i % 4 == 0 ? i + 1 : i);
    }
    if (of->pairs != LAST_WORD) {
        return end;
    }
    for (size_t i = 1; i < of->count; i++) {
        end += sprintf(end, "word ");
    }
    return end + sprintf(end, "%s %zu", index % 2 ? "new" : "old", index / 2);
}

static char *add_text(char *end, const shape *of, size_t index) {
    if (of->pairs) {
        return add_words(end, of, index);
    }
    if (!*of->character) {
        return end + sprintf(end, "line %zu", index);
    }
    size_t length = strlen(of->character);
    for (size_t i = 0; i < of->count; i++) {
        memcpy(end, of->character, length);
        end += length;
    }
    return end;
}

static char *add_section(char *end, const shape *of) {
    end += sprintf(end, "{\"Changed\":{\"lines\":[");
    for (size_t i = 0; i < of->lines; i++) {
        const char *kind = of->pairs && i % 2 == 0 ? "Removed" : "Added";
        end += sprintf(end, "%s{\"is_checked\":false,\"change_type\":\"%s\",\"line\":\"", i ? "," : "", kind);
        end = add_text(end, of, i);
        end += sprintf(end, "\\n\"}");
    }
    return end + sprintf(end, "]}}");
}

static char *state_of(const shape *of) {
    size_t room = ROOM_OF_AN_ITEM + (strlen(of->character) + (of->pairs ? 13 : 0)) * of->count;
    char *json = malloc((of->files * (of->sections * (of->lines + 1) + 1) + 1) * room);
    char *end = json;
    if (!json) {
        return NULL;
    }
    end += sprintf(end, "{\"is_read_only\":false,\"commits\":[],\"files\":[");
    for (size_t file = 0; file < of->files; file++) {
        end += sprintf(end, "%s{\"old_path\":null,\"path\":\"file %zu\",\"file_mode\":{\"Unix\":33188},\"sections\":[",
                       file ? "," : "", file);
        for (size_t section = 0; section < of->sections; section++) {
            end += sprintf(end, "%s", section ? "," : "");
            end = add_section(end, of);
        }
        end += sprintf(end, "]}");
    }
    sprintf(end, "]}");
    return json;
}

static double time_of_key(const char *word) {
    double begun = now();
    if (gabro_press(&session, word, strlen(word)) != GABRO_DONE || gabro_stage(&session) != GABRO_WAITING) {
        fprintf(stderr, "timing: %s is not handled\n", word);
        exit(1);
    }
    return now() - begun;
}

/* The least time of a key; another goes back after each. */
static void print_key(const char *word, const char *back) {
    double least = time_of_key(word);
    for (int i = 1; i < REPEATS; i++) {
        time_of_key(back);
        double time = time_of_key(word);
        least = time < least ? time : least;
    }
    time_of_key(back);
    printf(" | %s %.0f", word, least);
}

/* Paints, and returns how many bytes that are. */
static size_t paint(void) {
    static char out[1 << 17];
    size_t length = 0;
    if (gabro_paint(&session, out, sizeof out, &length) != GABRO_DONE || length > sizeof out) {
        fputs("timing: nothing is painted\n", stderr);
        exit(1);
    }
    return length;
}

/* Hands in words in turn, and paints after each as `kind` says. */
static void paint_keys(int count, const char *kind, int words, char **word) {
    size_t length = paint();
    for (int i = 0; i < count; i++) {
        time_of_key(word[i % words]);
        if (strcmp(kind, "all") == 0) {
            gabro_repaint(&session);
        }
        if (strcmp(kind, "none") != 0) {
            length = paint();
        }
        if (strcmp(kind, "twice") == 0) {
            length = paint();
        }
    }
    printf("%zu bytes\n", length);
}

static double processor_time(void) {
    struct timespec time;
    clock_gettime(CLOCK_PROCESS_CPUTIME_ID, &time);
    return (double)time.tv_sec * 1e3 + (double)time.tv_nsec / 1e6;
}

static void print_first_paint(void) {
    double begun = processor_time();
    size_t length = paint();
    printf("%.2f ms %zu bytes\n", processor_time() - begun, length);
}

static void print_keys(void) {
    time_of_key("l");
    time_of_key("l");
    print_key("j", "k");
    print_key("pagedown", "pageup");
    print_key("click:5:20", "click:4:20");
    print_key("space", "space");
}

int main(int argc, char **argv) {
    shape of;
    bool is_first = argc == 3 && strcmp(argv[2], "first") == 0;
    bool is_read = (argc == 2 || is_first || argc > 4) && is_read_as(argv[1], &of);
    char *json = is_read ? state_of(&of) : NULL;
    double begun = now();
    if (!json || (of.has_layer ? gabro_new_layer : gabro_new)(&session, json, strlen(json), 80, 24) != GABRO_DONE) {
        fputs("timing: give it a shape that can be shown: FILESxSECTIONSxLINES, with :KIND:COUNT, ,both or ,layer behind it\n", stderr);
        return 2;
    }
    double ended = now();
    free(json);
    if (of.is_named && gabro_name_sections(&session) != GABRO_DONE) {
        fputs("timing: the sections are not named\n", stderr);
        return 2;
    }
    time_of_key("shift-F");
    if (of.shows_both) {
        time_of_key("view");
    }
    if (is_first) {
        print_first_paint();
        gabro_free(&session);
        return 0;
    }
    if (argc > 4) {
        paint_keys(atoi(argv[2]), argv[3], argc - 4, argv + 4);
        gabro_free(&session);
        return 0;
    }
    printf("%s | begin %.1f ms", argv[1], (ended - begun) / 1e3);
    print_keys();
    gabro_free(&session);
    struct rusage usage;
    getrusage(RUSAGE_SELF, &usage);
    printf(" | %.1f MB\n", (double)usage.ru_maxrss * 1024 / 1e6);
    return 0;
}
