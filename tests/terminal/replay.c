/* Runs a script of the project's examples over the library for C, and prints what the program over scripts prints:
 * each screen that the script asks for, and the accepted state or the fault. It is there to compare the two. Read
 * faults of a script are left out. */
#include "gabrosty.h"

#include <stdio.h>
#include <stdlib.h>
#include <string.h>

enum { MOST_ANSWERS = 1000, BAD_SCRIPT = 3 };

static gabro_session session;
static char *answers[MOST_ANSWERS]; /* the texts of `answer` lines, in order */
static size_t answer_count;
static size_t answers_taken;

static void stop(const char *why) {
    fprintf(stderr, "replay: %s\n", why);
    exit(BAD_SCRIPT);
}

static char *more_room(char *text, size_t room) {
    char *larger = realloc(text, room);
    if (!larger) {
        stop("there is no memory");
    }
    return larger;
}

static char *read_all(FILE *in) {
    size_t room = 1 << 16;
    size_t length = 0;
    char *text = more_room(NULL, room);
    for (size_t got; (got = fread(text + length, 1, room - length - 1, in)) > 0;) {
        length += got;
        room *= 2;
        text = more_room(text, room);
    }
    text[length] = 0;
    return text;
}

static char *session_text(void) {
    char nothing;
    size_t length = 0;
    uint32_t code = gabro_text(&session, &nothing, 0, &length);
    char *text = more_room(NULL, length + 1);
    if (code == GABRO_NO_MEMORY || gabro_text(&session, text, length, &length) == GABRO_NO_MEMORY) {
        stop("there is no memory");
    }
    text[length] = 0;
    return text;
}

/* The text of a JSON string of plain characters, \n and \", as the examples have. */
static char *unquoted(const char *json) {
    char *text = more_room(NULL, strlen(json) + 1);
    char *end = text;
    for (const char *c = json + 1; *c && *c != '"'; c++) {
        bool is_escaped = *c == '\\' && c[1];
        c += is_escaped;
        *end++ = is_escaped && *c == 'n' ? '\n' : *c;
    }
    *end = 0;
    return text;
}

static char *next_line(char *line) {
    char *end = strchr(line, '\n');
    return end ? end + 1 : NULL;
}

static void read_answers(char *script) {
    for (char *line = script; line; line = next_line(line)) {
        if (strncmp(line, "answer \"", 8) == 0 && answer_count < MOST_ANSWERS) {
            answers[answer_count++] = unquoted(line + 7);
        }
    }
}

/* Hands in a word, and the messages that the session then asks for, as far as the script has them. */
static void press(const char *word) {
    uint32_t code = gabro_press(&session, word, strlen(word));
    if (code != GABRO_DONE) {
        printf("refused: %s %u\n", word, code);
    }
    while (gabro_stage(&session) == GABRO_EDITING && answers_taken < answer_count) {
        const char *answer = answers[answers_taken++];
        gabro_answer(&session, answer, strlen(answer));
    }
}

/* Hands in the words of a batch. A screenshot shows the screen as it was before. */
static void run_batch(char *words) {
    static unsigned shots;
    char *screen = session_text();
    for (char *word = strtok(words, " "); word && gabro_stage(&session) == GABRO_WAITING; word = strtok(NULL, " ")) {
        if (strcmp(word, "shot") == 0) {
            printf("screen %u\n%s", shots++, screen);
        } else {
            press(word);
        }
    }
    free(screen);
}

static void run(char *script) {
    for (char *line = script; line && gabro_stage(&session) == GABRO_WAITING;) {
        char *next = next_line(line);
        if (next) {
            next[-1] = 0;
        }
        if (strncmp(line, "batch", 5) == 0) {
            run_batch(line + 5);
        }
        line = next;
    }
}

static int report(void) {
    char *text = session_text();
    uint32_t stage = gabro_stage(&session);
    if (stage == GABRO_ACCEPTED) {
        fputs(text, stdout);
    } else if (stage == GABRO_ENDED) {
        printf("fault: %s\n", text);
    } else if (stage == GABRO_EDITING) {
        puts("fault: No more commit messages available");
    } else {
        puts("fault: failed to read user input: no events left");
    }
    free(text);
    return stage == GABRO_ACCEPTED ? 0 : 1;
}

int main(void) {
    unsigned width;
    unsigned height;
    char *input = read_all(stdin);
    char *json = strchr(input, '\n');
    char *end = strstr(input, "\nscript\n");
    if (!json || !end || sscanf(input, "size %u %u", &width, &height) != 2) {
        stop("this is no script");
    }
    char *script = end + strlen("\nscript\n");
    json++;
    uint32_t code = gabro_new(&session, json, (size_t)(end - json), (uint16_t)width, (uint16_t)height);
    if (code != GABRO_DONE) {
        stop("the state is refused");
    }
    read_answers(script);
    run(script);
    int status = report();
    while (answer_count > 0) {
        free(answers[--answer_count]);
    }
    free(input);
    gabro_free(&session);
    return status;
}
