/* tsm WIDTH HEIGHT: libtsm, the terminal of kmscon, as an emulator. */
#include <libtsm.h>
#include <stdio.h>
#include <stdlib.h>

/* Prints a code point as UTF-8. */
static void print_character(uint32_t code) {
    int more = code < 0x80 ? 0 : code < 0x800 ? 1 : code < 0x10000 ? 2 : 3;
    static const int heads[] = {0, 0xc0, 0xe0, 0xf0};
    putchar(heads[more] | (int)(code >> (6 * more)));
    while (more-- > 0) {
        putchar(0x80 | (int)(code >> (6 * more) & 0x3f));
    }
}

static int print_cell(struct tsm_screen *screen, uint64_t id, const uint32_t *codes, size_t count, unsigned columns, unsigned column,
                      unsigned row, const struct tsm_screen_attr *style, tsm_age_t age, void *width) {
    (void)screen, (void)id, (void)row, (void)style, (void)age;
    if (count == 0 && columns > 0) {
        putchar(' ');
    }
    for (size_t i = 0; i < count; i++) {
        print_character(codes[i]);
    }
    putchar(column + 1 < *(unsigned *)width ? 0x1f : '\n');
    return 0;
}

static void answer(struct tsm_vte *terminal, const char *bytes, size_t length, void *data) {
    (void)terminal, (void)bytes, (void)length, (void)data;
}

int main(int argc, char **argv) {
    unsigned width = argc == 3 ? (unsigned)atoi(argv[1]) : 0, height = argc == 3 ? (unsigned)atoi(argv[2]) : 0;
    struct tsm_screen *screen;
    struct tsm_vte *terminal;
    if (tsm_screen_new(&screen, NULL, NULL) != 0 || tsm_screen_resize(screen, width, height) != 0 ||
        tsm_vte_new(&terminal, screen, answer, NULL, NULL, NULL) != 0) {
        return 1;
    }
    for (size_t length; scanf("%zu", &length) == 1 && getchar() == '\n';) {
        char *bytes = malloc(length + 1);
        length = fread(bytes, 1, length, stdin);
        tsm_vte_input(terminal, bytes, length);
        free(bytes);
        printf("%u %u\n", tsm_screen_get_cursor_y(screen), tsm_screen_get_cursor_x(screen));
        tsm_screen_draw(screen, print_cell, &width);
        fflush(stdout);
    }
    return 0;
}
