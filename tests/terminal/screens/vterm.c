/* vterm WIDTH HEIGHT: libvterm, the terminal of neovim and of vim's `:terminal`, as an emulator. */
#include <stdio.h>
#include <stdlib.h>
#include <vterm.h>

/* Prints a code point as UTF-8. */
static void print_character(uint32_t code) {
    int more = code < 0x80 ? 0 : code < 0x800 ? 1 : code < 0x10000 ? 2 : 3;
    static const int heads[] = {0, 0xc0, 0xe0, 0xf0};
    putchar(heads[more] | (int)(code >> (6 * more)));
    while (more-- > 0) {
        putchar(0x80 | (int)(code >> (6 * more) & 0x3f));
    }
}

static void print_row(VTermScreen *screen, int row, int width) {
    VTermScreenCell cell;
    for (int column = 0; column < width; column++) {
        vterm_screen_get_cell(screen, (VTermPos){row, column}, &cell);
        if (cell.chars[0] == 0) {
            putchar(' ');
        }
        for (int i = 0; i < VTERM_MAX_CHARS_PER_CELL && cell.chars[i] != 0 && cell.chars[0] != (uint32_t)-1; i++) {
            print_character(cell.chars[i]);
        }
        putchar(column + 1 < width ? 0x1f : '\n');
    }
}

int main(int argc, char **argv) {
    int width = argc == 3 ? atoi(argv[1]) : 0, height = argc == 3 ? atoi(argv[2]) : 0;
    VTerm *terminal = vterm_new(height, width);
    vterm_set_utf8(terminal, 1);
    VTermScreen *screen = vterm_obtain_screen(terminal);
    vterm_screen_enable_altscreen(screen, 1);
    vterm_screen_reset(screen, 1);
    for (size_t length; scanf("%zu", &length) == 1 && getchar() == '\n';) {
        VTermPos cursor;
        char *bytes = malloc(length + 1);
        length = fread(bytes, 1, length, stdin);
        vterm_input_write(terminal, bytes, length);
        free(bytes);
        vterm_state_get_cursorpos(vterm_obtain_state(terminal), &cursor);
        printf("%d %d\n", cursor.row, cursor.col);
        for (int row = 0; row < height; row++) {
            print_row(screen, row, width);
        }
        fflush(stdout);
    }
    vterm_free(terminal);
    return 0;
}
