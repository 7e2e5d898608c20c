/* split OLD NEW [WORDS]: prints OLD with the changes to NEW that the user chooses, or that the words of keys do. */
#include <gabrosty.h>
#include <stdio.h>
#include <stdlib.h>
#include <string.h>

static char old[1 << 20], new[sizeof old], chosen[2 * sizeof old];

/* Says what failed and ends, unless all is well. */
static void check(bool is_well, const char *what) {
    if (!is_well) {
        fprintf(stderr, "split: %s\n", what);
        exit(EXIT_FAILURE);
    }
}

static void check_code(uint32_t code) {
    char words[256];
    words[gabro_words(code, words, sizeof words - 1)] = 0;
    check(code == GABRO_DONE, words);
}

static size_t read_file(const char *path, char *bytes) {
    FILE *file = fopen(path, "rb");
    size_t length = file ? fread(bytes, 1, sizeof old, file) : 0;
    check(file && !ferror(file) && fclose(file) == 0 && length < sizeof old, path);
    return length;
}

int main(int argc, char **argv) {
    gabro_session session = {0};
    size_t length;
    check(argc > 2, "usage: split OLD NEW [WORDS]");
    size_t old_length = read_file(argv[1], old), new_length = read_file(argv[2], new);
    check_code(gabro_state_new(&session, false));
    check_code(gabro_state_texts(&session, argv[2], strlen(argv[2]), "", 0, old, old_length, 0100644, new, new_length, 0100644));
    check_code(gabro_begin_layer(&session, 80, 24));
    if (argc > 3) {
        check_code(gabro_press_all(&session, argv[3], strlen(argv[3])));
    } else {
        check(gabro_run(&session, 0, "split") == 0, "standard input is no terminal, or it is gone");
    }
    if (gabro_end(&session) == GABRO_END_CANCELLED) {
        return EXIT_FAILURE; /* the user gave up */
    }
    check_code(gabro_side_bytes(&session, 0, true, chosen, sizeof chosen, &length));
    gabro_free(&session);
    return fwrite(chosen, 1, length, stdout) == length && fclose(stdout) == 0 ? EXIT_SUCCESS : EXIT_FAILURE;
}
