/* The layer of a session: whether there is one, and its theme, words and start, as the environment asks for them. */
#ifndef LAYER_H
#define LAYER_H

#include "bytes.h"

/* What the environment asks for. Without it: a layer in the colours of a dark terminal, with folds as they are. */
typedef struct layer {
    bool is_on;
    uint32_t theme;     /* GABRO_DARK to GABRO_NO_COLOURS */
    uint32_t folds;     /* GABRO_AS_IT_IS to GABRO_OPEN_IF_IT_FITS */
    bool has_headings;  /* whether sections show the lines that they stand in, in a program that calls `name_sections` */
    const char *accept; /* what the status row says that accepting does */
} layer;

/* Reads the environment into `layer`. Returns the name of a variable that has no such value, and sets `values` to those that it may
 * have; or returns NULL. */
const char *read_layer(layer *layer, const char **values);

/* Begins the session, with the layer if it is on. Returns the code of the call. */
uint32_t begin_layer(gabro_session *session, const layer *layer, uint16_t width, uint16_t height);

/* Opens the session over a state in its JSON form, with the layer if it is on. Returns the code of the call. */
uint32_t open_layer(gabro_session *session, const layer *layer, const text *json, uint16_t width, uint16_t height);

/* Gives a session that has begun the looks of its layer and the folds of its start, on the size of `terminal`. Returns the code of the
 * call that failed, or GABRO_DONE. */
uint32_t start_layer(gabro_session *session, const layer *layer, int terminal);

/* Has a session that waits with the layer show the line that each section stands in, unless the environment forbids it. Returns the code
 * of the call, or GABRO_DONE. */
uint32_t name_sections(gabro_session *session, const layer *layer);

/* Returns the folder that the variable `name` names by its whole path, or NULL: another path would lead to where the program was started,
 * which may be a stranger's. */
const char *folder_named(const char *name);

/* Gives a session that has begun the keys of the user's own: those of the file that SELECT_KEYS names, or of gabrosty/keys in
 * XDG_CONFIG_HOME or in .config of the home, if it is there. Returns which line is wrong, and what to write, until the next call; or
 * returns NULL. */
const char *take_keys(gabro_session *session, const layer *layer);

/* Returns the lines of the page of keys: those of the user's own that `take_keys` has read, and the lines `others`, until the next call.
 * Returns NULL if the layer is off, or if memory for it fails. */
const char *page_of_keys(const layer *layer, const char *others);

#endif
