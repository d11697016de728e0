/* What a run takes: the bytes of one list or two, and of RAM_G. */
#ifndef INPUT_H
#define INPUT_H

#include <stdbool.h>
#include <stddef.h>
#include <stdint.h>

#include "jokulvisp.h"
#include "list.h"
#include "order.h"

/* There is room for one byte too many in RAM_G, as in a list. */
typedef struct {
    display_list lists[MOST_FILES];
    uint8_t ram_g[JV_MAX_RAM_G_BYTES + 1];
    size_t ram_g_length; /* of the file, of which `ram_g` holds the beginning */
} run_input;

/* Reads all files, whatever their lengths. If that is not possible, says so on standard error and returns NULL. */
const run_input *read_input(const order *o);

/* How many of the file's bytes `ram_g` holds. */
size_t held_ram_g(const run_input *input);

#endif
