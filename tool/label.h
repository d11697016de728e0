/* The labels of a text. */
#ifndef LABEL_H
#define LABEL_H

#include <stdbool.h>
#include <stdint.h>

#include "text.h"

/* Twice as many as there are words, for a word can have several. */
enum { MOST_LABELS = 4096 };

typedef struct {
    piece name;
    uint32_t line, word; /* the number of the word behind it, from 0 */
} label;

typedef struct {
    uint32_t count;
    label labels[MOST_LABELS];
} label_table;

/* Adds a label, as long as there is room. */
void add_label(label_table *table, label l);

/* The first label of this name, or NULL. */
const label *find_label(const label_table *table, piece name);

#endif
