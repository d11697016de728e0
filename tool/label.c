#include "label.h"

void add_label(label_table *table, label l)
{
    if (table->count < MOST_LABELS)
        table->labels[table->count++] = l;
}

const label *find_label(const label_table *table, piece name)
{
    for (uint32_t n = 0; n < table->count; n++)
        if (are_equal_pieces(table->labels[n].name, name))
            return &table->labels[n];
    return NULL;
}
