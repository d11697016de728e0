#include "list.h"

bool has_list_length(size_t length)
{
    return JV_MIN_LIST_BYTES <= length && length <= JV_MAX_LIST_BYTES && length % 4 == 0;
}

size_t held_bytes(const display_list *list)
{
    return list->length < sizeof list->bytes ? list->length : sizeof list->bytes;
}

uint32_t word_of(const uint8_t bytes[4])
{
    return (uint32_t)bytes[3] << 24 | (uint32_t)bytes[2] << 16 | (uint32_t)bytes[1] << 8 | bytes[0];
}

uint32_t word_at(const display_list *list, size_t offset)
{
    return word_of(list->bytes + offset);
}

void append_word(display_list *list, uint32_t bits)
{
    for (unsigned n = 0; n < 4; n++)
        list->bytes[list->length++] = (uint8_t)(bits >> 8 * n);
}
