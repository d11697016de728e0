#include "lent.h"

#include "list_check.h"

uint8_t pattern_byte(size_t n)
{
    return (uint8_t)(n * 167 + n / 256 + 91);
}

void put_pattern(uint8_t *block, size_t first, size_t past_last)
{
    for (size_t n = first; n < past_last; n++)
        block[n] = pattern_byte(n);
}

uint8_t *patterned_block(size_t length)
{
    uint8_t *block = allocated(length + 2 * AROUND);
    put_pattern(block, 0, length + 2 * AROUND);
    return block;
}

bool has_pattern(const uint8_t *block, size_t first, size_t past_last)
{
    for (size_t n = first; n < past_last; n++)
        if (block[n] != pattern_byte(n))
            return false;
    return true;
}

bool is_kept_around(const uint8_t *block, size_t length)
{
    return has_pattern(block, 0, AROUND) && has_pattern(block, AROUND + length, AROUND + length + AROUND);
}
