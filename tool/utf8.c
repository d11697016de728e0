#include "utf8.h"

#include <stdbool.h>
#include <stdint.h>

enum { MOST_CHARACTER_BYTES = 4, DELETE = 0x7F, FIRST_SURROGATE = 0xD800, LAST_SURROGATE = 0xDFFF, LAST = 0x10FFFF };

/* The first byte of a character with n bytes starts with the bits of starts[n], and is less than starts[n + 1]. */
static const uint8_t starts[] = { 0, 0x00, 0xC0, 0xE0, 0xF0, 0xF8 };

/* The least character that is spelt with n bytes and is not a control character. */
static const uint32_t least[] = { 0, 0x20, 0xA0, 0x800, 0x10000 };

/* 0 for a byte that continues a character. */
static size_t length_by_start(uint8_t first)
{
    if (first < 0x80)
        return 1;
    size_t length = MOST_CHARACTER_BYTES;
    while (length > 1 && first < starts[length])
        length--;
    return length > 1 && first < starts[length + 1] ? length : 0;
}

/* Whether it shows nothing, or changes the direction of what follows. */
static bool is_invisible(uint32_t character)
{
    return (0x200B <= character && character <= 0x200F) || (0x2028 <= character && character <= 0x202E) ||
           (0x2060 <= character && character <= 0x206F) || character == 0xFEFF;
}

/* Reads the first character. Returns how many bytes it has, or 0 as character_length does. */
static size_t read_character(const char *bytes, size_t length, uint32_t *character)
{
    size_t needed = length > 0 ? length_by_start((uint8_t)bytes[0]) : 0;
    if (needed == 0 || needed > length)
        return 0;
    *character = (uint32_t)((uint8_t)bytes[0] - starts[needed]);
    for (size_t n = 1; n < needed; n++) {
        uint8_t next = (uint8_t)bytes[n];
        if (next >> 6 != 2)
            return 0;
        *character = *character << 6 | (next & 0x3F);
    }
    bool is_surrogate = FIRST_SURROGATE <= *character && *character <= LAST_SURROGATE;
    bool is_character = least[needed] <= *character && *character <= LAST && *character != DELETE && !is_surrogate;
    return is_character ? needed : 0;
}

size_t character_length(const char *bytes, size_t length)
{
    uint32_t character = 0;
    return read_character(bytes, length, &character);
}

size_t printable_length(const char *bytes, size_t length)
{
    uint32_t character = 0;
    size_t needed = read_character(bytes, length, &character);
    return is_invisible(character) ? 0 : needed;
}
