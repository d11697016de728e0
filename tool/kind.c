#include "kind.h"

#include <stdbool.h>
#include <string.h>

#include "jokulvisp.h"
#include "utf8.h"

/* ---- Pictures ---- */

static bool is_png(const uint8_t *bytes, size_t length)
{
    static const uint8_t signature[] = { 0x89, 'P', 'N', 'G', '\r', '\n', 0x1A, '\n' };
    return length >= sizeof signature && memcmp(bytes, signature, sizeof signature) == 0;
}

/* ---- Text ---- */

static bool is_white_space(unsigned character)
{
    return character == ' ' || ('\t' <= character && character <= '\r');
}

/* How many bytes the first character has, or 0 where no text goes on like this. */
static size_t text_length(const char *bytes, size_t length)
{
    return length > 0 && is_white_space((unsigned char)bytes[0]) ? 1 : character_length(bytes, length);
}

/* How many bytes at the start are those of a text. */
static size_t count_text(const char *bytes, size_t length)
{
    size_t count = 0, next = text_length(bytes, length);
    while (next > 0) {
        count += next;
        next = text_length(bytes + count, length - count);
    }
    return count;
}

/* Of a file that is longer than what is held of it, the last character may be cut off. */
static bool is_text(const display_list *list)
{
    enum { MOST_CUT_OFF = 3 };
    size_t held = held_bytes(list), count = count_text((const char *)list->bytes, held);
    return count > 0 && (list->length > held ? held - count <= MOST_CUT_OFF : count == held);
}

static bool is_ascii_character(unsigned unit)
{
    return is_white_space(unit) || (0x20 <= unit && unit < 0x7F);
}

/* Whether all of it are characters, and most are ASCII. `high` says which byte of each two is the high one. A list can
   start with a byte order mark too, as part of a colour, but half of its words' halves have a command. */
static bool is_utf16_text(const uint8_t *bytes, size_t length, size_t high)
{
    size_t units = length / 2, ascii = 0;
    for (const uint8_t *next = bytes; next < bytes + 2 * units; next += 2) {
        unsigned unit = (unsigned)next[high] << 8 | next[1 - high];
        if (!is_ascii_character(unit) && unit < 0xA0)
            return false;
        ascii += is_ascii_character(unit) ? 1 : 0;
    }
    return 2 * ascii > units;
}

/* Whether every high byte is 0, which is so of text in English without a byte order mark. */
static bool is_wide_ascii(const uint8_t *bytes, size_t length, size_t high)
{
    for (size_t n = high; n < length; n += 2)
        if (bytes[n] != 0)
            return false;
    return is_utf16_text(bytes, length, high);
}

static bool is_utf16(const uint8_t *bytes, size_t length)
{
    bool has_mark = length >= 2 && bytes[0] >= 0xFE && bytes[1] >= 0xFE && bytes[0] != bytes[1];
    if (has_mark)
        return length > 2 && is_utf16_text(bytes + 2, length - 2, bytes[0] == 0xFE ? 0 : 1);
    return length >= 4 && (is_wide_ascii(bytes, length, 0) || is_wide_ascii(bytes, length, 1));
}

/* ---- Lists ---- */

static uint32_t with_bytes_reversed(uint32_t bits)
{
    return bits >> 24 | (bits >> 8 & 0xFF00) | (bits << 8 & 0xFF0000) | bits << 24;
}

static bool is_valid_word(uint32_t bits)
{
    return jv_read_word(bits).number == JV_DONE;
}

/* Whether it is valid and has no reserved bits. */
static bool is_plain_word(uint32_t bits)
{
    jv_word word = jv_read_word(bits);
    return word.number == JV_DONE &&
           jv_write_word(word.command, word.a, word.b, word.c, word.d, word.e).bits == bits;
}

/* Whether all words are valid with their bytes in the other order, and far more of them are plain than as they are. A
   list has a DISPLAY, which is the same in both orders; other bytes may be vertices by chance. What follows the first
   one need not be words of the list as it is. */
static bool is_list_reversed(const uint8_t *bytes, size_t length)
{
    enum { FAR_MORE = 4 };
    bool has_display = false;
    size_t odd = 0, odd_reversed = 0;
    if (!has_list_length(length))
        return false;
    for (size_t offset = 0; offset < length; offset += 4) {
        uint32_t bits = word_of(bytes + offset), reversed = with_bytes_reversed(bits);
        if (!is_valid_word(reversed))
            return false;
        has_display = has_display || bits == 0;
        odd += has_display || is_plain_word(bits) ? 0 : 1;
        odd_reversed += is_plain_word(reversed) ? 0 : 1;
    }
    return has_display && odd > FAR_MORE * odd_reversed;
}

/* No text has a NUL byte. */
static bool is_list(const uint8_t *bytes, size_t length)
{
    if (!has_list_length(length) || memchr(bytes, '\0', length) == NULL)
        return false;
    for (size_t offset = 0; offset < length; offset += 4)
        if (!is_valid_word(word_of(bytes + offset)))
            return false;
    return true;
}

/* ---- What to say ---- */

const char *find_hint(const display_list *list)
{
    size_t held = held_bytes(list);
    if (is_png(list->bytes, held))
        return "This is a PNG picture.";
    if (is_utf16(list->bytes, held))
        return "This is UTF-16 text. Save it as UTF-8, then jokulvisp assemble makes a list out of it.";
    if (is_text(list))
        return "This is text. jokulvisp assemble makes a list out of it.";
    if (is_list_reversed(list->bytes, list->length))
        return "The bytes of each word seem to be in the wrong order: a list has the lowest byte first.";
    return NULL;
}

const char *find_other_than_text(const uint8_t *bytes, size_t length)
{
    if (is_png(bytes, length))
        return "this is a PNG picture, not text";
    if (is_utf16(bytes, length))
        return "this is UTF-16 text; save it as UTF-8";
    if (is_list_reversed(bytes, length))
        return "this is a list, with the bytes of each word in the wrong order";
    if (is_list(bytes, length))
        return "this is a list already; jokulvisp words prints it as text";
    return NULL;
}
