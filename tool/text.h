/* The text of a list, taken apart into lines and pieces. */
#ifndef TEXT_H
#define TEXT_H

#include <stdbool.h>
#include <stddef.h>
#include <stdint.h>

/* A text as long as this holds the longest list with room for comments, eight times over. A line has room for a
   command, its offset and bits, all fields and some more, so that too many of them can be told. */
enum { MOST_TEXT_BYTES = 1 << 20, MOST_LINE_BYTES = 1000, MOST_PIECES = 12 };

/* Some bytes of a text. */
typedef struct {
    const char *start;
    size_t length;
} piece;

typedef struct {
    const char *fault; /* what is wrong with the line as a whole, or NULL */
    bool has_label, has_bits;
    piece label;
    uint32_t bits; /* those that stand before the instruction, for the reader */
    size_t count; /* of pieces, the command's name first; 0 where the line has no instruction */
    piece pieces[MOST_PIECES];
} text_line;

/* A text without its comments, and how far it was read. */
typedef struct {
    const char *bytes;
    size_t length, next;
    uint32_t line;         /* the number of the line that was read last */
    uint32_t open_comment; /* the number of the line with a comment that is never closed, or 0 */
} list_text;

/* Makes ready to read a text. Puts blanks in place of its comments, which are then gone. */
list_text start_text(char *bytes, size_t length);

/* Reads the next line. Returns false where there is none. */
bool read_line(list_text *t, text_line *line);

bool is_piece(piece p, const char *wanted);
bool are_equal_pieces(piece a, piece b);

/* Whether it could be a label: a letter or _, then letters, digits, _. */
bool is_label(piece p);

/* Takes apart a piece like 'red=255'. Returns false where there is no '='. */
bool split_at_equals(piece whole, piece *name, piece *value);

/* Reads a whole number, decimal or 0x and hex digits, with or without a sign. One that is too large by far comes out
   smaller, but larger than any 32 bits hold. Returns false where it is no number. */
bool read_number(piece p, int64_t *number);

#endif
