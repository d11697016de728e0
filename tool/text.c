#include "text.h"

#include <string.h>

/* ---- Characters, by their numbers in ASCII whatever the locale ---- */

static bool is_digit(char c)
{
    return '0' <= c && c <= '9';
}

static bool is_letter(char c)
{
    return ('a' <= c && c <= 'z') || ('A' <= c && c <= 'Z');
}

static bool is_one_of(char c, const char *characters)
{
    return c != '\0' && strchr(characters, c) != NULL;
}

/* Brackets and commas say nothing, and neither does the line end of another system. */
static bool is_blank(char c)
{
    return is_one_of(c, " \t\r(),");
}

/* The value of a digit to base 10 or 16, or -1. */
static int digit_value(char c, int base)
{
    if (is_digit(c))
        return c - '0';
    char small = (char)(c | 0x20);
    return base == 16 && 'a' <= small && small <= 'f' ? small - 'a' + 10 : -1;
}

/* ---- Pieces ---- */

static piece piece_from(piece p, size_t start)
{
    return (piece){ p.start + start, p.length - start };
}

/* Where a character stands in a piece, or the piece's length. */
static size_t find_character(piece p, char wanted)
{
    const char *found = p.length > 0 ? memchr(p.start, wanted, p.length) : NULL;
    return found != NULL ? (size_t)(found - p.start) : p.length;
}

bool is_piece(piece p, const char *wanted)
{
    return are_equal_pieces(p, (piece){ wanted, strlen(wanted) });
}

bool are_equal_pieces(piece a, piece b)
{
    return a.length == b.length && (a.length == 0 || memcmp(a.start, b.start, a.length) == 0);
}

bool is_label(piece p)
{
    for (size_t n = 0; n < p.length; n++)
        if (!is_letter(p.start[n]) && p.start[n] != '_' && (n == 0 || !is_digit(p.start[n])))
            return false;
    return p.length > 0;
}

bool split_at_equals(piece whole, piece *name, piece *value)
{
    size_t at = find_character(whole, '=');
    if (at == whole.length)
        return false;
    *name = (piece){ whole.start, at };
    *value = piece_from(whole, at + 1);
    return true;
}

/* ---- Numbers ---- */

static bool has_digits(piece p, int base, size_t least)
{
    for (size_t n = 0; n < p.length; n++)
        if (digit_value(p.start[n], base) < 0)
            return false;
    return p.length >= least;
}

static int64_t value_of(piece digits, int base)
{
    const int64_t enough = (int64_t)1 << 40;
    int64_t value = 0;
    for (size_t n = 0; n < digits.length && value < enough; n++)
        value = value * base + digit_value(digits.start[n], base);
    return value;
}

bool read_number(piece p, int64_t *number)
{
    bool is_negative = p.length > 0 && p.start[0] == '-';
    piece rest = piece_from(p, is_negative ? 1 : 0);
    bool is_hex = rest.length > 2 && rest.start[0] == '0' && (rest.start[1] == 'x' || rest.start[1] == 'X');
    int base = is_hex ? 16 : 10;
    piece digits = piece_from(rest, is_hex ? 2 : 0);
    if (!has_digits(digits, base, 1))
        return false;
    *number = value_of(digits, base) * (is_negative ? -1 : 1);
    return true;
}

/* ---- Comments ---- */

static bool starts_with(piece p, const char *wanted)
{
    return p.length >= strlen(wanted) && memcmp(p.start, wanted, strlen(wanted)) == 0;
}

/* The length of the comment that the rest of a text starts with, or 0 where it starts with none. It is closed unless it
   is a C comment without an end, which takes all of the rest. */
static size_t measure_comment(piece rest, bool *is_closed)
{
    *is_closed = true;
    if (starts_with(rest, "#") || starts_with(rest, "//"))
        return find_character(rest, '\n');
    if (!starts_with(rest, "/*"))
        return 0;
    for (size_t end = 4; end <= rest.length; end++)
        if (memcmp(rest.start + end - 2, "*/", 2) == 0)
            return end;
    *is_closed = false;
    return rest.length;
}

/* Line ends stay, for lines are counted, and so do NUL bytes, which no text may have. */
static void blank_out(char *bytes, size_t length)
{
    for (size_t n = 0; n < length; n++)
        if (bytes[n] != '\n' && bytes[n] != '\0')
            bytes[n] = ' ';
}

/* Returns the number of the line with a comment that is never closed, or 0. */
static uint32_t blank_comments(char *bytes, size_t length)
{
    uint32_t line = 1, open = 0;
    for (size_t n = 0; n < length; n++) {
        bool is_closed = true;
        size_t comment = measure_comment((piece){ bytes + n, length - n }, &is_closed);
        blank_out(bytes + n, comment);
        open = is_closed ? open : line;
        line += bytes[n] == '\n' ? 1 : 0;
    }
    return open;
}

list_text start_text(char *bytes, size_t length)
{
    static const char byte_order_mark[] = "\xEF\xBB\xBF";
    list_text t = { .bytes = bytes, .length = length, .open_comment = blank_comments(bytes, length) };
    if (starts_with((piece){ bytes, length }, byte_order_mark))
        t.next = sizeof byte_order_mark - 1;
    return t;
}

/* ---- Lines ---- */

/* The next line without its end. */
static piece cut_line(list_text *t)
{
    piece rest = { t->bytes + t->next, t->length - t->next };
    rest.length = find_character(rest, '\n');
    t->next += rest.length + 1;
    t->line++;
    return rest;
}

static size_t count_while(piece p, bool blank)
{
    size_t count = 0;
    while (count < p.length && is_blank(p.start[count]) == blank)
        count++;
    return count;
}

/* Takes the next piece off the line. It is empty at the line's end. */
static piece cut_piece(piece *rest)
{
    *rest = piece_from(*rest, count_while(*rest, true));
    piece cut = { rest->start, count_while(*rest, false) };
    *rest = piece_from(*rest, cut.length);
    return cut;
}

/* A colon in the first piece ends a label. */
static void cut_label(text_line *line, piece *rest)
{
    piece after = *rest, first = cut_piece(&after);
    size_t colon = find_character(first, ':');
    line->has_label = colon < first.length;
    if (!line->has_label)
        return;
    line->label = (piece){ first.start, colon };
    *rest = (piece){ first.start + colon + 1, (size_t)(after.start + after.length - first.start) - colon - 1 };
}

static void cut_pieces(text_line *line, piece rest)
{
    line->count = 0;
    for (piece next = cut_piece(&rest); next.length > 0 && line->count < MOST_PIECES; next = cut_piece(&rest))
        line->pieces[line->count++] = next;
}

/* Takes offset and bits off the line. */
static void cut_offset_and_bits(text_line *line)
{
    line->has_bits = line->count >= 2 && has_digits(line->pieces[0], 10, 1) && line->pieces[1].length == 8 &&
                     has_digits(line->pieces[1], 16, 8);
    if (!line->has_bits)
        return;
    line->bits = (uint32_t)value_of(line->pieces[1], 16);
    line->count -= 2;
    memmove(line->pieces, line->pieces + 2, line->count * sizeof line->pieces[0]);
    if (line->count == 0)
        line->fault = "no command follows offset and bits";
}

/* Some are used to ending each line with a semicolon. */
static piece without_semicolon(piece line)
{
    while (line.length > 0 && is_one_of(line.start[line.length - 1], " \t\r;"))
        line.length--;
    return line;
}

/* What is wrong with the line that was read last, as a whole, or NULL. */
static const char *find_line_fault(const list_text *t, piece line)
{
    if (line.length > MOST_LINE_BYTES)
        return "the line is longer than 1000 bytes";
    if (find_character(line, '\0') < line.length)
        return "the line has a NUL byte in it";
    if (t->line == t->open_comment)
        return "the comment that starts here with /* is never closed with */";
    piece rest = without_semicolon(line);
    if (find_character(rest, ';') < rest.length)
        return "';' can only end a line: each command needs its own line, and a comment starts with # or //";
    return NULL;
}

bool read_line(list_text *t, text_line *line)
{
    *line = (text_line){ 0 };
    if (t->next >= t->length)
        return false;
    piece whole = cut_line(t), rest = without_semicolon(whole);
    line->fault = find_line_fault(t, whole);
    if (line->fault != NULL)
        return true;
    cut_label(line, &rest);
    cut_pieces(line, rest);
    cut_offset_and_bits(line);
    return true;
}
