#include "message.h"

#include <inttypes.h>
#include <string.h>

#include "utf8.h"

/* Room for one character or one escape, with its end. */
enum { MOST_ESCAPE = 5 };

/* ---- Bytes that can be printed ---- */

static void escape_byte(char escaped[MOST_ESCAPE], uint8_t byte)
{
    static const char controls[] = "\t\n\r", letters[] = "tnr";
    const char *found = byte != '\0' ? strchr(controls, byte) : NULL;
    if (found != NULL)
        snprintf(escaped, MOST_ESCAPE, "\\%c", letters[found - controls]);
    else
        snprintf(escaped, MOST_ESCAPE, "\\x%02X", byte);
}

/* Escapes the first character, or the first byte where it is none. Returns how many bytes that was. */
static size_t escape_next(char escaped[MOST_ESCAPE], const char *bytes, size_t length)
{
    size_t printable = printable_length(bytes, length);
    if (printable == 0) {
        escape_byte(escaped, (uint8_t)bytes[0]);
        return 1;
    }
    memcpy(escaped, bytes, printable);
    escaped[printable] = '\0';
    return printable;
}

void print_name(FILE *out, const char *name)
{
    char escaped[MOST_ESCAPE];
    size_t length = strlen(name);
    if (length == 0)
        fputs("''", out);
    while (length > 0) {
        size_t taken = escape_next(escaped, name, length);
        fputs(escaped, out);
        name += taken;
        length -= taken;
    }
}

shown_bytes show_bytes(const char *bytes, size_t length)
{
    static const char rest[] = "...";
    shown_bytes shown = { "" };
    char escaped[MOST_ESCAPE];
    while (length > 0) {
        size_t taken = escape_next(escaped, bytes, length);
        bool has_room = strlen(shown.text) + strlen(escaped) + sizeof rest <= sizeof shown.text;
        strcat(shown.text, has_room ? escaped : rest);
        bytes += taken;
        length = has_room ? length - taken : 0;
    }
    return shown;
}

const char *plural(size_t count, const char *one, const char *many)
{
    return count == 1 ? one : many;
}

/* ---- Messages ---- */

static void start_message(const char *name)
{
    fputs("jokulvisp: ", stderr);
    if (name != NULL)
        print_name(stderr, name);
}

static bool end_message(const char *format, va_list values)
{
    vfprintf(stderr, format, values);
    fputc('\n', stderr);
    return false;
}

bool complain(const char *name, const char *format, ...)
{
    va_list values;
    va_start(values, format);
    start_message(name);
    fputs(name != NULL ? ": " : "", stderr);
    end_message(format, values);
    va_end(values);
    return false;
}

bool complain_of_line(const char *name, uint32_t line, const char *format, va_list values)
{
    start_message(name);
    fprintf(stderr, ":%" PRIu32 ": ", line);
    return end_message(format, values);
}
