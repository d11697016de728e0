#include "file.h"

#include <errno.h>
#include <string.h>

#include "message.h"

bool is_standard(const char *name)
{
    return strcmp(name, "-") == 0;
}

bool is_standard_input(const char *name)
{
    static const char *const names[] = { "/dev/stdin", "/dev/fd/0", "/proc/self/fd/0" };
    for (size_t n = 0; n < sizeof names / sizeof names[0]; n++)
        if (strcmp(name, names[n]) == 0)
            return true;
    return is_standard(name);
}

const char *spoken_name(const char *name)
{
    return is_standard_input(name) ? "standard input" : name;
}

/* The number of bytes left in the stream, counted no further than `most`. */
static size_t count_rest(FILE *stream, size_t most)
{
    char passed_over[4096];
    size_t total = 0, now = 0;
    do {
        now = fread(passed_over, 1, sizeof passed_over, stream);
        total += now;
    } while (now > 0 && total < most);
    return total < most ? total : most;
}

static bool read_stream(FILE *stream, const char *name, uint8_t *bytes, size_t room, size_t *length)
{
    errno = 0;
    *length = fread(bytes, 1, room, stream);
    if (*length == room)
        *length += count_rest(stream, MOST_COUNTED_BYTES - room);
    return !ferror(stream) || complain(spoken_name(name), "%s", errno != 0 ? strerror(errno) : "cannot be read");
}

bool read_file(const char *name, uint8_t *bytes, size_t room, size_t *length)
{
    if (is_standard_input(name))
        return read_stream(stdin, name, bytes, room, length);
    FILE *stream = fopen(name, "rb");
    if (stream == NULL)
        return complain(name, "%s", strerror(errno));
    bool was_read = read_stream(stream, name, bytes, room, length);
    fclose(stream);
    return was_read;
}

void print_length(FILE *out, size_t length)
{
    const char *at_least = length < MOST_COUNTED_BYTES ? "" : "at least ";
    fprintf(out, "It is %s%zu %s long.", at_least, length, plural(length, "byte", "bytes"));
}
