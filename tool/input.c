#include "input.h"

#include "file.h"

static run_input input;

static bool read_lists(const order *o)
{
    for (int n = 0; n < o->command->files; n++) {
        display_list *list = &input.lists[n];
        if (!read_file(o->files[n], list->bytes, sizeof list->bytes, &list->length))
            return false;
    }
    return true;
}

static bool read_ram_g(const order *o)
{
    return o->ram_g == NULL || read_file(o->ram_g, input.ram_g, sizeof input.ram_g, &input.ram_g_length);
}

const run_input *read_input(const order *o)
{
    return read_lists(o) && read_ram_g(o) ? &input : NULL;
}

size_t held_ram_g(const run_input *in)
{
    return in->ram_g_length < sizeof in->ram_g ? in->ram_g_length : sizeof in->ram_g;
}
