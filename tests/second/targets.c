#include "targets.h"

#include "guide.h"

bool leads_on(uint32_t word)
{
    uint32_t command = command_of(word);
    return command == JV_CALL || command == JV_JUMP;
}

static uint32_t moved(uint32_t target, size_t at, size_t taken, size_t put)
{
    size_t behind = at + (taken > 0 ? taken : 1);
    if (target >= 4 * behind)
        return (uint32_t)(target + 4 * put - 4 * taken) & 0xFFFF;
    return target >= 4 * (at + 1) ? (uint32_t)(4 * at) + target % 4 : target;
}

bool move_targets(uint32_t *words, size_t count, size_t at, size_t taken, size_t put)
{
    bool has_changed = false;
    for (size_t n = 0; n < count; n++) {
        uint32_t target = words[n] & 0xFFFF;
        uint32_t to = leads_on(words[n]) ? moved(target, at, taken, put) : target;
        has_changed = has_changed || to != target;
        words[n] = (words[n] & 0xFFFF0000) | to;
    }
    return has_changed;
}
