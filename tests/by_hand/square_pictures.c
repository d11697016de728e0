#include "square_pictures.h"

#include "../shared/check.h"
#include "../shared/list_check.h"
#include "jokulvisp.h"

uint8_t picture[CHANNELS * PIXELS];

void paint(const uint32_t *words, size_t count, const uint8_t *ram_g, size_t ram_g_length)
{
    static uint8_t list[JV_MAX_LIST_BYTES], tags[PIXELS];
    put_words(list, words, count);
    jv_answer answer = jv_paint(list, 4 * count, ram_g, ram_g_length, SIDE, SIDE, JV_MAX_LIMIT, picture, sizeof picture,
                                tags, sizeof tags);
    CHECK_HOLDS(answer.number == JV_DONE, "the list is refused with %u", answer.number);
}
