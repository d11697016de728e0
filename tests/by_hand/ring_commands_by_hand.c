/* Single commands, each at the ends of what it takes, and commands that are at fault or wait for parameters. They stand
   at the ring's start unless a case says otherwise. */
#include "rings_by_hand.h"

#include <inttypes.h>
#include <stdio.h>

#include "../shared/check.h"
#include "hand_rings.h"

/* What a case comes to that starts at 0 with one command of so many bytes: it is taken, or it is at fault. */
#define FROM_START(bytes, offset) AT(0, bytes, offset, 0)
#define IS_TAKEN(bytes, offset) GIVES(0, 0, 1, bytes, bytes, bytes, offset, 0)
#define IS_AT_FAULT(number, bytes, offset) GIVES(number, 0, 0, 0xFFF, 0, bytes, offset, 1)

/* ---- Words for RAM_DL ---- */

static const hand_ring plain_words[] = {
    { CASE("a word"), FROM_START(4, 0), WAITING(0x12345678), IS_TAKEN(4, 4), CHANGES(LIST_GETS(0, 0x12345678)) },
    { CASE("DISPLAY, which ends no run"), AT(0, 12, 0, 0), WAITING(0, 0, 0x26000007), GIVES(0, 0, 3, 12, 12, 12, 12, 0),
      CHANGES(LIST_GETS(0, 0, 0, 0x26000007)) },
    { CASE("at offset 4"), FROM_START(4, 4), WAITING(0x12345678), IS_TAKEN(4, 8), CHANGES(LIST_GETS(4, 0x12345678)) },
    { CASE("at offset 8188, the last"), FROM_START(4, FULL - 4), WAITING(0x12345678), IS_TAKEN(4, FULL),
      CHANGES(LIST_GETS(FULL - 4, 0x12345678)) },
    { CASE("at offset 8192: RAM_DL is full"), FROM_START(4, FULL), WAITING(0x12345678), IS_AT_FAULT(34, 4, FULL) },
    { CASE("full, at another place of the ring"), AT(100, 104, FULL, 0), WAITING(0x12345678),
      GIVES(34, 100, 0, 0xFFF, 100, 104, FULL, 1) },
    { CASE("two words at offset 8188"), AT(0, 8, FULL - 4, 0), WAITING(0x12345678, 0x23456789),
      GIVES(34, 4, 1, 0xFFF, 4, 8, FULL, 1), CHANGES(LIST_GETS(FULL - 4, 0x12345678)) },
    { CASE("two words at offset 8184"), AT(0, 8, FULL - 8, 0), WAITING(0x12345678, 0x23456789),
      GIVES(0, 0, 2, 8, 8, 8, FULL, 0), CHANGES(LIST_GETS(FULL - 8, 0x12345678, 0x23456789)) },
    { CASE("words without a meaning in a list"), AT(0, 24, 0, 0),
      WAITING(0x2E000000, 0x3FFFFFFF, 0x1C801800, 0xC0000000, 0xFE000000, 0xFEFFFFFF),
      GIVES(0, 0, 6, 24, 24, 24, 24, 0),
      CHANGES(LIST_GETS(0, 0x2E000000, 0x3FFFFFFF, 0x1C801800, 0xC0000000, 0xFE000000, 0xFEFFFFFF)) },
    { CASE("words that are like commands but for the top byte"), AT(0, 20, 0, 0),
      WAITING(0xFEFFFF01, 0x00FFFF00, 0x7FFFFF1B, 0x0000001E, 0xEFFFFF32), GIVES(0, 0, 5, 20, 20, 20, 20, 0),
      CHANGES(LIST_GETS(0, 0xFEFFFF01, 0x00FFFF00, 0x7FFFFF1B, 0x0000001E, 0xEFFFFF32)) },
};

/* A word of each top byte but FF. */
static void check_top_bytes(void)
{
    begin_part("rings: a word of each top byte");
    for (uint32_t top = 0; top < 0xFF; top++) {
        char name[32];
        snprintf(name, sizeof name, "top byte %02" PRIX32, top);
        uint32_t word = top << 24 | 0xFFFF01;
        check_ring(__FILE__, &(const hand_ring){ CASE(name), FROM_START(4, 0), .words = &word, .count = 1,
                                                 IS_TAKEN(4, 4), CHANGES(LIST_GETS_FROM(&word, 0, 4)) });
    }
}

/* ---- Commands without parameters ---- */

static const hand_ring lone_commands[] = {
    { CASE("DLSTART"), FROM_START(4, 400), WAITING(DLSTART()), IS_TAKEN(4, 0) },
    { CASE("DLSTART at offset 0"), FROM_START(4, 0), WAITING(DLSTART()), IS_TAKEN(4, 0) },
    { CASE("DLSTART at offset 8192"), FROM_START(4, FULL), WAITING(DLSTART()), IS_TAKEN(4, 0) },
    { CASE("DLSTART makes room"), AT(0, 8, FULL, 0), WAITING(DLSTART(), 0x12345678), GIVES(0, 0, 2, 8, 8, 8, 4, 0),
      CHANGES(LIST_GETS(0, 0x12345678)) },
    { CASE("COLDSTART"), FROM_START(4, 400), WAITING(COLDSTART()), IS_TAKEN(4, 400) },
    { CASE("COLDSTART at offset 8192"), FROM_START(4, FULL), WAITING(COLDSTART()), IS_TAKEN(4, FULL) },
    { CASE("SWAP"), FROM_START(4, 400), WAITING(SWAP()), GIVES(31, 0, 1, 4, 4, 4, 400, 0), CHANGES(SHOWN_IS_LIST) },
    { CASE("SWAP at offset 0"), FROM_START(4, 0), WAITING(SWAP()), GIVES(31, 0, 1, 4, 4, 4, 0, 0),
      CHANGES(SHOWN_IS_LIST) },
    { CASE("SWAP at offset 8192"), FROM_START(4, FULL), WAITING(SWAP()), GIVES(31, 0, 1, 4, 4, 4, FULL, 0),
      CHANGES(SHOWN_IS_LIST) },
    { CASE("SWAP over RAM_G"), FROM_START(4, 8), WAITING(SWAP()), RAM_G_OF(64), GIVES(31, 0, 1, 4, 4, 4, 8, 0),
      CHANGES(SHOWN_IS_LIST) },
    { CASE("SWAP shows what was put before it"), AT(0, 12, FULL - 8, 0), WAITING(0x12345678, 0x23456789, SWAP()),
      GIVES(31, 0, 3, 12, 12, 12, FULL, 0), CHANGES(LIST_GETS(FULL - 8, 0x12345678, 0x23456789), SHOWN_IS_LIST) },
    { CASE("SWAP, and a word behind it"), AT(0, 8, 0, 0), WAITING(SWAP(), 0x12345678), GIVES(31, 0, 1, 4, 4, 8, 0, 0),
      CHANGES(SHOWN_IS_LIST) },
    { CASE("SWAP twice"), AT(0, 8, 0, 0), WAITING(SWAP(), SWAP()), GIVES(31, 0, 1, 4, 4, 8, 0, 0),
      CHANGES(SHOWN_IS_LIST) },
    { CASE("SWAP, and behind it what would be at fault"), AT(0, 8, 0, 0), WAITING(SWAP(), 0xFFFFFFFF),
      GIVES(31, 0, 1, 4, 4, 8, 0, 0), CHANGES(SHOWN_IS_LIST) },
    { CASE("SWAP, and behind it what lacks parameters"), AT(0, 8, 0, 0), WAITING(SWAP(), FIRST_WORD(MEMSET_BYTE)),
      GIVES(31, 0, 1, 4, 4, 8, 0, 0), CHANGES(SHOWN_IS_LIST) },
};

/* ---- MEMSET ---- */

static const hand_ring memset_commands[] = {
    { CASE("MEMSET"), FROM_START(16, 400), WAITING(MEMSET(3, 0xAB, 5)), RAM_G_OF(16), IS_TAKEN(16, 400),
      CHANGES(RAM_G_FILLS(3, 0xAB, 5)) },
    { CASE("MEMSET, written out"), FROM_START(16, 0), WAITING(MEMSET(1, 0xAB, 3)), RAM_G_IS(1, 2, 3, 4, 5, 6),
      IS_TAKEN(16, 0), RAM_G_BECOMES(1, 0xAB, 0xAB, 0xAB, 5, 6) },
    { CASE("of all"), FROM_START(16, 0), WAITING(MEMSET(0, 0xAB, 16)), RAM_G_OF(16), IS_TAKEN(16, 0),
      CHANGES(RAM_G_FILLS(0, 0xAB, 16)) },
    { CASE("of one byte too many"), FROM_START(16, 0), WAITING(MEMSET(0, 0xAB, 17)), RAM_G_OF(16),
      IS_AT_FAULT(35, 16, 0) },
    { CASE("of the last byte"), FROM_START(16, 0), WAITING(MEMSET(15, 0xAB, 1)), RAM_G_OF(16), IS_TAKEN(16, 0),
      CHANGES(RAM_G_FILLS(15, 0xAB, 1)) },
    { CASE("of the last byte and one more"), FROM_START(16, 0), WAITING(MEMSET(15, 0xAB, 2)), RAM_G_OF(16),
      IS_AT_FAULT(35, 16, 0) },
    { CASE("of a byte at the end"), FROM_START(16, 0), WAITING(MEMSET(16, 0xAB, 1)), RAM_G_OF(16),
      IS_AT_FAULT(35, 16, 0) },
    { CASE("of no byte"), FROM_START(16, 0), WAITING(MEMSET(0, 0xAB, 0)), RAM_G_OF(16), IS_TAKEN(16, 0) },
    { CASE("of no byte at the end"), FROM_START(16, 0), WAITING(MEMSET(16, 0xAB, 0)), RAM_G_OF(16), IS_TAKEN(16, 0) },
    { CASE("of no byte past the end"), FROM_START(16, 0), WAITING(MEMSET(17, 0xAB, 0)), RAM_G_OF(16),
      IS_AT_FAULT(35, 16, 0) },
    { CASE("of no byte far past the end"), FROM_START(16, 0), WAITING(MEMSET(0xFFFFFFFF, 0xAB, 0)), RAM_G_OF(16),
      IS_AT_FAULT(35, 16, 0) },
    { CASE("a sum of 2^32"), FROM_START(16, 0), WAITING(MEMSET(0xFFFFFFFF, 0xAB, 1)), RAM_G_OF(16),
      IS_AT_FAULT(35, 16, 0) },
    { CASE("a sum of 2^32 + 4"), FROM_START(16, 0), WAITING(MEMSET(0xFFFFFFFC, 0xAB, 8)), RAM_G_OF(16),
      IS_AT_FAULT(35, 16, 0) },
    { CASE("a sum of 2^32 + 3, by the count"), FROM_START(16, 0), WAITING(MEMSET(4, 0xAB, 0xFFFFFFFF)), RAM_G_OF(16),
      IS_AT_FAULT(35, 16, 0) },
    { CASE("a sum of 2^33 - 2"), FROM_START(16, 0), WAITING(MEMSET(0xFFFFFFFF, 0xAB, 0xFFFFFFFF)), RAM_G_OF(16),
      IS_AT_FAULT(35, 16, 0) },
    { CASE("a sum of 2^31 + 8"), FROM_START(16, 0), WAITING(MEMSET(8, 0xAB, 0x80000000)), RAM_G_OF(16),
      IS_AT_FAULT(35, 16, 0) },
    { CASE("a value of nine bits"), FROM_START(16, 0), WAITING(MEMSET(0, 0x1FE, 4)), RAM_G_OF(16), IS_TAKEN(16, 0),
      CHANGES(RAM_G_FILLS(0, 0xFE, 4)) },
    { CASE("a value of 2^8"), FROM_START(16, 0), WAITING(MEMSET(0, 0x100, 4)), RAM_G_OF(16), IS_TAKEN(16, 0),
      CHANGES(RAM_G_FILLS(0, 0, 4)) },
    { CASE("a value of 32 bits"), FROM_START(16, 0), WAITING(MEMSET(4, 0xFEDCBA98, 9)), RAM_G_OF(16), IS_TAKEN(16, 0),
      CHANGES(RAM_G_FILLS(4, 0x98, 9)) },
    { CASE("a value that is a command"), FROM_START(16, 0), WAITING(MEMSET(4, SWAP(), 9)), RAM_G_OF(16),
      IS_TAKEN(16, 0), CHANGES(RAM_G_FILLS(4, 1, 9)) },
    { CASE("of no byte without RAM_G"), FROM_START(16, 0), WAITING(MEMSET(0, 0xAB, 0)), IS_TAKEN(16, 0) },
    { CASE("of a byte without RAM_G"), FROM_START(16, 0), WAITING(MEMSET(0, 0xAB, 1)), IS_AT_FAULT(35, 16, 0) },
    { CASE("of no byte past the end without RAM_G"), FROM_START(16, 0), WAITING(MEMSET(1, 0xAB, 0)),
      IS_AT_FAULT(35, 16, 0) },
    { CASE("of the largest RAM_G"), FROM_START(16, 0), WAITING(MEMSET(0, 0xAB, JV_MAX_RAM_G_BYTES)),
      RAM_G_OF(JV_MAX_RAM_G_BYTES), IS_TAKEN(16, 0), CHANGES(RAM_G_FILLS(0, 0xAB, JV_MAX_RAM_G_BYTES)) },
    { CASE("of more than the largest RAM_G"), FROM_START(16, 0), WAITING(MEMSET(0, 0xAB, JV_MAX_RAM_G_BYTES + 1)),
      RAM_G_OF(JV_MAX_RAM_G_BYTES), IS_AT_FAULT(35, 16, 0) },
    { CASE("of the last byte of the largest RAM_G"), FROM_START(16, 0),
      WAITING(MEMSET(JV_MAX_RAM_G_BYTES - 1, 0xAB, 1)), RAM_G_OF(JV_MAX_RAM_G_BYTES), IS_TAKEN(16, 0),
      CHANGES(RAM_G_FILLS(JV_MAX_RAM_G_BYTES - 1, 0xAB, 1)) },
    { CASE("of no byte at the end of the largest RAM_G"), FROM_START(16, 0),
      WAITING(MEMSET(JV_MAX_RAM_G_BYTES, 0xAB, 0)), RAM_G_OF(JV_MAX_RAM_G_BYTES), IS_TAKEN(16, 0) },
    { CASE("of a byte at the end of the largest RAM_G"), FROM_START(16, 0),
      WAITING(MEMSET(JV_MAX_RAM_G_BYTES, 0xAB, 1)), RAM_G_OF(JV_MAX_RAM_G_BYTES), IS_AT_FAULT(35, 16, 0) },
    { CASE("of a byte inside the largest RAM_G and past this one"), FROM_START(16, 0), WAITING(MEMSET(1000, 0xAB, 1)),
      RAM_G_OF(1000), IS_AT_FAULT(35, 16, 0) },
};

/* ---- MEMZERO ---- */

static const hand_ring memzero_commands[] = {
    { CASE("MEMZERO"), FROM_START(12, 400), WAITING(MEMZERO(3, 5)), RAM_G_OF(16), IS_TAKEN(12, 400),
      CHANGES(RAM_G_FILLS(3, 0, 5)) },
    { CASE("MEMZERO, written out"), FROM_START(12, 0), WAITING(MEMZERO(2, 3)), RAM_G_IS(1, 2, 3, 4, 5, 6),
      IS_TAKEN(12, 0), RAM_G_BECOMES(1, 2, 0, 0, 0, 6) },
    { CASE("of all"), FROM_START(12, 0), WAITING(MEMZERO(0, 16)), RAM_G_OF(16), IS_TAKEN(12, 0),
      CHANGES(RAM_G_FILLS(0, 0, 16)) },
    { CASE("of one byte too many"), FROM_START(12, 0), WAITING(MEMZERO(0, 17)), RAM_G_OF(16), IS_AT_FAULT(35, 12, 0) },
    { CASE("of the last byte"), FROM_START(12, 0), WAITING(MEMZERO(15, 1)), RAM_G_OF(16), IS_TAKEN(12, 0),
      CHANGES(RAM_G_FILLS(15, 0, 1)) },
    { CASE("of the last byte and one more"), FROM_START(12, 0), WAITING(MEMZERO(15, 2)), RAM_G_OF(16),
      IS_AT_FAULT(35, 12, 0) },
    { CASE("of a byte at the end"), FROM_START(12, 0), WAITING(MEMZERO(16, 1)), RAM_G_OF(16), IS_AT_FAULT(35, 12, 0) },
    { CASE("of no byte"), FROM_START(12, 0), WAITING(MEMZERO(0, 0)), RAM_G_OF(16), IS_TAKEN(12, 0) },
    { CASE("of no byte at the end"), FROM_START(12, 0), WAITING(MEMZERO(16, 0)), RAM_G_OF(16), IS_TAKEN(12, 0) },
    { CASE("of no byte past the end"), FROM_START(12, 0), WAITING(MEMZERO(17, 0)), RAM_G_OF(16),
      IS_AT_FAULT(35, 12, 0) },
    { CASE("a sum of 2^32"), FROM_START(12, 0), WAITING(MEMZERO(0xFFFFFFFF, 1)), RAM_G_OF(16), IS_AT_FAULT(35, 12, 0) },
    { CASE("a sum of 2^32 + 4"), FROM_START(12, 0), WAITING(MEMZERO(0xFFFFFFF8, 12)), RAM_G_OF(16),
      IS_AT_FAULT(35, 12, 0) },
    { CASE("a sum of 2^32 + 3, by the count"), FROM_START(12, 0), WAITING(MEMZERO(4, 0xFFFFFFFF)), RAM_G_OF(16),
      IS_AT_FAULT(35, 12, 0) },
    { CASE("parameters that are commands"), FROM_START(12, 0), WAITING(MEMZERO(SWAP(), SWAP())), RAM_G_OF(16),
      IS_AT_FAULT(35, 12, 0) },
    { CASE("of no byte without RAM_G"), FROM_START(12, 0), WAITING(MEMZERO(0, 0)), IS_TAKEN(12, 0) },
    { CASE("of a byte without RAM_G"), FROM_START(12, 0), WAITING(MEMZERO(0, 1)), IS_AT_FAULT(35, 12, 0) },
    { CASE("of no byte past the end without RAM_G"), FROM_START(12, 0), WAITING(MEMZERO(1, 0)),
      IS_AT_FAULT(35, 12, 0) },
    { CASE("of the largest RAM_G"), FROM_START(12, 0), WAITING(MEMZERO(0, JV_MAX_RAM_G_BYTES)),
      RAM_G_OF(JV_MAX_RAM_G_BYTES), IS_TAKEN(12, 0), CHANGES(RAM_G_FILLS(0, 0, JV_MAX_RAM_G_BYTES)) },
    { CASE("of more than the largest RAM_G"), FROM_START(12, 0), WAITING(MEMZERO(1, JV_MAX_RAM_G_BYTES)),
      RAM_G_OF(JV_MAX_RAM_G_BYTES), IS_AT_FAULT(35, 12, 0) },
    { CASE("of the last byte of the largest RAM_G"), FROM_START(12, 0), WAITING(MEMZERO(JV_MAX_RAM_G_BYTES - 1, 1)),
      RAM_G_OF(JV_MAX_RAM_G_BYTES), IS_TAKEN(12, 0), CHANGES(RAM_G_FILLS(JV_MAX_RAM_G_BYTES - 1, 0, 1)) },
};

/* ---- MEMCPY ---- */

#define ONE_TO_EIGHT RAM_G_IS(1, 2, 3, 4, 5, 6, 7, 8)

static const hand_ring memcpy_commands[] = {
    { CASE("MEMCPY upwards"), FROM_START(16, 400), WAITING(MEMCPY(4, 0, 4)), ONE_TO_EIGHT, IS_TAKEN(16, 400),
      RAM_G_BECOMES(1, 2, 3, 4, 1, 2, 3, 4) },
    { CASE("MEMCPY downwards"), FROM_START(16, 0), WAITING(MEMCPY(0, 4, 4)), ONE_TO_EIGHT, IS_TAKEN(16, 0),
      RAM_G_BECOMES(5, 6, 7, 8, 5, 6, 7, 8) },
    { CASE("of one byte"), FROM_START(16, 0), WAITING(MEMCPY(6, 1, 1)), ONE_TO_EIGHT, IS_TAKEN(16, 0),
      RAM_G_BECOMES(1, 2, 3, 4, 5, 6, 2, 8) },
    { CASE("overlapping upwards"), FROM_START(16, 0), WAITING(MEMCPY(2, 0, 5)), ONE_TO_EIGHT, IS_TAKEN(16, 0),
      RAM_G_BECOMES(1, 2, 1, 2, 3, 4, 5, 8) },
    { CASE("overlapping upwards, by one"), FROM_START(16, 0), WAITING(MEMCPY(1, 0, 7)), ONE_TO_EIGHT, IS_TAKEN(16, 0),
      RAM_G_BECOMES(1, 1, 2, 3, 4, 5, 6, 7) },
    { CASE("overlapping upwards, in one byte"), FROM_START(16, 0), WAITING(MEMCPY(4, 1, 4)), ONE_TO_EIGHT,
      IS_TAKEN(16, 0), RAM_G_BECOMES(1, 2, 3, 4, 2, 3, 4, 5) },
    { CASE("overlapping downwards"), FROM_START(16, 0), WAITING(MEMCPY(0, 2, 5)), ONE_TO_EIGHT, IS_TAKEN(16, 0),
      RAM_G_BECOMES(3, 4, 5, 6, 7, 6, 7, 8) },
    { CASE("overlapping downwards, by one"), FROM_START(16, 0), WAITING(MEMCPY(0, 1, 7)), ONE_TO_EIGHT, IS_TAKEN(16, 0),
      RAM_G_BECOMES(2, 3, 4, 5, 6, 7, 8, 8) },
    { CASE("overlapping downwards, in one byte"), FROM_START(16, 0), WAITING(MEMCPY(1, 4, 4)), ONE_TO_EIGHT,
      IS_TAKEN(16, 0), RAM_G_BECOMES(1, 5, 6, 7, 8, 6, 7, 8) },
    { CASE("onto itself"), FROM_START(16, 0), WAITING(MEMCPY(2, 2, 4)), ONE_TO_EIGHT, IS_TAKEN(16, 0) },
    { CASE("all of it onto itself"), FROM_START(16, 0), WAITING(MEMCPY(0, 0, 8)), ONE_TO_EIGHT, IS_TAKEN(16, 0) },
    { CASE("side by side"), FROM_START(16, 0), WAITING(MEMCPY(3, 0, 3)), ONE_TO_EIGHT, IS_TAKEN(16, 0),
      RAM_G_BECOMES(1, 2, 3, 1, 2, 3, 7, 8) },
    { CASE("all but one byte, to one byte past the end"), FROM_START(16, 0), WAITING(MEMCPY(2, 0, 7)), ONE_TO_EIGHT,
      IS_AT_FAULT(35, 16, 0) },
    { CASE("all but one byte, from one byte past the end"), FROM_START(16, 0), WAITING(MEMCPY(0, 2, 7)), ONE_TO_EIGHT,
      IS_AT_FAULT(35, 16, 0) },
    { CASE("to one byte past the end"), FROM_START(16, 0), WAITING(MEMCPY(5, 0, 4)), ONE_TO_EIGHT,
      IS_AT_FAULT(35, 16, 0) },
    { CASE("from one byte past the end"), FROM_START(16, 0), WAITING(MEMCPY(0, 5, 4)), ONE_TO_EIGHT,
      IS_AT_FAULT(35, 16, 0) },
    { CASE("both past the end"), FROM_START(16, 0), WAITING(MEMCPY(5, 6, 4)), ONE_TO_EIGHT, IS_AT_FAULT(35, 16, 0) },
    { CASE("all of it, and one more"), FROM_START(16, 0), WAITING(MEMCPY(0, 0, 9)), ONE_TO_EIGHT,
      IS_AT_FAULT(35, 16, 0) },
    { CASE("no byte"), FROM_START(16, 0), WAITING(MEMCPY(1, 3, 0)), ONE_TO_EIGHT, IS_TAKEN(16, 0) },
    { CASE("no byte to the end"), FROM_START(16, 0), WAITING(MEMCPY(8, 3, 0)), ONE_TO_EIGHT, IS_TAKEN(16, 0) },
    { CASE("no byte from the end"), FROM_START(16, 0), WAITING(MEMCPY(3, 8, 0)), ONE_TO_EIGHT, IS_TAKEN(16, 0) },
    { CASE("no byte from the end to it"), FROM_START(16, 0), WAITING(MEMCPY(8, 8, 0)), ONE_TO_EIGHT, IS_TAKEN(16, 0) },
    { CASE("no byte to past the end"), FROM_START(16, 0), WAITING(MEMCPY(9, 3, 0)), ONE_TO_EIGHT,
      IS_AT_FAULT(35, 16, 0) },
    { CASE("no byte from past the end"), FROM_START(16, 0), WAITING(MEMCPY(3, 9, 0)), ONE_TO_EIGHT,
      IS_AT_FAULT(35, 16, 0) },
    { CASE("a target's sum of 2^32"), FROM_START(16, 0), WAITING(MEMCPY(0xFFFFFFFC, 0, 4)), ONE_TO_EIGHT,
      IS_AT_FAULT(35, 16, 0) },
    { CASE("a source's sum of 2^32"), FROM_START(16, 0), WAITING(MEMCPY(0, 0xFFFFFFFC, 4)), ONE_TO_EIGHT,
      IS_AT_FAULT(35, 16, 0) },
    { CASE("a target's sum of 2^32 + 4"), FROM_START(16, 0), WAITING(MEMCPY(0xFFFFFFFC, 0, 8)), ONE_TO_EIGHT,
      IS_AT_FAULT(35, 16, 0) },
    { CASE("a source's sum of 2^32 + 4"), FROM_START(16, 0), WAITING(MEMCPY(0, 0xFFFFFFFC, 8)), ONE_TO_EIGHT,
      IS_AT_FAULT(35, 16, 0) },
    { CASE("both sums of 2^32"), FROM_START(16, 0), WAITING(MEMCPY(4, 4, 0xFFFFFFFC)), ONE_TO_EIGHT,
      IS_AT_FAULT(35, 16, 0) },
    { CASE("no byte without RAM_G"), FROM_START(16, 0), WAITING(MEMCPY(0, 0, 0)), IS_TAKEN(16, 0) },
    { CASE("a byte without RAM_G"), FROM_START(16, 0), WAITING(MEMCPY(0, 0, 1)), IS_AT_FAULT(35, 16, 0) },
    { CASE("no byte to past the end without RAM_G"), FROM_START(16, 0), WAITING(MEMCPY(1, 0, 0)),
      IS_AT_FAULT(35, 16, 0) },
    { CASE("half of the largest RAM_G"), FROM_START(16, 0),
      WAITING(MEMCPY(JV_MAX_RAM_G_BYTES / 2, 0, JV_MAX_RAM_G_BYTES / 2)), RAM_G_OF(JV_MAX_RAM_G_BYTES), IS_TAKEN(16, 0),
      CHANGES(RAM_G_COPIES(JV_MAX_RAM_G_BYTES / 2, 0, JV_MAX_RAM_G_BYTES / 2)) },
    { CASE("all but one byte of the largest RAM_G upwards"), FROM_START(16, 0),
      WAITING(MEMCPY(1, 0, JV_MAX_RAM_G_BYTES - 1)), RAM_G_OF(JV_MAX_RAM_G_BYTES), IS_TAKEN(16, 0),
      CHANGES(RAM_G_COPIES(1, 0, JV_MAX_RAM_G_BYTES - 1)) },
    { CASE("all but one byte of the largest RAM_G downwards"), FROM_START(16, 0),
      WAITING(MEMCPY(0, 1, JV_MAX_RAM_G_BYTES - 1)), RAM_G_OF(JV_MAX_RAM_G_BYTES), IS_TAKEN(16, 0),
      CHANGES(RAM_G_COPIES(0, 1, JV_MAX_RAM_G_BYTES - 1)) },
    { CASE("all of the largest RAM_G to one byte further"), FROM_START(16, 0),
      WAITING(MEMCPY(1, 0, JV_MAX_RAM_G_BYTES)), RAM_G_OF(JV_MAX_RAM_G_BYTES), IS_AT_FAULT(35, 16, 0) },
};

/* By distances on both sides of what a copy in larger parts would take at once. */
static void check_overlaps(void)
{
    static const uint32_t distances[] = { 1, 2, 3, 4, 5, 7, 8, 9, 15, 16, 17, 31, 32, 33, 63, 64, 65, 100, 199 };
    begin_part("rings: MEMCPY of 200 bytes by a distance");
    for (size_t n = 0; n < LENGTH(distances); n++) {
        char name[32];
        snprintf(name, sizeof name, "a distance of %" PRIu32, distances[n]);
        uint32_t low = 50, high = low + distances[n];
        check_ring(__FILE__,
                   &(const hand_ring){ CASE(name), FROM_START(16, 0), WAITING(MEMCPY(high, low, 200)), RAM_G_OF(450),
                                       IS_TAKEN(16, 0), CHANGES(RAM_G_COPIES(high, low, 200)) });
        check_ring(__FILE__,
                   &(const hand_ring){ CASE(name), FROM_START(16, 0), WAITING(MEMCPY(low, high, 200)), RAM_G_OF(450),
                                       IS_TAKEN(16, 0), CHANGES(RAM_G_COPIES(low, high, 200)) });
    }
}

/* ---- APPEND ---- */

static const hand_ring append_commands[] = {
    { CASE("APPEND"), FROM_START(12, 0), WAITING(APPEND(0, 8)), RAM_G_OF(16), IS_TAKEN(12, 8),
      CHANGES(LIST_COPIES(0, 0, 8)) },
    { CASE("APPEND, written out"), FROM_START(12, 4), WAITING(APPEND(1, 4)), RAM_G_IS(0xFF, 0x78, 0x56, 0x34, 0x12),
      IS_TAKEN(12, 8), CHANGES(LIST_GETS(4, 0x12345678)) },
    { CASE("what is appended is not examined"), FROM_START(12, 0), WAITING(APPEND(0, 8)),
      RAM_G_IS(0x01, 0xFF, 0xFF, 0xFF, 0xFF, 0xFF, 0xFF, 0xFF), IS_TAKEN(12, 8),
      CHANGES(LIST_GETS(0, SWAP(), 0xFFFFFFFF)) },
    { CASE("at an offset"), FROM_START(12, 400), WAITING(APPEND(8, 4)), RAM_G_OF(16), IS_TAKEN(12, 404),
      CHANGES(LIST_COPIES(400, 8, 4)) },
    { CASE("from an odd address"), FROM_START(12, 0), WAITING(APPEND(3, 12)), RAM_G_OF(16), IS_TAKEN(12, 12),
      CHANGES(LIST_COPIES(0, 3, 12)) },
    { CASE("of all"), FROM_START(12, 0), WAITING(APPEND(0, 16)), RAM_G_OF(16), IS_TAKEN(12, 16),
      CHANGES(LIST_COPIES(0, 0, 16)) },
    { CASE("of the last word"), FROM_START(12, 0), WAITING(APPEND(12, 4)), RAM_G_OF(16), IS_TAKEN(12, 4),
      CHANGES(LIST_COPIES(0, 12, 4)) },
    { CASE("of a word that ends past the end"), FROM_START(12, 0), WAITING(APPEND(13, 4)), RAM_G_OF(16),
      IS_AT_FAULT(35, 12, 0) },
    { CASE("of one word too many"), FROM_START(12, 0), WAITING(APPEND(0, 20)), RAM_G_OF(16), IS_AT_FAULT(35, 12, 0) },
    { CASE("of no byte"), FROM_START(12, 400), WAITING(APPEND(0, 0)), RAM_G_OF(16), IS_TAKEN(12, 400) },
    { CASE("of no byte at the end"), FROM_START(12, 400), WAITING(APPEND(16, 0)), RAM_G_OF(16), IS_TAKEN(12, 400) },
    { CASE("of no byte past the end"), FROM_START(12, 400), WAITING(APPEND(17, 0)), RAM_G_OF(16),
      IS_AT_FAULT(35, 12, 400) },
    { CASE("of 1 byte"), FROM_START(12, 0), WAITING(APPEND(0, 1)), RAM_G_OF(16), IS_AT_FAULT(35, 12, 0) },
    { CASE("of 2 bytes"), FROM_START(12, 0), WAITING(APPEND(0, 2)), RAM_G_OF(16), IS_AT_FAULT(35, 12, 0) },
    { CASE("of 3 bytes"), FROM_START(12, 0), WAITING(APPEND(0, 3)), RAM_G_OF(16), IS_AT_FAULT(35, 12, 0) },
    { CASE("of 6 bytes"), FROM_START(12, 0), WAITING(APPEND(0, 6)), RAM_G_OF(16), IS_AT_FAULT(35, 12, 0) },
    { CASE("of 15 bytes up to the end"), FROM_START(12, 0), WAITING(APPEND(1, 15)), RAM_G_OF(16),
      IS_AT_FAULT(35, 12, 0) },
    { CASE("a sum of 2^32"), FROM_START(12, 0), WAITING(APPEND(0xFFFFFFFC, 4)), RAM_G_OF(16), IS_AT_FAULT(35, 12, 0) },
    { CASE("a sum of 2^32 + 4"), FROM_START(12, 0), WAITING(APPEND(0xFFFFFFFC, 8)), RAM_G_OF(16),
      IS_AT_FAULT(35, 12, 0) },
    { CASE("a sum of 2^32, by the count"), FROM_START(12, 0), WAITING(APPEND(4, 0xFFFFFFFC)), RAM_G_OF(16),
      IS_AT_FAULT(35, 12, 0) },
    { CASE("a sum of 2^32 of offset and count"), FROM_START(12, 8), WAITING(APPEND(0, 0xFFFFFFF8)), RAM_G_OF(16),
      IS_AT_FAULT(35, 12, 8) },
    { CASE("of no byte without RAM_G"), FROM_START(12, 0), WAITING(APPEND(0, 0)), IS_TAKEN(12, 0) },
    { CASE("of a word without RAM_G"), FROM_START(12, 0), WAITING(APPEND(0, 4)), IS_AT_FAULT(35, 12, 0) },
    { CASE("of no byte past the end without RAM_G"), FROM_START(12, 0), WAITING(APPEND(1, 0)), IS_AT_FAULT(35, 12, 0) },

    { CASE("it just fits"), FROM_START(12, FULL - 8), WAITING(APPEND(4, 8)), RAM_G_OF(16), IS_TAKEN(12, FULL),
      CHANGES(LIST_COPIES(FULL - 8, 4, 8)) },
    { CASE("one word too many"), FROM_START(12, FULL - 8), WAITING(APPEND(4, 12)), RAM_G_OF(16),
      IS_AT_FAULT(34, 12, FULL - 8) },
    { CASE("the last word"), FROM_START(12, FULL - 4), WAITING(APPEND(4, 4)), RAM_G_OF(16), IS_TAKEN(12, FULL),
      CHANGES(LIST_COPIES(FULL - 4, 4, 4)) },
    { CASE("two words at the last one's place"), FROM_START(12, FULL - 4), WAITING(APPEND(4, 8)), RAM_G_OF(16),
      IS_AT_FAULT(34, 12, FULL - 4) },
    { CASE("a word at 8192"), FROM_START(12, FULL), WAITING(APPEND(4, 4)), RAM_G_OF(16), IS_AT_FAULT(34, 12, FULL) },
    { CASE("no byte at 8192"), FROM_START(12, FULL), WAITING(APPEND(4, 0)), RAM_G_OF(16), IS_TAKEN(12, FULL) },
    { CASE("no byte of no RAM_G at 8192"), FROM_START(12, FULL), WAITING(APPEND(0, 0)), IS_TAKEN(12, FULL) },
    { CASE("a whole list"), FROM_START(12, 0), WAITING(APPEND(3, FULL)), RAM_G_OF(FULL + 8), IS_TAKEN(12, FULL),
      CHANGES(LIST_COPIES(0, 3, FULL)) },
    { CASE("a whole list and one word"), FROM_START(12, 0), WAITING(APPEND(3, FULL + 4)), RAM_G_OF(FULL + 8),
      IS_AT_FAULT(34, 12, 0) },
    { CASE("a whole list at offset 4"), FROM_START(12, 4), WAITING(APPEND(3, FULL)), RAM_G_OF(FULL + 8),
      IS_AT_FAULT(34, 12, 4) },
    { CASE("the last word of the largest RAM_G"), FROM_START(12, 0), WAITING(APPEND(JV_MAX_RAM_G_BYTES - 4, 4)),
      RAM_G_OF(JV_MAX_RAM_G_BYTES), IS_TAKEN(12, 4), CHANGES(LIST_COPIES(0, JV_MAX_RAM_G_BYTES - 4, 4)) },
    { CASE("the largest RAM_G"), FROM_START(12, 0), WAITING(APPEND(0, JV_MAX_RAM_G_BYTES)),
      RAM_G_OF(JV_MAX_RAM_G_BYTES), IS_AT_FAULT(34, 12, 0) },
    { CASE("a word past the end of the largest RAM_G"), FROM_START(12, 0), WAITING(APPEND(JV_MAX_RAM_G_BYTES, 4)),
      RAM_G_OF(JV_MAX_RAM_G_BYTES), IS_AT_FAULT(35, 12, 0) },

    { CASE("35 before 34: past RAM_G's end"), FROM_START(12, FULL), WAITING(APPEND(13, 4)), RAM_G_OF(16),
      IS_AT_FAULT(35, 12, FULL) },
    { CASE("35 before 34: no multiple of 4"), FROM_START(12, FULL), WAITING(APPEND(0, 3)), RAM_G_OF(16),
      IS_AT_FAULT(35, 12, FULL) },
    { CASE("35 before 34: longer than both"), FROM_START(12, 0), WAITING(APPEND(0, FULL + 4)), RAM_G_OF(16),
      IS_AT_FAULT(35, 12, 0) },
    { CASE("35 before 34: one byte less than a word too many"), FROM_START(12, FULL - 4), WAITING(APPEND(0, 7)),
      RAM_G_OF(16), IS_AT_FAULT(35, 12, FULL - 4) },
};

/* ---- Unknown words ---- */

static const hand_ring unknown_words[] = {
    { CASE("FF000000"), FROM_START(4, 0), WAITING(0xFF000000), IS_AT_FAULT(32, 4, 0) },
    { CASE("FFFFFFFF"), FROM_START(4, 0), WAITING(0xFFFFFFFF), IS_AT_FAULT(32, 4, 0) },
    { CASE("DLSTART but for a bit of the second byte"), FROM_START(4, 8), WAITING(0xFFFFFE00), IS_AT_FAULT(32, 4, 8) },
    { CASE("DLSTART but for a bit of the third byte"), FROM_START(4, 8), WAITING(0xFFFEFF00), IS_AT_FAULT(32, 4, 8) },
    { CASE("SWAP by its low byte only"), FROM_START(4, 0), WAITING(0xFF000001), IS_AT_FAULT(32, 4, 0) },
    { CASE("SWAP but for the third byte"), FROM_START(4, 0), WAITING(0xFF7FFF01), IS_AT_FAULT(32, 4, 0) },
    { CASE("COLDSTART by its low byte only"), FROM_START(4, 0), WAITING(0xFF000032), IS_AT_FAULT(32, 4, 0) },
    { CASE("MEMSET by its low byte only"), AT(0, 16, 0, 0), WAITING(0xFF00001B, 0, 0, 4), RAM_G_OF(16),
      GIVES(32, 0, 0, 0xFFF, 0, 16, 0, 1) },
    { CASE("MEMZERO by its low half only"), AT(0, 12, 0, 0), WAITING(0xFF00FF1C, 0, 4), RAM_G_OF(16),
      GIVES(32, 0, 0, 0xFFF, 0, 12, 0, 1) },
    { CASE("at another place"), AT(100, 104, 0, 0), WAITING(0xFFFFFF02), GIVES(32, 100, 0, 0xFFF, 100, 104, 0, 1) },
    { CASE("behind others"), AT(100, 124, 0, 0), WAITING(0x12345678, COLDSTART(), MEMZERO(0, 4), 0xFFFFFF02),
      RAM_G_OF(16), GIVES(32, 120, 3, 0xFFF, 120, 124, 4, 1), CHANGES(LIST_GETS(0, 0x12345678), RAM_G_FILLS(0, 0, 4)) },
    { CASE("before others"), AT(0, 12, 0, 0), WAITING(0xFFFFFF02, 0x12345678, SWAP()),
      GIVES(32, 0, 0, 0xFFF, 0, 12, 0, 1) },
    { CASE("with RAM_DL full"), FROM_START(4, FULL), WAITING(0xFFFFFF02), IS_AT_FAULT(32, 4, FULL) },
};

/* Each low byte under FFFFFF that is no command. */
static void check_low_bytes(void)
{
    begin_part("rings: each unknown low byte");
    for (uint32_t low = 0; low <= 0xFF; low++) {
        bool is_known = low <= 1 || low == 0x32 || (0x1B <= low && low <= 0x1E);
        uint32_t words[] = { 0xFFFFFF00 | low, 0, 0, 0 };
        char name[32];
        snprintf(name, sizeof name, "FFFFFF%02" PRIX32, low);
        if (!is_known)
            check_ring(__FILE__, &(const hand_ring){ CASE(name), FROM_START(16, 0), .words = words, .count = 4,
                                                     IS_AT_FAULT(32, 16, 0) });
    }
}

/* ---- Parameters that are not there ---- */

#define IS_WAITING(bytes, offset) GIVES(30, 0, 0, 0, 0, bytes, offset, 0)

static const hand_ring lacking_parameters[] = {
    { CASE("MEMSET alone"), FROM_START(4, 8), WAITING(FIRST_WORD(MEMSET_BYTE)), RAM_G_OF(16), IS_WAITING(4, 8) },
    { CASE("MEMSET and an address"), FROM_START(8, 8), WAITING(FIRST_WORD(MEMSET_BYTE), 0), RAM_G_OF(16),
      IS_WAITING(8, 8) },
    { CASE("MEMSET, an address and a value"), FROM_START(12, 8), WAITING(FIRST_WORD(MEMSET_BYTE), 0, 5), RAM_G_OF(16),
      IS_WAITING(12, 8) },
    { CASE("MEMZERO alone"), FROM_START(4, 8), WAITING(FIRST_WORD(MEMZERO_BYTE)), RAM_G_OF(16), IS_WAITING(4, 8) },
    { CASE("MEMZERO and an address"), FROM_START(8, 8), WAITING(FIRST_WORD(MEMZERO_BYTE), 0), RAM_G_OF(16),
      IS_WAITING(8, 8) },
    { CASE("MEMCPY alone"), FROM_START(4, 8), WAITING(FIRST_WORD(MEMCPY_BYTE)), RAM_G_OF(16), IS_WAITING(4, 8) },
    { CASE("MEMCPY and a target"), FROM_START(8, 8), WAITING(FIRST_WORD(MEMCPY_BYTE), 0), RAM_G_OF(16),
      IS_WAITING(8, 8) },
    { CASE("MEMCPY, a target and a source"), FROM_START(12, 8), WAITING(FIRST_WORD(MEMCPY_BYTE), 0, 5), RAM_G_OF(16),
      IS_WAITING(12, 8) },
    { CASE("APPEND alone"), FROM_START(4, 8), WAITING(FIRST_WORD(APPEND_BYTE)), RAM_G_OF(16), IS_WAITING(4, 8) },
    { CASE("APPEND and an address"), FROM_START(8, 8), WAITING(FIRST_WORD(APPEND_BYTE), 0), RAM_G_OF(16),
      IS_WAITING(8, 8) },
    { CASE("at another place"), AT(100, 108, 8, 0), WAITING(FIRST_WORD(APPEND_BYTE), 0), RAM_G_OF(16),
      GIVES(30, 0, 0, 100, 100, 108, 8, 0) },
    { CASE("behind others"), AT(0, 20, 8, 0), WAITING(0x12345678, COLDSTART(), FIRST_WORD(MEMSET_BYTE), 0, 5),
      RAM_G_OF(16), GIVES(30, 0, 2, 8, 8, 20, 12, 0), CHANGES(LIST_GETS(8, 0x12345678)) },
    { CASE("parameters that are commands do not stand for the missing ones"), FROM_START(12, 8),
      WAITING(FIRST_WORD(MEMSET_BYTE), SWAP(), SWAP()), RAM_G_OF(16), IS_WAITING(12, 8) },

    /* The words lie in the ring, but past the write mark. */
    { CASE("MEMSET's count past the write mark"), FROM_START(12, 8), WAITING(MEMSET(0, 5, 4)), RAM_G_OF(16),
      IS_WAITING(12, 8) },
    { CASE("MEMZERO's count past the write mark"), FROM_START(8, 8), WAITING(MEMZERO(0, 4)), RAM_G_OF(16),
      IS_WAITING(8, 8) },
    { CASE("MEMCPY's count past the write mark"), FROM_START(12, 8), WAITING(MEMCPY(0, 5, 4)), RAM_G_OF(16),
      IS_WAITING(12, 8) },
    { CASE("APPEND's count past the write mark"), FROM_START(8, 8), WAITING(APPEND(0, 4)), RAM_G_OF(16),
      IS_WAITING(8, 8) },
    { CASE("a word past the write mark"), FROM_START(4, 8), WAITING(0x12345678, 0x23456789), IS_TAKEN(4, 12),
      CHANGES(LIST_GETS(8, 0x12345678)) },

    /* 30 before 35 and 34: what is there would be at fault, and what is missing lies past the write mark. */
    { CASE("30 before 35: MEMSET"), FROM_START(12, 8), WAITING(MEMSET(0xFFFFFFFF, 5, 4)), RAM_G_OF(16),
      IS_WAITING(12, 8) },
    { CASE("30 before 35: MEMZERO"), FROM_START(8, 8), WAITING(MEMZERO(17, 4)), RAM_G_OF(16), IS_WAITING(8, 8) },
    { CASE("30 before 35: MEMCPY"), FROM_START(12, 8), WAITING(MEMCPY(17, 17, 4)), RAM_G_OF(16), IS_WAITING(12, 8) },
    { CASE("30 before 35: APPEND"), FROM_START(8, 8), WAITING(APPEND(17, 3)), RAM_G_OF(16), IS_WAITING(8, 8) },
    { CASE("30 before 34: APPEND"), FROM_START(8, FULL), WAITING(APPEND(0, 4)), RAM_G_OF(16), IS_WAITING(8, FULL) },
    { CASE("30 before 35 and 34: APPEND"), FROM_START(8, FULL), WAITING(APPEND(17, 4)), RAM_G_OF(16),
      IS_WAITING(8, FULL) },
};

void check_ring_commands_by_hand(void)
{
    CHECK_RINGS("rings: words for RAM_DL", plain_words);
    check_top_bytes();
    CHECK_RINGS("rings: commands without parameters", lone_commands);
    CHECK_RINGS("rings: MEMSET", memset_commands);
    CHECK_RINGS("rings: MEMZERO", memzero_commands);
    CHECK_RINGS("rings: MEMCPY", memcpy_commands);
    check_overlaps();
    CHECK_RINGS("rings: APPEND", append_commands);
    CHECK_RINGS("rings: unknown words", unknown_words);
    check_low_bytes();
    CHECK_RINGS("rings: parameters that are not there", lacking_parameters);
}
