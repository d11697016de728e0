/* Runs of several commands, around the ring's end too, full and empty rings, the host's words, and calls one after the
   other. */
#include "rings_by_hand.h"

#include <inttypes.h>
#include <stdio.h>
#include <string.h>

#include "../shared/check.h"
#include "hand_rings.h"

/* ---- Empty rings ---- */

static const hand_ring empty_rings[] = {
    { CASE("nothing waits"), AT(0, 0, 0, 0), GIVES(0, 0, 0, 0, 0, 0, 0, 0) },
    { CASE("nothing waits at 4"), AT(4, 4, 8, 0), GIVES(0, 0, 0, 4, 4, 4, 8, 0) },
    { CASE("nothing waits at 2048"), AT(2048, 2048, 0, 0), RAM_G_OF(16), GIVES(0, 0, 0, 2048, 2048, 2048, 0, 0) },
    { CASE("nothing waits at 4092"), AT(LAST, LAST, FULL, 0), GIVES(0, 0, 0, LAST, LAST, LAST, FULL, 0) },
    { CASE("words lie there, and none waits"), AT(8, 8, 0, 0), WAITING(0x12345678, SWAP(), 0xFFFFFFFF), RAM_G_OF(16),
      GIVES(0, 0, 0, 8, 8, 8, 0, 0) },
};

/* ---- Around the ring's end ---- */

static const hand_ring around_the_end[] = {
    { CASE("the ring's last word"), AT(LAST, 0, 0, 0), WAITING(0x12345678), GIVES(0, 0, 1, 0, 0, 0, 4, 0),
      CHANGES(LIST_GETS(0, 0x12345678)) },
    { CASE("its last and its first word"), AT(LAST, 4, 0, 0), WAITING(0x12345678, 0x23456789),
      GIVES(0, 0, 2, 4, 4, 4, 8, 0), CHANGES(LIST_GETS(0, 0x12345678, 0x23456789)) },
    { CASE("up to its last word"), AT(LAST - 8, LAST, 0, 0), WAITING(0x12345678, 0x23456789),
      GIVES(0, 0, 2, LAST, LAST, LAST, 8, 0), CHANGES(LIST_GETS(0, 0x12345678, 0x23456789)) },
    { CASE("DLSTART at the end"), AT(LAST, 0, 400, 0), WAITING(DLSTART()), GIVES(0, 0, 1, 0, 0, 0, 0, 0) },
    { CASE("COLDSTART at the end"), AT(LAST, 0, 400, 0), WAITING(COLDSTART()), GIVES(0, 0, 1, 0, 0, 0, 400, 0) },
    { CASE("SWAP at the end"), AT(LAST, 4, 400, 0), WAITING(SWAP(), 0x12345678), GIVES(31, 0, 1, 0, 0, 4, 400, 0),
      CHANGES(SHOWN_IS_LIST) },

    { CASE("MEMSET up to the end"), AT(LAST - 12, 0, 0, 0), WAITING(MEMSET(2, 0xAB, 5)), RAM_G_OF(16),
      GIVES(0, 0, 1, 0, 0, 0, 0, 0), CHANGES(RAM_G_FILLS(2, 0xAB, 5)) },
    { CASE("MEMSET's count past it"), AT(LAST - 8, 4, 0, 0), WAITING(MEMSET(2, 0xAB, 5)), RAM_G_OF(16),
      GIVES(0, 0, 1, 4, 4, 4, 0, 0), CHANGES(RAM_G_FILLS(2, 0xAB, 5)) },
    { CASE("MEMSET's value and count past it"), AT(LAST - 4, 8, 0, 0), WAITING(MEMSET(2, 0xAB, 5)), RAM_G_OF(16),
      GIVES(0, 0, 1, 8, 8, 8, 0, 0), CHANGES(RAM_G_FILLS(2, 0xAB, 5)) },
    { CASE("MEMSET's parameters past it"), AT(LAST, 12, 0, 0), WAITING(MEMSET(2, 0xAB, 5)), RAM_G_OF(16),
      GIVES(0, 0, 1, 12, 12, 12, 0, 0), CHANGES(RAM_G_FILLS(2, 0xAB, 5)) },
    { CASE("MEMZERO up to the end"), AT(LAST - 8, 0, 0, 0), WAITING(MEMZERO(2, 5)), RAM_G_OF(16),
      GIVES(0, 0, 1, 0, 0, 0, 0, 0), CHANGES(RAM_G_FILLS(2, 0, 5)) },
    { CASE("MEMZERO's count past it"), AT(LAST - 4, 4, 0, 0), WAITING(MEMZERO(2, 5)), RAM_G_OF(16),
      GIVES(0, 0, 1, 4, 4, 4, 0, 0), CHANGES(RAM_G_FILLS(2, 0, 5)) },
    { CASE("MEMZERO's parameters past it"), AT(LAST, 8, 0, 0), WAITING(MEMZERO(2, 5)), RAM_G_OF(16),
      GIVES(0, 0, 1, 8, 8, 8, 0, 0), CHANGES(RAM_G_FILLS(2, 0, 5)) },
    { CASE("MEMCPY up to the end"), AT(LAST - 12, 0, 0, 0), WAITING(MEMCPY(2, 9, 5)), RAM_G_OF(16),
      GIVES(0, 0, 1, 0, 0, 0, 0, 0), CHANGES(RAM_G_COPIES(2, 9, 5)) },
    { CASE("MEMCPY's count past it"), AT(LAST - 8, 4, 0, 0), WAITING(MEMCPY(2, 9, 5)), RAM_G_OF(16),
      GIVES(0, 0, 1, 4, 4, 4, 0, 0), CHANGES(RAM_G_COPIES(2, 9, 5)) },
    { CASE("MEMCPY's source and count past it"), AT(LAST - 4, 8, 0, 0), WAITING(MEMCPY(2, 9, 5)), RAM_G_OF(16),
      GIVES(0, 0, 1, 8, 8, 8, 0, 0), CHANGES(RAM_G_COPIES(2, 9, 5)) },
    { CASE("MEMCPY's parameters past it"), AT(LAST, 12, 0, 0), WAITING(MEMCPY(2, 9, 5)), RAM_G_OF(16),
      GIVES(0, 0, 1, 12, 12, 12, 0, 0), CHANGES(RAM_G_COPIES(2, 9, 5)) },
    { CASE("APPEND up to the end"), AT(LAST - 8, 0, 0, 0), WAITING(APPEND(5, 8)), RAM_G_OF(16),
      GIVES(0, 0, 1, 0, 0, 0, 8, 0), CHANGES(LIST_COPIES(0, 5, 8)) },
    { CASE("APPEND's count past it"), AT(LAST - 4, 4, 0, 0), WAITING(APPEND(5, 8)), RAM_G_OF(16),
      GIVES(0, 0, 1, 4, 4, 4, 8, 0), CHANGES(LIST_COPIES(0, 5, 8)) },
    { CASE("APPEND's parameters past it"), AT(LAST, 8, 0, 0), WAITING(APPEND(5, 8)), RAM_G_OF(16),
      GIVES(0, 0, 1, 8, 8, 8, 8, 0), CHANGES(LIST_COPIES(0, 5, 8)) },
    { CASE("a command behind parameters past it"), AT(LAST - 4, 16, 0, 0),
      WAITING(MEMSET(2, 0xAB, 5), 0x12345678, SWAP()), RAM_G_OF(16), GIVES(31, 0, 3, 16, 16, 16, 4, 0),
      CHANGES(RAM_G_FILLS(2, 0xAB, 5), LIST_GETS(0, 0x12345678), SHOWN_IS_LIST) },

    { CASE("MEMSET lacks all parameters at the end"), AT(LAST, 0, 0, 0), WAITING(MEMSET(2, 0xAB, 5)), RAM_G_OF(16),
      GIVES(30, 0, 0, LAST, LAST, 0, 0, 0) },
    { CASE("MEMSET lacks its count past the end"), AT(LAST, 8, 0, 0), WAITING(MEMSET(2, 0xAB, 5)), RAM_G_OF(16),
      GIVES(30, 0, 0, LAST, LAST, 8, 0, 0) },
    { CASE("MEMSET lacks its count at the end"), AT(LAST - 8, 0, 0, 0), WAITING(MEMSET(2, 0xAB, 5)), RAM_G_OF(16),
      GIVES(30, 0, 0, LAST - 8, LAST - 8, 0, 0, 0) },
    { CASE("MEMZERO lacks its count past the end"), AT(LAST, 4, 0, 0), WAITING(MEMZERO(2, 5)), RAM_G_OF(16),
      GIVES(30, 0, 0, LAST, LAST, 4, 0, 0) },
    { CASE("MEMCPY lacks its count past the end"), AT(LAST - 4, 4, 0, 0), WAITING(MEMCPY(2, 9, 5)), RAM_G_OF(16),
      GIVES(30, 0, 0, LAST - 4, LAST - 4, 4, 0, 0) },
    { CASE("APPEND lacks its count at the end"), AT(LAST - 4, 0, 0, 0), WAITING(APPEND(5, 8)), RAM_G_OF(16),
      GIVES(30, 0, 0, LAST - 4, LAST - 4, 0, 0, 0) },

    { CASE("an unknown word at the end"), AT(LAST, 0, 0, 0), WAITING(0xFFFFFF02),
      GIVES(32, LAST, 0, 0xFFF, LAST, 0, 0, 1) },
    { CASE("an unknown word at the start, behind the end"), AT(LAST, 4, 0, 0), WAITING(0x12345678, 0xFFFFFF02),
      GIVES(32, 0, 1, 0xFFF, 0, 4, 4, 1), CHANGES(LIST_GETS(0, 0x12345678)) },
    { CASE("a range at fault, by parameters past the end"), AT(LAST - 4, 8, 0, 0), WAITING(MEMSET(2, 0xAB, 15)),
      RAM_G_OF(16), GIVES(35, LAST - 4, 0, 0xFFF, LAST - 4, 8, 0, 1) },
    { CASE("RAM_DL full, by parameters past the end"), AT(LAST, 8, FULL - 4, 0), WAITING(APPEND(0, 8)), RAM_G_OF(16),
      GIVES(34, LAST, 0, 0xFFF, LAST, 8, FULL - 4, 1) },
};

/* ---- Several commands ---- */

static const hand_ring several_commands[] = {
    { CASE("one of each kind"), AT(0, 68, 400, 0),
      WAITING(DLSTART(), 0x12345678, COLDSTART(), MEMSET(0, 0xAB, 4), MEMZERO(4, 4), MEMCPY(6, 2, 4), APPEND(4, 8)),
      RAM_G_IS(1, 2, 3, 4, 5, 6, 7, 8, 9, 10, 11, 12), GIVES(0, 0, 7, 68, 68, 68, 12, 0),
      RAM_G_BECOMES(0xAB, 0xAB, 0xAB, 0xAB, 0, 0, 0xAB, 0xAB, 0, 0, 11, 12),
      CHANGES(LIST_GETS(0, 0x12345678, 0xABAB0000, 0x0C0B0000)) },
    { CASE("each goes on from what the one before left"), AT(0, 44, 0, 0),
      WAITING(MEMSET(0, 1, 8), MEMSET(2, 2, 4), MEMZERO(3, 2)), RAM_G_IS(9, 9, 9, 9, 9, 9, 9, 9, 9),
      GIVES(0, 0, 3, 44, 44, 44, 0, 0), RAM_G_BECOMES(1, 1, 2, 0, 0, 2, 1, 1, 9) },
    { CASE("APPEND behind words"), AT(0, 24, 0, 0), WAITING(0x11111111, APPEND(0, 4), 0x22222222, DLSTART()),
      RAM_G_IS(0x33, 0x33, 0x33, 0x33), GIVES(0, 0, 4, 24, 24, 24, 0, 0),
      CHANGES(LIST_GETS(0, 0x11111111, 0x33333333, 0x22222222)) },
    { CASE("DLSTART in the middle: the second list is over the first"), AT(0, 20, 0, 0),
      WAITING(0x11111111, 0x22222222, DLSTART(), 0x33333333, SWAP()), GIVES(31, 0, 5, 20, 20, 20, 4, 0),
      CHANGES(LIST_GETS(0, 0x33333333, 0x22222222), SHOWN_IS_LIST) },
    { CASE("SWAP shows RAM_DL as it is then"), AT(0, 20, 0, 0),
      WAITING(0x11111111, SWAP(), DLSTART(), 0x22222222, SWAP()), GIVES(31, 0, 2, 8, 8, 20, 4, 0),
      CHANGES(LIST_GETS(0, 0x11111111), SHOWN_IS_LIST) },
};

/* Those before the fault keep their effect, it has none, and those behind it are not taken. */
static const hand_ring faults_behind_others[] = {
    { CASE("32"), AT(40, 80, 400, 0), WAITING(DLSTART(), 0x12345678, MEMSET(0, 0xAB, 4), MEMZERO(12, 4), 0xFFFFFF02),
      RAM_G_OF(16), GIVES(32, 76, 4, 0xFFF, 76, 80, 4, 1),
      CHANGES(LIST_GETS(0, 0x12345678), RAM_G_FILLS(0, 0xAB, 4), RAM_G_FILLS(12, 0, 4)) },
    { CASE("32, and others behind it"), AT(40, 56, 400, 0), WAITING(0x12345678, 0xFFFFFF02, 0x23456789, SWAP()),
      GIVES(32, 44, 1, 0xFFF, 44, 56, 404, 1), CHANGES(LIST_GETS(400, 0x12345678)) },
    { CASE("35 of MEMSET"), AT(40, 68, 400, 0), WAITING(0x12345678, MEMSET(13, 0xAB, 4), 0x23456789, SWAP()),
      RAM_G_OF(16), GIVES(35, 44, 1, 0xFFF, 44, 68, 404, 1), CHANGES(LIST_GETS(400, 0x12345678)) },
    { CASE("35 of MEMZERO"), AT(40, 72, 400, 0), WAITING(0x12345678, MEMZERO(0, 4), MEMZERO(13, 4), SWAP()),
      RAM_G_OF(16), GIVES(35, 56, 2, 0xFFF, 56, 72, 404, 1),
      CHANGES(LIST_GETS(400, 0x12345678), RAM_G_FILLS(0, 0, 4)) },
    { CASE("35 of MEMCPY"), AT(40, 80, 400, 0), WAITING(0x12345678, MEMCPY(0, 8, 8), MEMCPY(9, 0, 8), SWAP()),
      RAM_G_OF(16), GIVES(35, 60, 2, 0xFFF, 60, 80, 404, 1),
      CHANGES(LIST_GETS(400, 0x12345678), RAM_G_COPIES(0, 8, 8)) },
    { CASE("35 of APPEND"), AT(40, 72, 400, 0), WAITING(0x12345678, APPEND(0, 8), APPEND(0, 7), SWAP()), RAM_G_OF(16),
      GIVES(35, 56, 2, 0xFFF, 56, 72, 412, 1), CHANGES(LIST_GETS(400, 0x12345678), LIST_COPIES(404, 0, 8)) },
    { CASE("34 of a word"), AT(40, 56, FULL - 8, 0), WAITING(0x11111111, 0x22222222, 0x33333333, SWAP()),
      GIVES(34, 48, 2, 0xFFF, 48, 56, FULL, 1), CHANGES(LIST_GETS(FULL - 8, 0x11111111, 0x22222222)) },
    { CASE("34 of APPEND"), AT(40, 64, FULL - 8, 0), WAITING(0x11111111, APPEND(0, 8), 0x33333333, SWAP()),
      RAM_G_OF(16), GIVES(34, 44, 1, 0xFFF, 44, 64, FULL - 4, 1), CHANGES(LIST_GETS(FULL - 8, 0x11111111)) },
    { CASE("34 of a word behind an APPEND that fits"), AT(40, 56, FULL - 8, 0), WAITING(APPEND(0, 8), 0x33333333),
      RAM_G_OF(16), GIVES(34, 52, 1, 0xFFF, 52, 56, FULL, 1), CHANGES(LIST_COPIES(FULL - 8, 0, 8)) },
};

/* ---- Full rings ---- */

static uint32_t many[MOST_WAITING_WORDS + 2];

/* Words of which no two are the same, and none is a command. */
static void fill_with_plain_words(void)
{
    for (uint32_t n = 0; n < LENGTH(many); n++)
        many[n] = 0x01020304 + 0x00030507 * n;
}

static void fill_with(uint32_t word)
{
    for (uint32_t n = 0; n < LENGTH(many); n++)
        many[n] = word;
}

/* 1,023 words from `read` on, RAM_DL's offset being 0. `moved` and `left` are where read and offset are then. */
static void check_full_of(const char *what, uint32_t read, uint32_t number, uint32_t count, uint32_t moved,
                          uint32_t left, const ring_change *change)
{
    char name[64];
    snprintf(name, sizeof name, "1,023 times %s from %" PRIu32 " on", what, read);
    uint32_t write = (read + JV_MAX_WAITING) % JV_RING_BYTES;
    check_ring(__FILE__,
               &(const hand_ring){ CASE(name), AT(read, write, 0, 0), .words = many, .count = MOST_WAITING_WORDS,
                                   GIVES(number, 0, count, moved, moved, write, left, 0), .changes = change,
                                   .change_count = change != NULL ? 1 : 0 });
}

static void check_full_ring_at(uint32_t read)
{
    uint32_t all = (read + JV_MAX_WAITING) % JV_RING_BYTES, one = (read + 4) % JV_RING_BYTES;
    fill_with_plain_words();
    check_full_of("a word", read, 0, MOST_WAITING_WORDS, all, JV_MAX_WAITING,
                  &(ring_change)LIST_GETS_FROM(many, 0, JV_MAX_WAITING));
    fill_with(COLDSTART());
    check_full_of("COLDSTART", read, 0, MOST_WAITING_WORDS, all, 0, NULL);
    fill_with(DLSTART());
    check_full_of("DLSTART", read, 0, MOST_WAITING_WORDS, all, 0, NULL);
    fill_with(SWAP());
    check_full_of("SWAP", read, 31, 1, one, 0, &(ring_change)SHOWN_IS_LIST);
}

static void check_full_rings(void)
{
    begin_part("rings: full");
    check_full_ring_at(0);
    check_full_ring_at(4);
    check_full_ring_at(2048);
    check_full_ring_at(LAST - 4);
    check_full_ring_at(LAST);
}

static void check_full_rings_at_offsets(void)
{
    begin_part("rings: full, and RAM_DL too");
    fill_with_plain_words();
    check_ring(__FILE__,
               &(const hand_ring){ CASE("RAM_DL is full after the last"), AT(0, LAST, FULL - JV_MAX_WAITING, 0),
                                   .words = many, .count = MOST_WAITING_WORDS,
                                   GIVES(0, 0, MOST_WAITING_WORDS, LAST, LAST, LAST, FULL, 0),
                                   CHANGES(LIST_GETS_FROM(many, FULL - JV_MAX_WAITING, JV_MAX_WAITING)) });
    check_ring(__FILE__,
               &(const hand_ring){ CASE("RAM_DL is full before the last"), AT(0, LAST, FULL - JV_MAX_WAITING + 4, 0),
                                   .words = many, .count = MOST_WAITING_WORDS,
                                   GIVES(34, LAST - 4, MOST_WAITING_WORDS - 1, 0xFFF, LAST - 4, LAST, FULL, 1),
                                   CHANGES(LIST_GETS_FROM(many, FULL - JV_MAX_WAITING + 4, JV_MAX_WAITING - 4)) });
    check_ring(__FILE__,
               &(const hand_ring){ CASE("RAM_DL is full before the last, past the ring's end"),
                                   AT(8, 4, FULL - JV_MAX_WAITING + 4, 0), .words = many, .count = MOST_WAITING_WORDS,
                                   GIVES(34, 0, MOST_WAITING_WORDS - 1, 0xFFF, 0, 4, FULL, 1),
                                   CHANGES(LIST_GETS_FROM(many, FULL - JV_MAX_WAITING + 4, JV_MAX_WAITING - 4)) });
}

/* 255 times MEMSET, each of one byte, and three words: 258 commands. Each fills the byte of its own number. */
static void check_full_ring_of_commands(void)
{
    uint8_t left[255];
    begin_part("rings: full of commands with parameters");
    fill_with_plain_words();
    for (uint32_t n = 0; n < 255; n++) {
        const uint32_t words[] = { MEMSET(n, 7 * n, 1) };
        memcpy(&many[4 * n], words, sizeof words);
        left[n] = (uint8_t)(7 * n);
    }
    hand_ring full = { CASE("255 times MEMSET and three words"),
                       AT(2000, 1996, 0, 0),
                       .words = many,
                       .count = MOST_WAITING_WORDS,
                       RAM_G_OF(255),
                       .ram_g_left = left,
                       GIVES(0, 0, 258, 1996, 1996, 1996, 12, 0),
                       CHANGES(LIST_GETS_FROM(&many[1020], 0, 12)) };
    check_ring(__FILE__, &full);

    full.name = "255 times MEMSET, two words and an unknown one";
    many[MOST_WAITING_WORDS - 1] = 0xFFFFFF02;
    full.wanted = (jv_ring){ 32, 1992, 257, 0xFFF, 1992, 1996, 8, 1 };
    full.changes = (const ring_change[]){ LIST_GETS_FROM(&many[1020], 0, 8) };
    check_ring(__FILE__, &full);

    full.name = "255 times MEMSET, two words and one that lacks parameters";
    many[MOST_WAITING_WORDS - 1] = FIRST_WORD(APPEND_BYTE);
    full.wanted = (jv_ring){ 30, 0, 257, 1992, 1992, 1996, 8, 0 };
    check_ring(__FILE__, &full);
}

/* ---- The host's words ---- */

static const hand_ring host_words[] = {
    { CASE("a word"), AT(0, 0, 0, 0), HOST(0x12345678), GIVES(0, 0, 0, 0, 0, 4, 0, 0),
      CHANGES(RING_GETS(0, 0x12345678)) },
    { CASE("commands, known or not, and parts of them"), AT(0, 0, 0, 0),
      HOST(SWAP(), 0xFFFFFFFF, FIRST_WORD(MEMSET_BYTE)), GIVES(0, 0, 0, 0, 0, 12, 0, 0),
      CHANGES(RING_GETS(0, SWAP(), 0xFFFFFFFF, FIRST_WORD(MEMSET_BYTE))) },
    { CASE("behind those that wait"), AT(100, 200, FULL, 0), HOST(0x12345678, 0x23456789),
      GIVES(0, 0, 0, 100, 100, 208, FULL, 0), CHANGES(RING_GETS(200, 0x12345678, 0x23456789)) },
    { CASE("where nothing waits, at 400"), AT(400, 400, 8, 0), HOST(0x12345678), GIVES(0, 0, 0, 400, 400, 404, 8, 0),
      CHANGES(RING_GETS(400, 0x12345678)) },
    { CASE("up to the ring's end"), AT(100, LAST - 4, 0, 0), HOST(0x12345678, 0x23456789),
      GIVES(0, 0, 0, 100, 100, 0, 0, 0), CHANGES(RING_GETS(LAST - 4, 0x12345678, 0x23456789)) },
    { CASE("past the ring's end"), AT(100, LAST - 4, 0, 0), HOST(0x12345678, 0x23456789, 0x3456789A),
      GIVES(0, 0, 0, 100, 100, 4, 0, 0),
      CHANGES(RING_GETS(LAST - 4, 0x12345678, 0x23456789), RING_GETS(0, 0x3456789A)) },
    { CASE("from the ring's last word on"), AT(100, LAST, 0, 0), HOST(0x12345678, 0x23456789, 0x3456789A),
      GIVES(0, 0, 0, 100, 100, 8, 0, 0), CHANGES(RING_GETS(LAST, 0x12345678), RING_GETS(0, 0x23456789, 0x3456789A)) },
    { CASE("in the room before the read mark"), AT(400, 100, 0, 0), HOST(0x12345678),
      GIVES(0, 0, 0, 400, 400, 104, 0, 0), CHANGES(RING_GETS(100, 0x12345678)) },

    { CASE("no words"), AT(100, 200, 8, 0), .call = WRITE_RING, GIVES(0, 0, 0, 100, 100, 200, 8, 0) },
    { CASE("no words at the end"), AT(100, LAST, 8, 0), .call = WRITE_RING, GIVES(0, 0, 0, 100, 100, LAST, 8, 0) },
    { CASE("no words into a full ring"), AT(100, 96, 8, 0), .call = WRITE_RING, GIVES(0, 0, 0, 100, 100, 96, 8, 0) },

    { CASE("room for one word"), AT(8, 0, 0, 0), HOST(0x12345678), GIVES(0, 0, 0, 8, 8, 4, 0, 0),
      CHANGES(RING_GETS(0, 0x12345678)) },
    { CASE("one word more than the room for one"), AT(8, 0, 0, 0), HOST(0x12345678, 0x23456789),
      GIVES(38, 0, 0, 8, 8, 0, 0, 0) },
    { CASE("room for one word, at the end"), AT(0, LAST - 4, 0, 0), HOST(0x12345678), GIVES(0, 0, 0, 0, 0, LAST, 0, 0),
      CHANGES(RING_GETS(LAST - 4, 0x12345678)) },
    { CASE("one word more than the room for one, at the end"), AT(0, LAST - 4, 0, 0), HOST(0x12345678, 0x23456789),
      GIVES(38, 0, 0, 0, 0, LAST - 4, 0, 0) },
    { CASE("room for three words, past the end"), AT(8, LAST - 4, 0, 0), HOST(0x12345678, 0x23456789, 0x3456789A),
      GIVES(0, 0, 0, 8, 8, 4, 0, 0), CHANGES(RING_GETS(LAST - 4, 0x12345678, 0x23456789), RING_GETS(0, 0x3456789A)) },
    { CASE("one word more than the room for three, past the end"), AT(8, LAST - 4, 0, 0),
      HOST(0x12345678, 0x23456789, 0x3456789A, 0x456789AB), GIVES(38, 0, 0, 8, 8, LAST - 4, 0, 0) },
    { CASE("a word into a full ring"), AT(0, LAST, 0, 0), HOST(0x12345678), GIVES(38, 0, 0, 0, 0, LAST, 0, 0) },
    { CASE("a word into a full ring, at another place"), AT(400, 396, FULL, 0), HOST(0x12345678),
      GIVES(38, 0, 0, 400, 400, 396, FULL, 0) },
};

/* All the room there is, from `place` on, and more. */
static void check_most_words_at(uint32_t place)
{
    uint32_t full = (place + JV_MAX_WAITING) % JV_RING_BYTES, up_to_end = JV_RING_BYTES - place;
    uint32_t first = up_to_end < JV_MAX_WAITING ? up_to_end : JV_MAX_WAITING;
    char name[48];
    fill_with_plain_words();
    snprintf(name, sizeof name, "1,023 words at %" PRIu32, place);
    check_ring(__FILE__, &(const hand_ring){ CASE(name), AT(place, place, 0, 0), .call = WRITE_RING, .words = many,
                                             .count = MOST_WAITING_WORDS, GIVES(0, 0, 0, place, place, full, 0, 0),
                                             CHANGES(RING_GETS_FROM(many, place, first),
                                                     RING_GETS_FROM(&many[first / 4], 0, JV_MAX_WAITING - first)) });
    snprintf(name, sizeof name, "1,024 words at %" PRIu32, place);
    check_ring(__FILE__,
               &(const hand_ring){ CASE(name), AT(place, place, 0, 0), .call = WRITE_RING, .words = many,
                                   .count = MOST_WAITING_WORDS + 1, GIVES(38, 0, 0, place, place, place, 0, 0) });
    snprintf(name, sizeof name, "1,025 words at %" PRIu32, place);
    check_ring(__FILE__,
               &(const hand_ring){ CASE(name), AT(place, place, 0, 0), .call = WRITE_RING, .words = many,
                                   .count = MOST_WAITING_WORDS + 2, GIVES(38, 0, 0, place, place, place, 0, 0) });
}

static void check_most_words(void)
{
    begin_part("rings: as many of the host's words as there is room for");
    check_most_words_at(0);
    check_most_words_at(4);
    check_most_words_at(8);
    check_most_words_at(2048);
    check_most_words_at(LAST - 4);
    check_most_words_at(LAST);
}

/* ---- Calls in turn ---- */

#define RESET .call = RESET_RING

static const hand_ring swap_and_on[] = {
    { CASE("the host writes two lists, each with a swap"), AT(0, 0, 0, 0),
      HOST(DLSTART(), 0x11111111, 0x22222222, SWAP(), DLSTART(), 0x33333333, SWAP(), COLDSTART()),
      GIVES(0, 0, 0, 0, 0, 32, 0, 0),
      CHANGES(RING_GETS(0, DLSTART(), 0x11111111, 0x22222222, SWAP(), DLSTART(), 0x33333333, SWAP(), COLDSTART())) },
    { CASE("the first is shown"), AT(0, 32, 0, 0), GIVES(31, 0, 4, 16, 16, 32, 8, 0),
      CHANGES(LIST_GETS(0, 0x11111111, 0x22222222), SHOWN_IS_LIST) },
    { CASE("then the second"), AT(16, 32, 8, 0), GIVES(31, 0, 3, 28, 28, 32, 4, 0),
      CHANGES(LIST_GETS(0, 0x33333333), SHOWN_IS_LIST) },
    { CASE("what is behind it is taken"), AT(28, 32, 4, 0), GIVES(0, 0, 1, 32, 32, 32, 4, 0) },
    { CASE("nothing waits any more"), AT(32, 32, 4, 0), GIVES(0, 0, 0, 32, 32, 32, 4, 0) },
};

static const hand_ring fault_and_reset[] = {
    { CASE("the host writes words and one that is unknown"), AT(LAST - 8, LAST - 8, 0, 0), RAM_G_OF(16),
      HOST(0x11111111, MEMZERO(0, 4), 0xFFFFFF02, 0x22222222, SWAP()), GIVES(0, 0, 0, LAST - 8, LAST - 8, 16, 0, 0),
      CHANGES(RING_GETS(LAST - 8, 0x11111111, FIRST_WORD(MEMZERO_BYTE), 0),
              RING_GETS(0, 4, 0xFFFFFF02, 0x22222222, SWAP())) },
    { CASE("a fault"), AT(LAST - 8, 16, 0, 0), GIVES(32, 4, 2, 0xFFF, 4, 16, 4, 1),
      CHANGES(LIST_GETS(0, 0x11111111), RAM_G_FILLS(0, 0, 4)) },
    { CASE("a run under it"), AT(4, 16, 4, 1), GIVES(36, 0, 0, 0xFFF, 4, 16, 4, 1) },
    { CASE("a write under it"), AT(4, 16, 4, 1), HOST(0x33333333), GIVES(36, 0, 0, 0xFFF, 4, 16, 4, 1) },
    { CASE("a write of nothing under it"), AT(4, 16, 4, 1), .call = WRITE_RING, GIVES(36, 0, 0, 0xFFF, 4, 16, 4, 1) },
    { CASE("one more run under it"), AT(4, 16, 4, 1), GIVES(36, 0, 0, 0xFFF, 4, 16, 4, 1) },
    { CASE("the reset"), RESET, GIVES(0, 0, 0, 0, 0, 0, 0, 0) },
    { CASE("nothing waits after it"), AT(0, 0, 0, 0), GIVES(0, 0, 0, 0, 0, 0, 0, 0) },
    { CASE("the host writes again"), AT(0, 0, 0, 0), HOST(0x44444444, SWAP()), GIVES(0, 0, 0, 0, 0, 8, 0, 0),
      CHANGES(RING_GETS(0, 0x44444444, SWAP())) },
    { CASE("and it is run"), AT(0, 8, 0, 0), GIVES(31, 0, 2, 8, 8, 8, 4, 0),
      CHANGES(LIST_GETS(0, 0x44444444), SHOWN_IS_LIST) },
};

/* The marks of a full RAM_DL stay at the fault; DLSTART is of no use before the reset. */
static const hand_ring full_list_and_reset[] = {
    { CASE("two words for the last place"), AT(0, 12, FULL - 4, 0), WAITING(0x11111111, 0x22222222, DLSTART()),
      GIVES(34, 4, 1, 0xFFF, 4, 12, FULL, 1), CHANGES(LIST_GETS(FULL - 4, 0x11111111)) },
    { CASE("a run under the fault"), AT(4, 12, FULL, 1), GIVES(36, 0, 0, 0xFFF, 4, 12, FULL, 1) },
    { CASE("the reset"), RESET, GIVES(0, 0, 0, 0, 0, 0, 0, 0) },
    { CASE("the host writes again"), AT(0, 0, 0, 0), HOST(0x33333333), GIVES(0, 0, 0, 0, 0, 4, 0, 0),
      CHANGES(RING_GETS(0, 0x33333333)) },
    { CASE("and it is run"), AT(0, 4, 0, 0), GIVES(0, 0, 1, 4, 4, 4, 4, 0), CHANGES(LIST_GETS(0, 0x33333333)) },
};

static const hand_ring parameters_one_by_one[] = {
    { CASE("MEMCPY without parameters"), AT(LAST - 8, LAST - 8, 0, 0), RAM_G_IS(1, 2, 3, 4, 5, 6),
      HOST(0x11111111, FIRST_WORD(MEMCPY_BYTE)), GIVES(0, 0, 0, LAST - 8, LAST - 8, LAST, 0, 0),
      CHANGES(RING_GETS(LAST - 8, 0x11111111, FIRST_WORD(MEMCPY_BYTE))) },
    { CASE("it waits"), AT(LAST - 8, LAST, 0, 0), GIVES(30, 0, 1, LAST - 4, LAST - 4, LAST, 4, 0),
      CHANGES(LIST_GETS(0, 0x11111111)) },
    { CASE("it still waits"), AT(LAST - 4, LAST, 4, 0), GIVES(30, 0, 0, LAST - 4, LAST - 4, LAST, 4, 0) },
    { CASE("the target"), AT(LAST - 4, LAST, 4, 0), HOST(2), GIVES(0, 0, 0, LAST - 4, LAST - 4, 0, 4, 0),
      CHANGES(RING_GETS(LAST, 2)) },
    { CASE("it waits for the source"), AT(LAST - 4, 0, 4, 0), GIVES(30, 0, 0, LAST - 4, LAST - 4, 0, 4, 0) },
    { CASE("the source"), AT(LAST - 4, 0, 4, 0), HOST(0), GIVES(0, 0, 0, LAST - 4, LAST - 4, 4, 4, 0),
      CHANGES(RING_GETS(0, 0)) },
    { CASE("it waits for the count"), AT(LAST - 4, 4, 4, 0), GIVES(30, 0, 0, LAST - 4, LAST - 4, 4, 4, 0) },
    { CASE("the count, and a word"), AT(LAST - 4, 4, 4, 0), HOST(3, 0x22222222),
      GIVES(0, 0, 0, LAST - 4, LAST - 4, 12, 4, 0), CHANGES(RING_GETS(4, 3, 0x22222222)) },
    { CASE("it is taken"), AT(LAST - 4, 12, 4, 0), GIVES(0, 0, 2, 12, 12, 12, 8, 0), CHANGES(LIST_GETS(4, 0x22222222)),
      RAM_G_BECOMES(1, 2, 1, 2, 3, 6) },
};

/* 'Taken room is free again': fills the ring, runs it up to a swap, and fills what that has freed. */
static void check_full_circle(void)
{
    fill_with_plain_words();
    many[2] = SWAP();
    static const uint32_t more[] = { 0x11111111, 0x22222222, 0x33333333, 0x44444444 };
    const hand_ring table[] = {
        { CASE("1,023 words at 4088"), AT(LAST - 4, LAST - 4, 0, 0), .call = WRITE_RING, .words = many,
          .count = MOST_WAITING_WORDS, GIVES(0, 0, 0, LAST - 4, LAST - 4, LAST - 8, 0, 0),
          CHANGES(RING_GETS_FROM(many, LAST - 4, 8), RING_GETS_FROM(&many[2], 0, JV_MAX_WAITING - 8)) },
        { CASE("a word more"), AT(LAST - 4, LAST - 8, 0, 0), HOST(0x12345678),
          GIVES(38, 0, 0, LAST - 4, LAST - 4, LAST - 8, 0, 0) },
        { CASE("run up to the swap"), AT(LAST - 4, LAST - 8, 0, 0), GIVES(31, 0, 3, 4, 4, LAST - 8, 8, 0),
          CHANGES(LIST_GETS_FROM(many, 0, 8), SHOWN_IS_LIST) },
        { CASE("four words"), AT(4, LAST - 8, 8, 0), .call = WRITE_RING, .words = more, .count = 4,
          GIVES(38, 0, 0, 4, 4, LAST - 8, 8, 0) },
        { CASE("three words"), AT(4, LAST - 8, 8, 0), .call = WRITE_RING, .words = more, .count = 3,
          GIVES(0, 0, 0, 4, 4, 0, 8, 0), CHANGES(RING_GETS_FROM(more, LAST - 8, 12)) },
        { CASE("all of it"), AT(4, 0, 8, 0), GIVES(0, 0, MOST_WAITING_WORDS, 0, 0, 0, JV_MAX_WAITING + 8, 0),
          CHANGES(LIST_GETS_FROM(&many[3], 8, JV_MAX_WAITING - 12), LIST_GETS_FROM(more, JV_MAX_WAITING - 4, 12)) },
        { CASE("as much again"), AT(0, 0, JV_MAX_WAITING + 8, 0), .call = WRITE_RING, .words = many,
          .count = MOST_WAITING_WORDS, GIVES(0, 0, 0, 0, 0, LAST, JV_MAX_WAITING + 8, 0),
          CHANGES(RING_GETS_FROM(many, 0, JV_MAX_WAITING)) },
    };
    CHECK_RINGS_IN_TURN("rings in turn: full twice", table);
}

/* Runs that go on from each other, as the run of all at once would. */
static const hand_ring list_from_two_runs[] = {
    { CASE("the first half"), AT(0, 8, 400, 0), WAITING(DLSTART(), 0x11111111), GIVES(0, 0, 2, 8, 8, 8, 4, 0),
      CHANGES(LIST_GETS(0, 0x11111111)) },
    { CASE("the host writes the second"), AT(8, 8, 4, 0), HOST(0x22222222, SWAP()), GIVES(0, 0, 0, 8, 8, 16, 4, 0),
      CHANGES(RING_GETS(8, 0x22222222, SWAP())) },
    { CASE("the second half"), AT(8, 16, 4, 0), GIVES(31, 0, 2, 16, 16, 16, 8, 0),
      CHANGES(LIST_GETS(4, 0x22222222), SHOWN_IS_LIST) },
    { CASE("RAM_DL goes on from there"), AT(16, 16, 8, 0), HOST(0x33333333), GIVES(0, 0, 0, 16, 16, 20, 8, 0),
      CHANGES(RING_GETS(16, 0x33333333)) },
    { CASE("and what is shown stays"), AT(16, 20, 8, 0), GIVES(0, 0, 1, 20, 20, 20, 12, 0),
      CHANGES(LIST_GETS(8, 0x33333333)) },
};

void check_ring_turns_by_hand(void)
{
    CHECK_RINGS("rings: empty", empty_rings);
    CHECK_RINGS("rings: around the end", around_the_end);
    CHECK_RINGS("rings: several commands", several_commands);
    CHECK_RINGS("rings: a fault behind others", faults_behind_others);
    check_full_rings();
    check_full_rings_at_offsets();
    check_full_ring_of_commands();
    CHECK_RINGS("rings: the host's words", host_words);
    check_most_words();
    CHECK_RINGS_IN_TURN("rings in turn: a swap, and on", swap_and_on);
    CHECK_RINGS_IN_TURN("rings in turn: a fault and the reset", fault_and_reset);
    CHECK_RINGS_IN_TURN("rings in turn: RAM_DL full and the reset", full_list_and_reset);
    CHECK_RINGS_IN_TURN("rings in turn: parameters one by one", parameters_one_by_one);
    check_full_circle();
    CHECK_RINGS_IN_TURN("rings in turn: a list from two runs", list_from_two_runs);
}
