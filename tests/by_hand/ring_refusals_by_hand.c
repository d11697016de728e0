/* Calls of the ring that are refused: the number each has to give, the marks as they were, and that not a byte of what
   was lent is written. What waits would change all that a run can change, were it taken. */
#include "rings_by_hand.h"

#include <inttypes.h>
#include <stdio.h>

#include "../shared/check.h"
#include "hand_rings.h"

#define WOULD_CHANGE_ALL WAITING(0x12345678, MEMZERO(0, 8), SWAP())

/* ---- Lengths ---- */

#define IS_REFUSED(number) AT(0, 20, 0, 0), GIVES(number, 0, 0, 0, 0, 20, 0, 0)
#define RUN_OVER_IS_37(ram_g_bytes) RAM_G_OF(ram_g_bytes), WOULD_CHANGE_ALL, IS_REFUSED(37)
#define RUN_IS_37 RUN_OVER_IS_37(16)
#define WRITE_IS_37 HOST(0x12345678), IS_REFUSED(37)

static const hand_ring wrong_lengths[] = {
    { CASE("a ring of one byte less"), RUN_IS_37, .ring_more = -1 },
    { CASE("a ring of one byte more"), RUN_IS_37, .ring_more = 1 },
    { CASE("a ring of one word less"), RUN_IS_37, .ring_more = -4 },
    { CASE("a ring of one word more"), RUN_IS_37, .ring_more = 4 },
    { CASE("a ring of twice the length"), RUN_IS_37, .ring_more = JV_RING_BYTES },
    { CASE("no ring"), RUN_IS_37, .ring_more = -JV_RING_BYTES },
    { CASE("RAM_DL of one byte less"), RUN_IS_37, .ram_dl_more = -1 },
    { CASE("RAM_DL of one byte more"), RUN_IS_37, .ram_dl_more = 1 },
    { CASE("RAM_DL of one word less"), RUN_IS_37, .ram_dl_more = -4 },
    { CASE("RAM_DL of one word more"), RUN_IS_37, .ram_dl_more = 4 },
    { CASE("no RAM_DL"), RUN_IS_37, .ram_dl_more = -FULL },
    { CASE("shown of one byte less"), RUN_IS_37, .shown_more = -1 },
    { CASE("shown of one byte more"), RUN_IS_37, .shown_more = 1 },
    { CASE("shown of one word less"), RUN_IS_37, .shown_more = -4 },
    { CASE("shown of one word more"), RUN_IS_37, .shown_more = 4 },
    { CASE("no shown"), RUN_IS_37, .shown_more = -FULL },
    { CASE("RAM_DL and shown, each of half the length"), RUN_IS_37, .ram_dl_more = -FULL / 2, .shown_more = -FULL / 2 },
    { CASE("RAM_G too long by a byte"), RUN_OVER_IS_37(JV_MAX_RAM_G_BYTES + 1) },
    { CASE("RAM_G of 1048580 bytes"), RUN_OVER_IS_37(1048580) },
    { CASE("RAM_G of 2097152 bytes"), RUN_OVER_IS_37(2097152) },
    { CASE("nothing lent"), RUN_OVER_IS_37(0), .ring_more = -JV_RING_BYTES, .ram_dl_more = -FULL, .shown_more = -FULL },
    { CASE("a ring of one byte less, and nothing waits"), AT(8, 8, 0, 0), .ring_more = -1,
      GIVES(37, 0, 0, 8, 8, 8, 0, 0) },

    { CASE("the host's ring of one byte less"), WRITE_IS_37, .ring_more = -1 },
    { CASE("the host's ring of one byte more"), WRITE_IS_37, .ring_more = 1 },
    { CASE("the host's ring of one word less"), WRITE_IS_37, .ring_more = -4 },
    { CASE("the host's ring of one word more"), WRITE_IS_37, .ring_more = 4 },
    { CASE("no ring for the host"), WRITE_IS_37, .ring_more = -JV_RING_BYTES },
    { CASE("the host's words of 3 bytes"), WRITE_IS_37, .words_more = -1 },
    { CASE("the host's words of 2 bytes"), WRITE_IS_37, .words_more = -2 },
    { CASE("the host's words of 1 byte"), WRITE_IS_37, .words_more = -3 },
    { CASE("the host's words of 5 bytes"), WRITE_IS_37, .words_more = 1 },
    { CASE("the host's words of 6 bytes"), WRITE_IS_37, .words_more = 2 },
    { CASE("the host's words of 7 bytes"), WRITE_IS_37, .words_more = 3 },
    { CASE("no words into a ring of one byte less"), .call = WRITE_RING, .ring_more = -1, IS_REFUSED(37) },
};

/* The largest and the smallest RAM_G are taken. */
static const hand_ring right_lengths[] = {
    { CASE("the longest RAM_G"), AT(0, 20, 0, 0), WOULD_CHANGE_ALL, RAM_G_OF(JV_MAX_RAM_G_BYTES),
      GIVES(31, 0, 3, 20, 20, 20, 4, 0), CHANGES(LIST_GETS(0, 0x12345678), RAM_G_FILLS(0, 0, 8), SHOWN_IS_LIST) },
    { CASE("RAM_G shorter than the longest by a byte"), AT(0, 20, 0, 0), WOULD_CHANGE_ALL, RAM_G_OF(JV_MAX_RAM_G_BYTES - 1),
      GIVES(31, 0, 3, 20, 20, 20, 4, 0), CHANGES(LIST_GETS(0, 0x12345678), RAM_G_FILLS(0, 0, 8), SHOWN_IS_LIST) },
    { CASE("RAM_G of 8 bytes"), AT(0, 20, 0, 0), WOULD_CHANGE_ALL, RAM_G_OF(8), GIVES(31, 0, 3, 20, 20, 20, 4, 0),
      CHANGES(LIST_GETS(0, 0x12345678), RAM_G_FILLS(0, 0, 8), SHOWN_IS_LIST) },
    { CASE("RAM_G of no byte"), AT(0, 8, 0, 0), WAITING(0x12345678, SWAP()), GIVES(31, 0, 2, 8, 8, 8, 4, 0),
      CHANGES(LIST_GETS(0, 0x12345678), SHOWN_IS_LIST) },
};

/* Lengths that 32 bits would cut to others. Nothing is lent that is so long: it is refused before it is read or
   written. */
static void check_vast_lengths(void)
{
    static const ring_program *const programs[] = { &ring_library, &ring_second_program };
    static const size_t lengths[RING_RUNS] = { JV_RING_BYTES, FULL, FULL, 16 };
    static const uint8_t words[8] = { 1, 2, 3, 4, 5, 6, 7, 8 };
    const size_t vast = (size_t)1 << 32;
    const ring_marks marks = { 0, 8, 0, 0 };
    const jv_ring refused = { 37, 0, 0, 0, 0, 8, 0, 0 }, no_room = { 38, 0, 0, 0, 0, 8, 0, 0 };
    begin_part("rings: lengths above 32 bits");
    for (size_t n = 0; n < LENGTH(programs); n++) {
        const ring_program *p = programs[n];
        lent_ring lent = lend_ring(lengths), before = lend_ring(lengths);
        ring_run_request run = lending_for_run(&lent, marks);
        ring_run_request long_ring = run, long_list = run, long_shown = run, long_ram_g = run, full_ram_g = run;
        long_ring.ring_length += vast;
        long_list.ram_dl_length += vast;
        long_shown.shown_length += vast;
        long_ram_g.ram_g_length += vast;
        full_ram_g.ram_g_length = vast;
        CHECK_HOLDS(are_equal_ring_answers(p->run(&long_ring), refused), "a ring of 2^32 + 4096 bytes gives 37");
        CHECK_HOLDS(are_equal_ring_answers(p->run(&long_list), refused), "RAM_DL of 2^32 + 8192 bytes gives 37");
        CHECK_HOLDS(are_equal_ring_answers(p->run(&long_shown), refused), "shown of 2^32 + 8192 bytes gives 37");
        CHECK_HOLDS(are_equal_ring_answers(p->run(&long_ram_g), refused), "RAM_G of 2^32 + 16 bytes gives 37");
        CHECK_HOLDS(are_equal_ring_answers(p->run(&full_ram_g), refused), "RAM_G of 2^32 bytes gives 37");
        ring_write_request write = lending_for_write(&lent, words, sizeof words, marks);
        ring_write_request into_long_ring = write, long_words = write, full_words = write, odd_words = write;
        into_long_ring.ring_length += vast;
        long_words.words_length += vast;
        full_words.words_length = vast;
        odd_words.words_length = vast + 1;
        CHECK_HOLDS(are_equal_ring_answers(p->write(&into_long_ring), refused),
                    "the host's ring of 2^32 + 4096 bytes gives 37");
        CHECK_HOLDS(are_equal_ring_answers(p->write(&long_words), no_room), "words of 2^32 + 8 bytes give 38");
        CHECK_HOLDS(are_equal_ring_answers(p->write(&full_words), no_room), "words of 2^32 bytes give 38");
        CHECK_HOLDS(are_equal_ring_answers(p->write(&odd_words), refused), "words of 2^32 + 1 bytes give 37");
        for (ring_run r = 0; r < RING_RUNS; r++)
            CHECK_HOLDS(are_equal_ring_runs(&lent, &before, r), "not a byte is written");
        take_ring_back(&lent);
        take_ring_back(&before);
    }
}

/* ---- Marks ---- */

typedef struct {
    int line;
    const char *name;
    ring_marks marks;
} mark_case;

/* What is reported is the read mark, good or not, unless the fault mark is set. */
static jv_ring refused_with(uint32_t number, ring_marks m)
{
    return (jv_ring){ number, 0, 0, m.fault != 0 ? 0xFFF : m.read, m.read, m.write, m.offset, m.fault };
}

/* Refuses a run, a write and a write of nothing. */
static void check_marks_refused(const mark_case *c, ring_marks marks, uint32_t number)
{
    jv_ring wanted = refused_with(number, marks);
    check_ring(__FILE__, &(const hand_ring){ c->line, c->name, .marks = marks, RAM_G_OF(16), WOULD_CHANGE_ALL,
                                             .wanted = wanted });
    check_ring(__FILE__, &(const hand_ring){ c->line, c->name, .marks = marks, HOST(0x12345678), .wanted = wanted });
    check_ring(__FILE__, &(const hand_ring){ c->line, c->name, .marks = marks, .call = WRITE_RING, .wanted = wanted });
}

static const mark_case bad_marks[] = {
    { CASE("read 1"), { 1, 20, 0, 0 } },
    { CASE("read 2"), { 2, 20, 0, 0 } },
    { CASE("read 3"), { 3, 20, 0, 0 } },
    { CASE("read 4091"), { 4091, 20, 0, 0 } },
    { CASE("read 4093"), { LAST + 1, 20, 0, 0 } },
    { CASE("read 4095, which is what a fault is reported as"), { JV_RING_BYTES - 1, 20, 0, 0 } },
    { CASE("read 4096"), { JV_RING_BYTES, 20, 0, 0 } },
    { CASE("read 4100"), { 4100, 20, 0, 0 } },
    { CASE("read 8192"), { 2 * JV_RING_BYTES, 20, 0, 0 } },
    { CASE("read 2^16"), { 0x10000, 20, 0, 0 } },
    { CASE("read 2^31"), { 0x80000000, 20, 0, 0 } },
    { CASE("read 2^32 - 4"), { 0xFFFFFFFC, 20, 0, 0 } },
    { CASE("read 2^32 - 1"), { 0xFFFFFFFF, 20, 0, 0 } },
    { CASE("write 1"), { 0, 1, 0, 0 } },
    { CASE("write 22"), { 0, 22, 0, 0 } },
    { CASE("write 23"), { 0, 23, 0, 0 } },
    { CASE("write 4093"), { LAST - 8, LAST + 1, 0, 0 } },
    { CASE("write 4095"), { LAST - 8, JV_RING_BYTES - 1, 0, 0 } },
    { CASE("write 4096"), { LAST - 8, JV_RING_BYTES, 0, 0 } },
    { CASE("write 4100"), { 0, 4100, 0, 0 } },
    { CASE("write 4116, which is 20 past the ring's end"), { 0, 4116, 0, 0 } },
    { CASE("write 2^16 + 20"), { 0, 0x10014, 0, 0 } },
    { CASE("write 2^31"), { 0, 0x80000000, 0, 0 } },
    { CASE("write 2^32 - 4"), { 0, 0xFFFFFFFC, 0, 0 } },
    { CASE("write 2^32 - 1"), { 0, 0xFFFFFFFF, 0, 0 } },
    { CASE("read and write 4096"), { JV_RING_BYTES, JV_RING_BYTES, 0, 0 } },
    { CASE("read and write 2"), { 2, 2, 0, 0 } },
    { CASE("offset 1"), { 0, 20, 1, 0 } },
    { CASE("offset 2"), { 0, 20, 2, 0 } },
    { CASE("offset 3"), { 0, 20, 3, 0 } },
    { CASE("offset 8190"), { 0, 20, 8190, 0 } },
    { CASE("offset 8193"), { 0, 20, FULL + 1, 0 } },
    { CASE("offset 8196"), { 0, 20, FULL + 4, 0 } },
    { CASE("offset 16384"), { 0, 20, 16384, 0 } },
    { CASE("offset 2^16"), { 0, 20, 0x10000, 0 } },
    { CASE("offset 2^31"), { 0, 20, 0x80000000, 0 } },
    { CASE("offset 2^32 - 4"), { 0, 20, 0xFFFFFFFC, 0 } },
    { CASE("offset 2^32 - 1"), { 0, 20, 0xFFFFFFFF, 0 } },
    { CASE("offset 2, and nothing waits"), { 8, 8, 2, 0 } },
    { CASE("offset 8196, and nothing waits"), { 8, 8, FULL + 4, 0 } },
    { CASE("all three"), { 0xFFFFFFFF, 0xFFFFFFFE, 0xFFFFFFFD, 0 } },
};

/* Under a fault, too: 33 before 36. */
static void check_bad_marks(void)
{
    begin_part("rings refused by a mark");
    for (const mark_case *c = bad_marks; c < bad_marks + LENGTH(bad_marks); c++) {
        ring_marks under_fault = c->marks;
        under_fault.fault = 1;
        check_marks_refused(c, c->marks, 33);
        check_marks_refused(c, under_fault, 33);
    }
}

static const mark_case set_faults[] = {
    { CASE("fault 1"), { 0, 20, 0, 1 } },
    { CASE("fault 2"), { 0, 20, 0, 2 } },
    { CASE("fault 4"), { 0, 20, 0, 4 } },
    { CASE("fault 255"), { 0, 20, 0, 255 } },
    { CASE("fault 2^8"), { 0, 20, 0, 0x100 } },
    { CASE("fault 2^16"), { 0, 20, 0, 0x10000 } },
    { CASE("fault 2^31"), { 0, 20, 0, 0x80000000 } },
    { CASE("fault 2^32 - 2"), { 0, 20, 0, 0xFFFFFFFE } },
    { CASE("fault 2^32 - 1"), { 0, 20, 0, 0xFFFFFFFF } },
    { CASE("a fault, and nothing waits"), { 8, 8, 0, 1 } },
    { CASE("a fault, and the ring is full"), { 8, 4, 0, 1 } },
    { CASE("a fault, and RAM_DL is full"), { LAST, 16, FULL, 1 } },
};

static void check_set_faults(void)
{
    begin_part("rings refused by a fault");
    for (const mark_case *c = set_faults; c < set_faults + LENGTH(set_faults); c++)
        check_marks_refused(c, c->marks, 36);
}

/* ---- Which number is told first ---- */

static const hand_ring told_first[] = {
    { CASE("37 before 33 and 36"), AT(1, 20, 0, 1), WOULD_CHANGE_ALL, RAM_G_OF(16), .ring_more = 1,
      GIVES(37, 0, 0, 0xFFF, 1, 20, 0, 1) },
    { CASE("37 of RAM_DL before 33"), AT(0, JV_RING_BYTES, 0, 0), WOULD_CHANGE_ALL, RAM_G_OF(16), .ram_dl_more = 1,
      GIVES(37, 0, 0, 0, 0, JV_RING_BYTES, 0, 0) },
    { CASE("37 of shown before 33"), AT(0, 20, FULL + 4, 0), WOULD_CHANGE_ALL, RAM_G_OF(16), .shown_more = -1,
      GIVES(37, 0, 0, 0, 0, 20, FULL + 4, 0) },
    { CASE("37 of RAM_G before 33"), AT(3, 20, 0, 0), WOULD_CHANGE_ALL, RAM_G_OF(JV_MAX_RAM_G_BYTES + 1),
      GIVES(37, 0, 0, 3, 3, 20, 0, 0) },
    { CASE("37 of the ring before 36"), AT(0, 20, 0, 9), WOULD_CHANGE_ALL, RAM_G_OF(16), .ring_more = -1,
      GIVES(37, 0, 0, 0xFFF, 0, 20, 0, 9) },
    { CASE("37 of RAM_DL before 36"), AT(0, 20, 0, 1), WOULD_CHANGE_ALL, RAM_G_OF(16), .ram_dl_more = -1,
      GIVES(37, 0, 0, 0xFFF, 0, 20, 0, 1) },
    { CASE("37 of shown before 36"), AT(0, 20, 0, 1), WOULD_CHANGE_ALL, RAM_G_OF(16), .shown_more = 1,
      GIVES(37, 0, 0, 0xFFF, 0, 20, 0, 1) },
    { CASE("37 of RAM_G before 36"), AT(0, 20, 0, 1), WOULD_CHANGE_ALL, RAM_G_OF(JV_MAX_RAM_G_BYTES + 1),
      GIVES(37, 0, 0, 0xFFF, 0, 20, 0, 1) },
    { CASE("36 before what the commands give"), AT(0, 4, 0, 1), WAITING(0xFFFFFFFF),
      GIVES(36, 0, 0, 0xFFF, 0, 4, 0, 1) },
    { CASE("33 before what the commands give"), AT(0, 4, FULL + 4, 0), WAITING(0xFFFFFFFF),
      GIVES(33, 0, 0, 0, 0, 4, FULL + 4, 0) },
    { CASE("37 before what the commands give"), AT(0, 4, 0, 0), WAITING(0xFFFFFFFF), .shown_more = 4,
      GIVES(37, 0, 0, 0, 0, 4, 0, 0) },

    { CASE("the host's words: 37 before 33, 36 and 38"), AT(1, 0, 0, 1), HOST(0x12345678, 0x23456789), .words_more = 1,
      GIVES(37, 0, 0, 0xFFF, 1, 0, 0, 1) },
    { CASE("37 of the ring before 33"), AT(0, 20, 2, 0), HOST(0x12345678), .ring_more = 1,
      GIVES(37, 0, 0, 0, 0, 20, 2, 0) },
    { CASE("37 of the words before 33"), AT(0, 20, 2, 0), HOST(0x12345678), .words_more = 2,
      GIVES(37, 0, 0, 0, 0, 20, 2, 0) },
    { CASE("37 of the ring before 36"), AT(0, 20, 0, 7), HOST(0x12345678), .ring_more = -1,
      GIVES(37, 0, 0, 0xFFF, 0, 20, 0, 7) },
    { CASE("37 of the words before 36"), AT(0, 20, 0, 7), HOST(0x12345678), .words_more = 3,
      GIVES(37, 0, 0, 0xFFF, 0, 20, 0, 7) },
    { CASE("37 of the words before 38"), AT(8, 4, 0, 0), HOST(0x12345678), .words_more = -1,
      GIVES(37, 0, 0, 8, 8, 4, 0, 0) },
    { CASE("37 of the ring before 38"), AT(8, 4, 0, 0), HOST(0x12345678), .ring_more = 4,
      GIVES(37, 0, 0, 8, 8, 4, 0, 0) },
    { CASE("33 before 36 and 38"), AT(8, 4, FULL + 4, 1), HOST(0x12345678), GIVES(33, 0, 0, 0xFFF, 8, 4, FULL + 4, 1) },
    { CASE("33 before 38"), AT(8, 4, FULL + 4, 0), HOST(0x12345678), GIVES(33, 0, 0, 8, 8, 4, FULL + 4, 0) },
    { CASE("36 before 38"), AT(8, 4, 0, 1), HOST(0x12345678), GIVES(36, 0, 0, 0xFFF, 8, 4, 0, 1) },
};

/* ---- The whole ---- */

static void check_met(ring_call call, const uint32_t *numbers, size_t count)
{
    printf("by %s:", ring_call_names[call]);
    for (size_t n = 0; n < count; n++) {
        printf("  %u of %" PRIu32, count_met(call, numbers[n]), numbers[n]);
        CHECK_HOLDS(count_met(call, numbers[n]) > 0, "each number was given by hand");
    }
    putchar('\n');
}

static void check_each_met(void)
{
    static const uint32_t by_run[] = { 0, 30, 31, 32, 33, 34, 35, 36, 37 }, by_write[] = { 0, 33, 36, 37, 38 };
    begin_part("rings: each number");
    check_met(RUN_RING, by_run, LENGTH(by_run));
    check_met(WRITE_RING, by_write, LENGTH(by_write));
}

void check_ring_refusals_by_hand(void)
{
    CHECK_RINGS("rings refused by what is lent", wrong_lengths);
    CHECK_RINGS("rings of right lengths", right_lengths);
    check_vast_lengths();
    check_bad_marks();
    check_set_faults();
    CHECK_RINGS("rings: which number is told first", told_first);
    check_each_met();
}
