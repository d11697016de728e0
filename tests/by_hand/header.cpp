// The header as C++ sees it: the answers have the layout that C has, constants and texts are there, and each call links
// and answers.
#include <cstddef>
#include <cstdint>
#include <cstdio>
#include <cstring>
#include <type_traits>

#include "jokulvisp.h"

static_assert(sizeof(jv_word) == 28, "a word's answer is seven numbers");
static_assert(sizeof(jv_bits) == 8, "a written word's answer is two numbers");
static_assert(offsetof(jv_word, command) == 4 && offsetof(jv_word, a) == 8 && offsetof(jv_word, e) == 24, "in order");
static_assert(offsetof(jv_bits, bits) == 4, "in order");
static_assert(sizeof(jv_answer) == 16, "a list's answer is four numbers");
static_assert(offsetof(jv_answer, list) == 4 && offsetof(jv_answer, place) == 8 && offsetof(jv_answer, count) == 12,
              "in order");
static_assert(sizeof(jv_ring) == 32, "a ring's answer is eight numbers");
static_assert(offsetof(jv_ring, place) == 4 && offsetof(jv_ring, count) == 8 && offsetof(jv_ring, reported) == 12 &&
                  offsetof(jv_ring, read) == 16 && offsetof(jv_ring, write) == 20 && offsetof(jv_ring, offset) == 24 &&
                  offsetof(jv_ring, fault) == 28,
              "in order");
static_assert(std::is_standard_layout<jv_word>::value && std::is_standard_layout<jv_bits>::value &&
                  std::is_standard_layout<jv_answer>::value && std::is_standard_layout<jv_ring>::value,
              "as in C");

// The manual's example: a red screen.
static const std::uint8_t clear_screen[] = { 0x00, 0x00, 0xFF, 0x02, 0x07, 0x00, 0x00, 0x26, 0x00, 0x00, 0x00, 0x00 };

static bool is_answer(const jv_answer &came, std::uint32_t number, std::uint32_t place, std::uint32_t count)
{
    return came.number == number && came.list == 0 && came.place == place && came.count == count;
}

static bool is_red(const std::uint8_t *pixel)
{
    return pixel[0] == 255 && pixel[1] == 0 && pixel[2] == 0;
}

// Two pixels by one, then its only row.
static bool do_paint_calls_answer()
{
    std::uint8_t picture[6] = { 9, 9, 9, 9, 9, 9 }, tags[2] = { 9, 9 }, row[6] = { 9, 9, 9, 9, 9, 9 };
    const jv_answer frame_came = jv_paint(clear_screen, 12, nullptr, 0, 2, 1, 64, picture, 6, tags, 2);
    const bool is_painted =
        is_answer(frame_came, JV_DONE, 0, 3) && is_red(picture) && is_red(picture + 3) && tags[0] == 0 && tags[1] == 0;
    const jv_answer row_came = jv_paint_row(clear_screen, 12, nullptr, 0, 2, 1, 0, 64, row, 6, tags, 2);
    const bool is_row_painted = is_answer(row_came, JV_DONE, 0, 3) && is_red(row) && is_red(row + 3);
    return is_painted && is_row_painted &&
           is_answer(jv_paint(clear_screen, 12, nullptr, 0, 2, 1, 64, picture, 5, tags, 2), JV_BAD_FRAME, 0, 0) &&
           is_answer(jv_paint_row(clear_screen, 12, nullptr, 0, 2, 1, 1, 64, row, 6, tags, 2), JV_BAD_FRAME, 0, 0);
}

// The manual's example: a pixel whose colour changes, on 2 by 2 pixels.
static bool does_repaint_call_answer()
{
    const std::uint8_t red_pixel[] = { 0x00, 0x00, 0xFF, 0x04, 0x00, 0x00, 0x00, 0x0D, 0x02, 0x00,
                                       0x00, 0x1F, 0x00, 0x10, 0x20, 0x80, 0x00, 0x00, 0x00, 0x00 };
    std::uint8_t blue_pixel[sizeof red_pixel];
    std::memcpy(blue_pixel, red_pixel, sizeof red_pixel);
    blue_pixel[0] = 0xFF;
    blue_pixel[2] = 0x00;
    std::uint8_t picture[12] = { 9, 9, 9, 9, 9, 9, 9, 9, 9, 9, 9, 9 }, tags[4] = { 9, 9, 9, 9 }, marks[2] = { 9, 9 };
    const std::uint8_t wanted[12] = { 9, 9, 9, 9, 9, 9, 0, 0, 0, 0, 0, 255 };
    const jv_answer came =
        jv_repaint(red_pixel, 20, blue_pixel, 20, nullptr, 0, 2, 2, 64, picture, 12, tags, 4, marks, 2);
    const bool is_repainted = is_answer(came, JV_DONE, 0, 1) && std::memcmp(picture, wanted, 12) == 0 && tags[1] == 9 &&
                              tags[2] == 0 && tags[3] == 255 && marks[0] == 0 && marks[1] == 1;
    const jv_answer refused =
        jv_repaint(red_pixel, 20, blue_pixel, 16, nullptr, 0, 2, 2, 64, picture, 12, tags, 4, marks, 2);
    const bool is_refused = refused.number == JV_PAST_END && refused.list == 2 && refused.place == 16 &&
                            refused.count == 4 && std::memcmp(picture, wanted, 12) == 0;
    return is_repainted && is_refused;
}

static std::uint8_t ring[JV_RING_BYTES], ram_dl[JV_RAM_DL_BYTES], shown[JV_RAM_DL_BYTES], ram_g[16];

static bool is_ring_answer(const jv_ring &came, const jv_ring &wanted)
{
    return std::memcmp(&came, &wanted, sizeof came) == 0;
}

static jv_ring write_to_ring(const std::uint8_t *words, std::size_t length, const jv_ring &a)
{
    return jv_ring_write(ring, sizeof ring, words, length, a.read, a.write, a.offset, a.fault);
}

static jv_ring run_ring(const jv_ring &a)
{
    return jv_ring_run(ring, sizeof ring, ram_dl, sizeof ram_dl, shown, sizeof shown, ram_g, sizeof ram_g, a.read,
                       a.write, a.offset, a.fault);
}

// The manual's example: a red screen by way of the ring, then MEMZERO, first without its parameters; a fault, and the
// reset after it.
static bool do_ring_calls_answer()
{
    const std::uint8_t words[] = { 0x00, 0xFF, 0xFF, 0xFF, 0x00, 0x00, 0xFF, 0x02, 0x07, 0x00, 0x00, 0x26,
                                   0x00, 0x00, 0x00, 0x00, 0x01, 0xFF, 0xFF, 0xFF, 0x1C, 0xFF, 0xFF, 0xFF };
    const std::uint8_t parameters[] = { 2, 0, 0, 0, 3, 0, 0, 0 }, unknown[] = { 0x02, 0xFF, 0xFF, 0xFF };
    const std::uint8_t zeroed[] = { 9, 9, 0, 0, 0, 9, 9, 9, 9, 9, 9, 9, 9, 9, 9, 9 };
    std::memset(ram_g, 9, sizeof ram_g);
    jv_ring a = jv_ring_reset();
    const bool is_reset = is_ring_answer(a, { 0, 0, 0, 0, 0, 0, 0, 0 });
    a = write_to_ring(words, sizeof words, a);
    const bool is_written = is_ring_answer(a, { 0, 0, 0, 0, 0, 24, 0, 0 });
    a = run_ring(a);
    const bool is_shown =
        is_ring_answer(a, { JV_RING_SWAPPED, 0, 5, 20, 20, 24, 12, 0 }) && std::memcmp(shown, clear_screen, 12) == 0;
    a = run_ring(a);
    const bool is_waiting = is_ring_answer(a, { JV_RING_WAITING, 0, 0, 20, 20, 24, 12, 0 });
    a = run_ring(write_to_ring(parameters, sizeof parameters, a));
    const bool is_done =
        is_ring_answer(a, { JV_RING_IDLE, 0, 1, 32, 32, 32, 12, 0 }) && std::memcmp(ram_g, zeroed, sizeof zeroed) == 0;
    a = run_ring(write_to_ring(unknown, sizeof unknown, a));
    const bool is_at_fault = is_ring_answer(a, { JV_RING_UNKNOWN, 32, 0, 0xFFF, 32, 36, 12, 1 }) &&
                             is_ring_answer(run_ring(a), { JV_RING_FAULTY, 0, 0, 0xFFF, 32, 36, 12, 1 });
    return is_reset && is_written && is_shown && is_waiting && is_done && is_at_fault &&
           is_ring_answer(run_ring(jv_ring_reset()), { JV_RING_IDLE, 0, 0, 0, 0, 0, 0, 0 });
}

int main()
{
    const jv_word read = jv_read_word(0x9B86EFD4);
    const bool reads = read.number == JV_DONE && read.command == JV_VERTEX2II && read.a == 220 && read.b == 110 &&
                       read.c == 31 && read.d == 84 && read.e == 0;
    const jv_bits written = jv_write_word(JV_VERTEX2II, 220, 110, 31, 84, 0);
    const bool writes = written.number == JV_DONE && written.bits == 0x9B86EFD4;
    const bool names = jv_write_word(JV_BEGIN, JV_PRIMITIVE_POINTS, 0, 0, 0, 0).bits == 0x1F000002 &&
                       jv_write_word(JV_ALPHA_FUNC, JV_TEST_ALWAYS, 0, 0, 0, 0).bits == 0x09000700 &&
                       std::strcmp(JV_VERSION, "") != 0 && std::strcmp(jv_number_text(JV_DONE), "") != 0;
    const bool refuses = jv_read_word(0xFFFFFFFF).number == JV_NO_COMMAND &&
                         jv_write_word(JV_BEGIN, 0, 0, 0, 0, 0).number == JV_NO_MEANING;
    const bool checks =
        is_answer(jv_check(clear_screen, 12, nullptr, 0, 480, 272, JV_MAX_LIMIT), JV_DONE, 0, 3) &&
        is_answer(jv_check(clear_screen, 8, nullptr, 0, 480, 272, JV_MAX_LIMIT), JV_PAST_END, 8, 2) &&
        is_answer(jv_check(clear_screen, 12, nullptr, 0, 480, 272, 2), JV_LIMIT_REACHED, 8, 2) &&
        is_answer(jv_check(clear_screen, 12, nullptr, 0, JV_MAX_WIDTH + 1, 272, JV_MAX_LIMIT), JV_BAD_FRAME, 0, 0);

    const bool paints = do_paint_calls_answer();
    const bool repaints = does_repaint_call_answer();
    const bool rings = do_ring_calls_answer();

    std::printf("from C++: reading %s, writing %s, naming %s, refusing %s, checking %s, painting %s, repainting %s, "
                "the ring %s\n",
                reads ? "holds" : "FAILS", writes ? "holds" : "FAILS", names ? "holds" : "FAILS",
                refuses ? "holds" : "FAILS", checks ? "holds" : "FAILS", paints ? "holds" : "FAILS",
                repaints ? "holds" : "FAILS", rings ? "holds" : "FAILS");
    return reads && writes && names && refuses && checks && paints && repaints && rings ? 0 : 1;
}
