/* jokulvisp.h - display lists of FT81x and BT88x panels: read and write their words, check them, draw them, redraw
 * what an edit changes, and run the command ring that fills a list on the panel.
 *
 * This header is the manual of the library. The comment above a call is its contract. Link with libjokulvisp.a, which
 * holds x86-64 code. The header works in C11 and in C++.
 *
 * For every call:
 *
 *   - Every input gets an answer, so there is nothing to check before a call. If the call cannot work with what it is
 *     given, it returns a number that says why, and all buffers are unchanged. (A ring that stops at a faulty command
 *     keeps what the commands before it did.)
 *   - A buffer is a pointer and a length in bytes. The pointer may be NULL if the length is 0. The library uses a
 *     buffer during the call only. A const buffer is read; const buffers may overlap. A buffer that is not const is
 *     written and must not overlap any other buffer of the call.
 *   - The result depends on the arguments and on the bytes in the buffers only. The library has no variables, allocates
 *     nothing and leaves errno alone. Any number of threads may call it at once.
 */
#ifndef JOKULVISP_H
#define JOKULVISP_H

#include <stddef.h>
#include <stdint.h>

#ifdef __cplusplus
extern "C" {
#endif

#define JV_VERSION "1.3"

/* ---- Limits ----------------------------------------------------------------------------------------------------- */

#define JV_MAX_WIDTH       800      /* frame, in pixels; at least 1 */
#define JV_MAX_HEIGHT      600      /* frame, in pixels; at least 1 */
#define JV_MIN_LIST_BYTES  4        /* list; a multiple of 4 */
#define JV_MAX_LIST_BYTES  8192     /* list; a multiple of 4 */
#define JV_MAX_RAM_G_BYTES 1048576  /* RAM_G, the panel's graphics memory; at least 0 */
#define JV_MAX_LIMIT       65536    /* step limit, in words; at least 1 */

#define JV_MAX_CALLS       4        /* calls that are open at the same time */
#define JV_MAX_CONTEXTS    4        /* saved contexts; saving a fifth drops the oldest */
#define JV_HANDLES         32       /* bitmap handles, 0 to 31 */
#define JV_MAX_SCISSOR     2048     /* width and height of SCISSOR_SIZE, in pixels */
#define JV_MAX_FRAC        4        /* VERTEX_FORMAT */
#define JV_MIN_END         (-32768) /* x and y of a line's ends, in sixteenths of a pixel */
#define JV_MAX_END         32767

#define JV_RING_BYTES      4096     /* the command ring */
#define JV_MAX_WAITING     4092     /* bytes of it that can be waiting at once */
#define JV_RAM_DL_BYTES    8192     /* RAM_DL, and the list that is shown */

/* ---- Numbers -----------------------------------------------------------------------------------------------------
 *
 * The first member of every result. jv_number_text says what each number means.
 */
enum jv_number {
    JV_DONE            = 0,

    /* An argument is out of range. */
    JV_BAD_FRAME       = 1,
    JV_BAD_LIST        = 2,
    JV_BAD_RAM_G       = 3,
    JV_BAD_LIMIT       = 4,

    /* Fault numbers, 10 to 20: the list does not draw. */
    JV_PAST_END        = 10,
    JV_NO_COMMAND      = 11,
    JV_NO_MEANING      = 12,
    JV_NOT_DRAWN       = 13,
    JV_FIFTH_CALL      = 14,
    JV_NO_CALL         = 15,
    JV_SPLIT_TARGET    = 16,
    JV_NO_PRIMITIVE    = 17,
    JV_NO_BITMAP       = 18,
    JV_LIMIT_REACHED   = 19,
    JV_FAR_END         = 20
};

/* The ring's calls return these instead. */
enum jv_ring_number {
    JV_RING_IDLE      = 0,

    /* The run stopped, and the next one goes on from there. */
    JV_RING_WAITING   = 30,
    JV_RING_SWAPPED   = 31,

    /* Ring faults: the command at place had no effect, and the fault mark is set. */
    JV_RING_UNKNOWN   = 32,
    JV_RING_LIST_FULL = 34,
    JV_RING_BAD_RANGE = 35,

    /* Ring refusals: nothing has changed. */
    JV_RING_BAD_MARK  = 33,
    JV_RING_FAULTY    = 36,
    JV_RING_BAD_RUN   = 37,
    JV_RING_NO_ROOM   = 38
};

/* Returns one sentence in English for a number of either enum, and "Unknown number." for any other. Never NULL. */
static inline const char *jv_number_text(uint32_t number)
{
    switch (number) {
    case JV_DONE:           return "Done.";
    case JV_BAD_FRAME:      return "The frame size is out of range, the frame has no such row, or a buffer has the "
                                   "wrong length.";
    case JV_BAD_LIST:       return "The list is not 4 to 8192 bytes long, or its length is not a multiple of 4.";
    case JV_BAD_RAM_G:      return "RAM_G is longer than 1048576 bytes.";
    case JV_BAD_LIMIT:      return "The step limit is not 1 to 65536.";
    case JV_PAST_END:       return "The next word would be past the end of the list.";
    case JV_NO_COMMAND:     return "There is no such command.";
    case JV_NO_MEANING:     return "A field has an invalid value.";
    case JV_NOT_DRAWN:      return "The word is valid, but the library does not draw it yet.";
    case JV_FIFTH_CALL:     return "A CALL was reached while four calls are open.";
    case JV_NO_CALL:        return "A RETURN was reached while no call is open.";
    case JV_SPLIT_TARGET:   return "A CALL or JUMP leads to an offset that is not a multiple of 4.";
    case JV_NO_PRIMITIVE:   return "A vertex was reached while no primitive is begun.";
    case JV_NO_BITMAP:      return "The bitmap of the vertex cannot be drawn.";
    case JV_LIMIT_REACHED:  return "The step limit was reached before the list ended.";
    case JV_FAR_END:        return "An end of the line is too far away.";
    case JV_RING_WAITING:   return "The next command's parameters are not all in the ring yet.";
    case JV_RING_SWAPPED:   return "A swap was made: there is a new list to show.";
    case JV_RING_UNKNOWN:   return "There is no such ring command.";
    case JV_RING_BAD_MARK:  return "A mark is out of range or not a multiple of 4.";
    case JV_RING_LIST_FULL: return "RAM_DL has no room for the word, or for all that APPEND copies.";
    case JV_RING_BAD_RANGE: return "A range of bytes is not inside RAM_G, or APPEND's count is not a multiple of 4.";
    case JV_RING_FAULTY:    return "The fault mark is set: reset the ring first.";
    case JV_RING_BAD_RUN:   return "A buffer has the wrong length.";
    case JV_RING_NO_ROOM:   return "The ring has no room for all of the words.";
    default:                return "Unknown number.";
    }
}

/* ---- Commands ----------------------------------------------------------------------------------------------------
 *
 * A command is the top byte of its word. VERTEX2F and VERTEX2II are known by their two top bits alone, 01 and 10; the
 * six bits below belong to fields. Their command is the top byte with those six bits 0.
 */
enum jv_command {
    JV_DISPLAY            = 0x00,
    JV_BITMAP_SOURCE      = 0x01,
    JV_CLEAR_COLOR_RGB    = 0x02,
    JV_TAG                = 0x03,
    JV_COLOR_RGB          = 0x04,
    JV_BITMAP_HANDLE      = 0x05,
    JV_CELL               = 0x06,
    JV_BITMAP_LAYOUT      = 0x07,
    JV_BITMAP_SIZE        = 0x08,
    JV_ALPHA_FUNC         = 0x09,
    JV_STENCIL_FUNC       = 0x0A,
    JV_BLEND_FUNC         = 0x0B,
    JV_STENCIL_OP         = 0x0C,
    JV_POINT_SIZE         = 0x0D,
    JV_LINE_WIDTH         = 0x0E,
    JV_CLEAR_COLOR_A      = 0x0F,
    JV_COLOR_A            = 0x10,
    JV_CLEAR_STENCIL      = 0x11,
    JV_CLEAR_TAG          = 0x12,
    JV_STENCIL_MASK       = 0x13,
    JV_TAG_MASK           = 0x14,
    JV_BITMAP_TRANSFORM_A = 0x15,
    JV_BITMAP_TRANSFORM_B = 0x16,
    JV_BITMAP_TRANSFORM_C = 0x17,
    JV_BITMAP_TRANSFORM_D = 0x18,
    JV_BITMAP_TRANSFORM_E = 0x19,
    JV_BITMAP_TRANSFORM_F = 0x1A,
    JV_SCISSOR_XY         = 0x1B,
    JV_SCISSOR_SIZE       = 0x1C,
    JV_CALL               = 0x1D,
    JV_JUMP               = 0x1E,
    JV_BEGIN              = 0x1F,
    JV_COLOR_MASK         = 0x20,
    JV_END                = 0x21,
    JV_SAVE_CONTEXT       = 0x22,
    JV_RESTORE_CONTEXT    = 0x23,
    JV_RETURN             = 0x24,
    JV_MACRO              = 0x25,
    JV_CLEAR              = 0x26,
    JV_VERTEX_FORMAT      = 0x27,
    JV_BITMAP_LAYOUT_H    = 0x28,
    JV_BITMAP_SIZE_H      = 0x29,
    JV_PALETTE_SOURCE     = 0x2A,
    JV_VERTEX_TRANSLATE_X = 0x2B,
    JV_VERTEX_TRANSLATE_Y = 0x2C,
    JV_NOP                = 0x2D,
    JV_VERTEX2F           = 0x40,
    JV_VERTEX2II          = 0x80
};

/* ---- Fields ------------------------------------------------------------------------------------------------------
 *
 * The fields of each command, high bits first. The first one is a in the calls below, the second b, and so on to e.
 * After each field's name come its highest and lowest bit, or one number for a single bit, 's' if it is signed, and in
 * square brackets the valid values: a range, or an enum, where [test] is enum jv_test. Without brackets every value is
 * valid.
 *
 *   DISPLAY               none
 *   BITMAP_SOURCE         addr 21..0
 *   CLEAR_COLOR_RGB       red 23..16, green 15..8, blue 7..0
 *   TAG                   s 7..0
 *   COLOR_RGB             red 23..16, green 15..8, blue 7..0
 *   BITMAP_HANDLE         handle 4..0
 *   CELL                  cell 6..0
 *   BITMAP_LAYOUT         format 23..19 [format], linestride 18..9, height 8..0
 *   BITMAP_SIZE           filter 20 [filter], wrapx 19 [wrap], wrapy 18 [wrap], width 17..9, height 8..0
 *   ALPHA_FUNC            func 10..8 [test], ref 7..0
 *   STENCIL_FUNC          func 19..16 [test], ref 15..8, mask 7..0
 *   BLEND_FUNC            src 5..3 [factor], dst 2..0 [factor]
 *   STENCIL_OP            sfail 5..3 [action], spass 2..0 [action]
 *   POINT_SIZE            size 12..0                               a radius, in sixteenths of a pixel
 *   LINE_WIDTH            width 11..0                              half the width of a line, in sixteenths of a pixel
 *   CLEAR_COLOR_A         alpha 7..0
 *   COLOR_A               alpha 7..0
 *   CLEAR_STENCIL         s 7..0
 *   CLEAR_TAG             t 7..0
 *   STENCIL_MASK          mask 7..0
 *   TAG_MASK              mask 0
 *   BITMAP_TRANSFORM_A    a 16..0 s                                256 is 1.0, as in B to F
 *   BITMAP_TRANSFORM_B    b 16..0 s
 *   BITMAP_TRANSFORM_C    c 23..0 s
 *   BITMAP_TRANSFORM_D    d 16..0 s
 *   BITMAP_TRANSFORM_E    e 16..0 s
 *   BITMAP_TRANSFORM_F    f 23..0 s
 *   SCISSOR_XY            x 21..11, y 10..0                        in pixels
 *   SCISSOR_SIZE          width 23..12 [0 to 2048], height 11..0 [0 to 2048]   in pixels
 *   CALL                  dest 15..0                               in bytes from the list's start
 *   JUMP                  dest 15..0                               in bytes from the list's start
 *   BEGIN                 prim 3..0 [primitive]
 *   COLOR_MASK            r 3, g 2, b 1, a 0
 *   END                   none
 *   SAVE_CONTEXT          none
 *   RESTORE_CONTEXT       none
 *   RETURN                none
 *   MACRO                 m 0
 *   CLEAR                 c 2, s 1, t 0                            colour, stencil, tag
 *   VERTEX_FORMAT         frac 2..0 [0 to 4]                       a VERTEX2F unit is a pixel divided by 2^frac
 *   BITMAP_LAYOUT_H       linestride 3..2, height 1..0             the bits above those of BITMAP_LAYOUT
 *   BITMAP_SIZE_H         width 3..2, height 1..0                  the bits above those of BITMAP_SIZE
 *   PALETTE_SOURCE        addr 21..0
 *   VERTEX_TRANSLATE_X    x 16..0 s                                in sixteenths of a pixel
 *   VERTEX_TRANSLATE_Y    y 16..0 s                                in sixteenths of a pixel
 *   NOP                   none
 *   VERTEX2F              x 29..15 s, y 14..0 s                    in the unit that VERTEX_FORMAT sets
 *   VERTEX2II             x 29..21, y 20..12, handle 11..7, cell 6..0          x and y in pixels
 *
 * Bits that belong to no field are reserved: reading ignores them, writing sets them to 0.
 *
 * A signed field is passed and returned in 32-bit two's complement: -16 is 0xFFFFFFF0. Pass (uint32_t)-16, and read
 * (int32_t)w.a.
 */

enum jv_test {
    JV_TEST_NEVER    = 0,
    JV_TEST_LESS     = 1,
    JV_TEST_LEQUAL   = 2,
    JV_TEST_GREATER  = 3,
    JV_TEST_GEQUAL   = 4,
    JV_TEST_EQUAL    = 5,
    JV_TEST_NOTEQUAL = 6,
    JV_TEST_ALWAYS   = 7
};

enum jv_factor {
    JV_FACTOR_ZERO                = 0,
    JV_FACTOR_ONE                 = 1,
    JV_FACTOR_SRC_ALPHA           = 2,
    JV_FACTOR_DST_ALPHA           = 3,
    JV_FACTOR_ONE_MINUS_SRC_ALPHA = 4,
    JV_FACTOR_ONE_MINUS_DST_ALPHA = 5
};

enum jv_action {
    JV_ACTION_ZERO    = 0,
    JV_ACTION_KEEP    = 1,
    JV_ACTION_REPLACE = 2,
    JV_ACTION_INCR    = 3,
    JV_ACTION_DECR    = 4,
    JV_ACTION_INVERT  = 5
};

enum jv_primitive {
    JV_PRIMITIVE_BITMAPS      = 1,
    JV_PRIMITIVE_POINTS       = 2,
    JV_PRIMITIVE_LINES        = 3,
    JV_PRIMITIVE_LINE_STRIP   = 4,
    JV_PRIMITIVE_EDGE_STRIP_R = 5,
    JV_PRIMITIVE_EDGE_STRIP_L = 6,
    JV_PRIMITIVE_EDGE_STRIP_A = 7,
    JV_PRIMITIVE_EDGE_STRIP_B = 8,
    JV_PRIMITIVE_RECTS        = 9
};

enum jv_format {
    JV_FORMAT_ARGB1555     = 0,
    JV_FORMAT_L1           = 1,
    JV_FORMAT_L4           = 2,
    JV_FORMAT_L8           = 3,
    JV_FORMAT_RGB332       = 4,
    JV_FORMAT_ARGB2        = 5,
    JV_FORMAT_ARGB4        = 6,
    JV_FORMAT_RGB565       = 7,
    JV_FORMAT_TEXT8X8      = 9,
    JV_FORMAT_TEXTVGA      = 10,
    JV_FORMAT_BARGRAPH     = 11,
    JV_FORMAT_PALETTED565  = 14,
    JV_FORMAT_PALETTED4444 = 15,
    JV_FORMAT_PALETTED8    = 16,
    JV_FORMAT_L2           = 17
};

enum jv_filter {
    JV_FILTER_NEAREST  = 0,
    JV_FILTER_BILINEAR = 1
};

enum jv_wrap {
    JV_WRAP_BORDER = 0,
    JV_WRAP_REPEAT = 1
};

/* ---- Words ------------------------------------------------------------------------------------------------------- */

/* A word taken apart. Fields that the command does not have are 0. */
typedef struct { uint32_t number, command, a, b, c, d, e; } jv_word;

/* A word put together. */
typedef struct { uint32_t number, bits; } jv_bits;

/* Reads one word of a display list.
 *
 * bits: the word as a number, from its four bytes with the lowest byte first.
 *
 * Returns
 *   number:   JV_DONE        the word is valid
 *             JV_NO_COMMAND  the top two bits are 11, or the top byte is 0x2E to 0x3F
 *             JV_NO_MEANING  a field has an invalid value
 *   command:  an enum jv_command; 0 unless number is JV_DONE
 *   a to e:   its fields; 0 unless number is JV_DONE
 *
 * Only the word itself is checked. jv_check says whether a list can use and draw it.
 *
 *   jv_read_word(0x40F00110)  returns  { 0, JV_VERTEX2F, 480, 272, 0, 0, 0 }
 *   jv_read_word(0x1C801800)  returns  { 12, 0, 0, 0, 0, 0, 0 }: the scissor is 2049 wide
 */
jv_word jv_read_word(uint32_t bits);

/* Writes one word of a display list.
 *
 * command, a to e: the command and its fields. Pass 0 for the fields that the command does not have.
 *
 * Returns
 *   number:  JV_DONE        jv_read_word reads back the same command and fields
 *            JV_NO_COMMAND  there is no such command, whatever the fields are
 *            JV_NO_MEANING  a field has an invalid value or does not fit its bits, or a field that the command does not
 *                           have is not 0
 *   bits:    the word; 0 unless number is JV_DONE
 *
 *   jv_write_word(JV_SCISSOR_SIZE, 80, 60, 0, 0, 0)  returns  { 0, 0x1C05003C }
 *   jv_write_word(JV_TAG, 256, 0, 0, 0, 0)           returns  { 12, 0 }: a tag has eight bits
 */
jv_bits jv_write_word(uint32_t command, uint32_t a, uint32_t b, uint32_t c, uint32_t d, uint32_t e);

/* ---- Lists -------------------------------------------------------------------------------------------------------
 *
 * A list is 4 to 8192 bytes: words of four bytes, the lowest byte first. Running a list starts at its first word, with
 * every setting at its starting value and no bitmap handle set up, and goes on word by word, or where CALL, RETURN and
 * JUMP lead. It ends at DISPLAY.
 *
 * BITMAPS and POINTS draw at every vertex. RECTS and LINES draw at every second vertex, with the vertex before it.
 * LINE_STRIP draws a line at every vertex but the first, from the vertex before it. Each vertex is placed by the vertex
 * format and the translation at that vertex. A rectangle or a line uses all other settings as they are at its second
 * vertex. BEGIN and END drop a first vertex that has no second one yet. Saving and restoring a context keep it.
 *
 * Lines have round ends. A line covers pixel (x, y) exactly if the point (16 * x, 16 * y), in sixteenths of a pixel, is
 * no further from the segment between its ends than the line width.
 */

/* What a call returns that runs a list, or two. */
typedef struct { uint32_t number, list, place, count; } jv_answer;

/* Checks whether a list draws.
 *
 * Reads list. Of RAM_G only the length is used.
 *
 * list:           4 to 8192 bytes, a multiple of 4.
 * ram_g:          RAM_G, at most 1048576 bytes. The cells of bitmaps must be wholly inside it.
 * width, height:  the frame in pixels, 1 to 800 by 1 to 600.
 * limit:          the step limit: how many words the run may fetch, 1 to 65536.
 *
 * Returns
 *   number:  JV_DONE           the list draws: its run reaches DISPLAY within the step limit
 *            JV_BAD_FRAME, JV_BAD_LIST, JV_BAD_RAM_G, JV_BAD_LIMIT
 *                              the argument is not as said above. They are tested in this order, and nothing was run
 *            a fault number    the run stopped. Each step tests for these in this order:
 *              JV_LIMIT_REACHED  the run has fetched as many words as the step limit allows
 *              JV_PAST_END       the next word would be at or past the end of the list: DISPLAY is missing, or a CALL,
 *                                JUMP or RETURN leads there
 *              JV_NO_COMMAND, JV_NO_MEANING
 *                                jv_read_word refuses the word
 *              JV_NOT_DRAWN      BEGIN with an EDGE_STRIP; BITMAP_LAYOUT with a format other than ARGB1555, L8 and
 *                                RGB565; BITMAP_SIZE with BILINEAR or REPEAT; BITMAP_TRANSFORM_A to F; PALETTE_SOURCE;
 *                                MACRO
 *              JV_FIFTH_CALL     CALL while four calls are open
 *              JV_NO_CALL        RETURN while no call is open
 *              JV_SPLIT_TARGET   CALL or JUMP to an offset that is not a multiple of 4
 *              JV_NO_PRIMITIVE   a vertex while no primitive is begun: before the first BEGIN, or after an END
 *              JV_NO_BITMAP      a vertex of BITMAPS, and one of these is true of its handle: BITMAP_SOURCE,
 *                                BITMAP_LAYOUT or BITMAP_SIZE has not set it in this run; its stride or layout height
 *                                (BITMAP_LAYOUT), or its width or height (BITMAP_SIZE), is 0, high bits included; its
 *                                cell is not wholly inside RAM_G; its format has two bytes a pixel, and its source or
 *                                stride is odd. VERTEX2II has handle and cell as fields, VERTEX2F uses those of
 *                                BITMAP_HANDLE and CELL
 *              JV_FAR_END        a vertex that completes a line, and x or y of one of its ends, after format and
 *                                translation, is outside -32768 to 32767 sixteenths of a pixel
 *   list:    0
 *   place:   with a fault number, the byte offset of the word at fault. With JV_PAST_END and JV_LIMIT_REACHED no word
 *            is at fault, and place is where the run would go on. Otherwise 0
 *   count:   how many words the run fetched, DISPLAY or the word at fault included. A word that is fetched twice counts
 *            twice. 0 if nothing was run
 *
 *   static const uint8_t clear_screen[] = {
 *       0x00, 0x00, 0xFF, 0x02,      CLEAR_COLOR_RGB   255, 0, 0
 *       0x07, 0x00, 0x00, 0x26,      CLEAR             1, 1, 1
 *       0x00, 0x00, 0x00, 0x00,      DISPLAY
 *   };
 *   jv_check(clear_screen, 12, NULL, 0, 480, 272, 65536)  returns  { 0, 0, 0, 3 }
 *   jv_check(clear_screen, 8, NULL, 0, 480, 272, 65536)   returns  { 10, 0, 8, 2 }: DISPLAY is missing
 *   jv_check(clear_screen, 12, NULL, 0, 480, 272, 2)      returns  { 19, 0, 8, 2 }
 *   jv_check(clear_screen, 12, NULL, 0, 801, 272, 65536)  returns  { 1, 0, 0, 0 }
 */
jv_answer jv_check(const uint8_t *list, size_t list_length, const uint8_t *ram_g, size_t ram_g_length, uint32_t width,
                   uint32_t height, uint32_t limit);

/* ---- Pictures ----------------------------------------------------------------------------------------------------
 *
 * A picture has three bytes a pixel: red, green and blue. The tags have one byte a pixel and say what is touched there.
 * Pixels go from left to right, rows from top to bottom, without gaps: pixel (x, y) of a frame has its red at
 * 3 * (y * width + x) and its tag at y * width + x.
 *
 * jv_paint, jv_paint_row and jv_repaint use less than 200,000 bytes of stack.
 */

/* Draws a frame.
 *
 * Reads list and RAM_G. Writes picture and tags.
 *
 * list, ram_g, width, height, limit:  as in jv_check; RAM_G has the bytes of the bitmaps.
 * picture:                            3 * width * height bytes.
 * tags:                               width * height bytes.
 *
 * Returns what jv_check returns, and JV_BAD_FRAME, which is tested first, also if picture or tags have the wrong
 * length. With JV_DONE every byte of both is written; what they held before plays no part, because colour, tag, alpha
 * and stencil all start at 0. With every other number both are unchanged.
 *
 *   static uint8_t picture[3 * 480 * 272], tags[480 * 272];
 *   jv_paint(clear_screen, 12, NULL, 0, 480, 272, 65536, picture, sizeof picture, tags, sizeof tags)
 *       returns { 0, 0, 0, 3 }; every pixel of the picture is 255, 0, 0, and every tag 0
 *   jv_paint(clear_screen, 8, NULL, 0, 480, 272, 65536, picture, sizeof picture, tags, sizeof tags)
 *       returns { 10, 0, 8, 2 }: DISPLAY is missing, and the picture is still red
 *   jv_paint(clear_screen, 12, NULL, 0, 480, 272, 65536, picture, sizeof picture, NULL, 0)
 *       returns { 1, 0, 0, 0 }: the tags have the wrong length
 */
jv_answer jv_paint(const uint8_t *list, size_t list_length, const uint8_t *ram_g, size_t ram_g_length, uint32_t width,
                   uint32_t height, uint32_t limit, uint8_t *picture, size_t picture_length, uint8_t *tags,
                   size_t tags_length);

/* Draws one row of a frame: the bytes that jv_paint writes for that row.
 *
 * Reads list and RAM_G. Writes picture and tags, which hold this row only.
 *
 * list, ram_g, width, height, limit:  as in jv_paint.
 * row:                                0 at the top, to height - 1.
 * picture:                            3 * width bytes.
 * tags:                               width bytes.
 *
 * Returns what jv_paint returns, and JV_BAD_FRAME also if row is not below height.
 *
 *   uint8_t picture[3 * 480], tags[480];
 *   jv_paint_row(clear_screen, 12, NULL, 0, 480, 272, 271, 65536, picture, sizeof picture, tags, sizeof tags)
 *       returns { 0, 0, 0, 3 }: the last row is drawn
 *   jv_paint_row(clear_screen, 12, NULL, 0, 480, 272, 272, 65536, picture, sizeof picture, tags, sizeof tags)
 *       returns { 1, 0, 0, 0 }: there is no row 272
 */
jv_answer jv_paint_row(const uint8_t *list, size_t list_length, const uint8_t *ram_g, size_t ram_g_length,
                       uint32_t width, uint32_t height, uint32_t row, uint32_t limit, uint8_t *picture,
                       size_t picture_length, uint8_t *tags, size_t tags_length);

/* Redraws a frame after an edit of its list, but only the rows that the edit changes, and marks these rows.
 *
 * Reads both lists and RAM_G. Writes marks, and the marked rows of picture and tags.
 *
 * old_list, new_list:           the list before and after the edit. They may be the same bytes.
 * ram_g, width, height, limit:  as in jv_paint, for both lists.
 * picture:                      3 * width * height bytes.
 * tags:                         width * height bytes.
 * marks:                        height bytes, one for each row.
 *
 * A row is marked exactly if what draws in it differs between the two lists. What draws in a row are the CLEARs,
 * points, lines, rectangles and bitmaps that cover at least one pixel of it inside frame and scissor, even if tests and
 * masks then change nothing. A CLEAR without a flag covers no pixel. They are compared in order, by the values that
 * they draw with:
 *
 *   CLEAR        flags, scissor, clear values (colour, alpha, stencil, tag) and masks (colour, stencil, tag)
 *   the others   what it is and where it is, scissor, colour, alpha, alpha test, stencil test, stencil actions, blend
 *                factors, masks and tag. A point is at its centre, with its size. A rectangle is between its corners,
 *                in either order, with its line width. A line goes from its first end to its second, in this order,
 *                with its line width. All these are in sixteenths of a pixel, after the translation. A bitmap has its
 *                top left pixel, its drawn width and height, the start of its cell in RAM_G, its format, stride and
 *                layout height. A line of LINES and a line of LINE_STRIP differ.
 *
 * So a changed word marks the rows of everything that draws with the value it sets, however much later in the list. A
 * word that nothing draws with marks no row: a NOP, a setting that had this value already, another handle that draws
 * the same bytes in the same way. A value that differs marks its rows even if the pixels come out equal: the reference
 * of a test that always passes, or two shapes side by side that are drawn in the other order.
 *
 * Returns
 *   number:  JV_DONE           both lists draw. A mark is 1 for a marked row and 0 for any other. Marked rows have the
 *                              picture and the tags that jv_paint draws for the new list. Other rows are unchanged;
 *                              both lists draw the same in them. So a frame that held the old list's picture and tags
 *                              now holds the new list's
 *            JV_BAD_FRAME, JV_BAD_LIST, JV_BAD_RAM_G, JV_BAD_LIMIT
 *                              the argument is not as said in jv_check, tested in this order, JV_BAD_LIST first for
 *                              the old list. JV_BAD_FRAME also if picture, tags or marks have the wrong length
 *            a fault number    the old list does not draw, or it does and the new list does not
 *   list:    with JV_BAD_LIST and with a fault number, which list it is: 1 the old one, 2 the new one. Otherwise 0
 *   place:   with a fault number, as in jv_check. Otherwise 0
 *   count:   with JV_DONE, how many rows are marked; with a fault number, as in jv_check. Otherwise 0
 *
 * With every number but JV_DONE picture, tags and marks are unchanged.
 *
 * RAM_G is the same for both lists. If its bytes change, draw the frame again with jv_paint.
 *
 *   static const uint8_t red_pixel[] = {
 *       0x00, 0x00, 0xFF, 0x04,      COLOR_RGB    255, 0, 0
 *       0x00, 0x00, 0x00, 0x0D,      POINT_SIZE   0
 *       0x02, 0x00, 0x00, 0x1F,      BEGIN        POINTS
 *       0x00, 0x10, 0x20, 0x80,      VERTEX2II    1, 1, 0, 0
 *       0x00, 0x00, 0x00, 0x00,      DISPLAY
 *   };
 *   static const uint8_t blue_pixel[] = { 0xFF, 0x00, 0x00, 0x04, and so on as above };
 *   static uint8_t picture[3 * 4 * 4], tags[4 * 4], marks[4];
 *   jv_repaint(red_pixel, 20, blue_pixel, 20, NULL, 0, 4, 4, 65536, picture, sizeof picture, tags, sizeof tags, marks,
 *              sizeof marks)
 *       returns { 0, 0, 0, 1 }; marks are 0, 1, 0, 0, row 1 is black, blue, black, black, the other rows are unchanged
 *   jv_repaint(red_pixel, 20, blue_pixel, 16, NULL, 0, 4, 4, 65536, picture, sizeof picture, tags, sizeof tags, marks,
 *              sizeof marks)
 *       returns { 10, 2, 16, 4 }: DISPLAY is missing in the new list
 *   jv_repaint(red_pixel, 18, blue_pixel, 20, NULL, 0, 4, 4, 65536, picture, sizeof picture, tags, sizeof tags, marks,
 *              sizeof marks)
 *       returns { 2, 1, 0, 0 }: the length of the old list is not a multiple of 4
 */
jv_answer jv_repaint(const uint8_t *old_list, size_t old_list_length, const uint8_t *new_list, size_t new_list_length,
                     const uint8_t *ram_g, size_t ram_g_length, uint32_t width, uint32_t height, uint32_t limit,
                     uint8_t *picture, size_t picture_length, uint8_t *tags, size_t tags_length, uint8_t *marks,
                     size_t marks_length);

/* ---- The ring ----------------------------------------------------------------------------------------------------
 *
 * The panel's coprocessor takes its commands from a ring that the host writes. It puts display list words into RAM_DL,
 * works on RAM_G, and shows RAM_DL at a swap. Here these are buffers of the caller:
 *
 *   ring     RAM_CMD, 4096 bytes
 *   ram_dl   RAM_DL, the list that is being written, 8192 bytes
 *   shown    the list that was shown last, 8192 bytes: what jv_check and jv_paint read
 *   ram_g    RAM_G, 0 to 1048576 bytes
 *
 * Words have their lowest byte first. Four marks are the state of the ring. They belong to the caller too: pass each
 * call the marks that the call before it returned.
 *
 *   read     byte offset in the ring of the next command: 0 to 4092, a multiple of 4
 *   write    byte offset in the ring of the host's next word: 0 to 4092, a multiple of 4. The words from read up to
 *            write are waiting; after the last word of the ring comes the first. If read and write are equal, none is
 *            waiting, so at most 4092 bytes can wait
 *   offset   byte offset in RAM_DL of the next word: 0 to 8192, a multiple of 4. At 8192 RAM_DL is full
 *   fault    0, or 1 after a fault. Every other value means a fault too
 *
 * A word whose top byte is not 0xFF is a command by itself, whatever it is: it goes to RAM_DL, and offset goes up by
 * 4. The other commands, with the words that follow them as parameters:
 *
 *   0xFFFFFF00   DLSTART                           offset becomes 0
 *   0xFFFFFF01   SWAP                              copies RAM_DL to shown, all of it; RAM_DL and offset stay
 *   0xFFFFFF1B   MEMSET    address, value, count   sets count bytes of RAM_G to the low byte of value
 *   0xFFFFFF1C   MEMZERO   address, count          sets count bytes of RAM_G to 0
 *   0xFFFFFF1D   MEMCPY    target, source, count   copies count bytes of RAM_G from source to target, as memmove does
 *   0xFFFFFF1E   APPEND    address, count          copies count bytes of RAM_G to RAM_DL, and offset goes up by count
 *   0xFFFFFF32   COLDSTART                         does nothing yet
 *
 * Addresses are byte offsets in RAM_G and need not be multiples of 4. Counts are in bytes.
 */

/* What a call of the ring returns: the result, and the four marks after it.
 *
 *   number:    an enum jv_ring_number
 *   place:     with a ring fault, the byte offset in the ring of the command at fault. Otherwise 0
 *   count:     how many commands a run took; each word that goes to RAM_DL is one. A command at fault and a command
 *              that lacks parameters do not count. 0 if nothing was run
 *   reported:  what the panel shows as the read mark (REG_CMD_READ): 0xFFF if fault is not 0, otherwise read
 */
typedef struct {
    uint32_t number, place, count, reported;
    uint32_t read, write, offset, fault;
} jv_ring;

/* Runs the ring: takes the waiting commands one after the other, until there is a reason to stop.
 *
 * Reads ring. Reads and writes ram_dl and ram_g. Writes shown.
 *
 * read, write, offset, fault: the four marks.
 *
 * Returns, tested in this order,
 *   number:  JV_RING_BAD_RUN    ring is not 4096 bytes long, ram_dl or shown not 8192, or ram_g longer than 1048576
 *            JV_RING_BAD_MARK   read, write or offset is out of range or not a multiple of 4
 *            JV_RING_FAULTY     fault is not 0
 *   and then, at each command,
 *            JV_RING_IDLE       no command is waiting any more
 *            JV_RING_UNKNOWN    the top byte is 0xFF, and it is not one of the commands above
 *            JV_RING_WAITING    not all of its parameters are in the ring. read stays at it, and fault stays 0. Write
 *                               the rest; the next run starts with this command again
 *            JV_RING_BAD_RANGE  address plus count (for MEMCPY target plus count, or source plus count) is above the
 *                               length of RAM_G. The sum does not wrap, and a count of 0 is tested too. Or APPEND's
 *                               count is not a multiple of 4
 *            JV_RING_LIST_FULL  RAM_DL has no room for the word, or for all that APPEND copies
 *            JV_RING_SWAPPED    SWAP was taken. The next run starts with the command after it
 *
 * A command that is taken moves read past it and its parameters, wrapping at the end of the ring. DLSTART, APPEND and
 * words that go to RAM_DL move offset. write stays. At most 1023 words wait, so a run takes at most 1023 commands.
 *
 * A ring fault sets fault to 1. The command at fault has no effect, and read stays at it; the commands before it keep
 * their effect. From then on jv_ring_run and jv_ring_write return JV_RING_FAULTY until jv_ring_reset.
 *
 * With a ring refusal all buffers are unchanged, and the marks are those passed.
 */
jv_ring jv_ring_run(const uint8_t *ring, size_t ring_length, uint8_t *ram_dl, size_t ram_dl_length, uint8_t *shown,
                    size_t shown_length, uint8_t *ram_g, size_t ram_g_length, uint32_t read, uint32_t write,
                    uint32_t offset, uint32_t fault);

/* Writes the host's words into the ring, after those that are waiting.
 *
 * Reads words. Writes ring.
 *
 * words:                       commands or parts of commands; may be empty.
 * read, write, offset, fault:  the four marks.
 *
 * Returns, tested in this order,
 *   number:  JV_RING_BAD_RUN   the ring is not 4096 bytes long, or the length of words is not a multiple of 4
 *            JV_RING_BAD_MARK  read, write or offset is out of range or not a multiple of 4
 *            JV_RING_FAULTY    fault is not 0
 *            JV_RING_NO_ROOM   words is longer than the room: 4092 bytes, less those that are waiting
 *            JV_RING_IDLE      the words are in the ring, from the old write mark on, wrapping at the end of the ring,
 *                              and write has moved past them. The other bytes of the ring and the other marks are
 *                              unchanged
 *   place, count:  0
 *
 * With a ring refusal the ring is unchanged, and the marks are those passed.
 */
jv_ring jv_ring_write(uint8_t *ring, size_t ring_length, const uint8_t *words, size_t words_length, uint32_t read,
                      uint32_t write, uint32_t offset, uint32_t fault);

/* Resets the ring, at the start or after a fault: returns JV_RING_IDLE, and 0 for everything else, so that nothing is
 * waiting. Touches no buffer.
 *
 *   static uint8_t ring[4096], ram_dl[8192], shown[8192], ram_g[65536];
 *   static const uint8_t words[] = {
 *       0x00, 0xFF, 0xFF, 0xFF,      DLSTART
 *       0x00, 0x00, 0xFF, 0x02,      CLEAR_COLOR_RGB   255, 0, 0
 *       0x07, 0x00, 0x00, 0x26,      CLEAR             1, 1, 1
 *       0x00, 0x00, 0x00, 0x00,      DISPLAY
 *       0x01, 0xFF, 0xFF, 0xFF,      SWAP
 *       0x1C, 0xFF, 0xFF, 0xFF,      MEMZERO, without its parameters
 *   };
 *   jv_ring a = jv_ring_reset();
 *   a = jv_ring_write(ring, sizeof ring, words, sizeof words, a.read, a.write, a.offset, a.fault);
 *       returns { 0, 0, 0, 0, 0, 24, 0, 0 }
 *   a = jv_ring_run(ring, sizeof ring, ram_dl, sizeof ram_dl, shown, sizeof shown, ram_g, sizeof ram_g, a.read,
 *                   a.write, a.offset, a.fault);
 *       returns { 31, 0, 5, 20, 20, 24, 12, 0 }; shown starts with the list of a red screen. The same call again
 *       returns { 30, 0, 0, 20, 20, 24, 12, 0 }; the host writes MEMZERO's parameters and runs the ring again
 */
jv_ring jv_ring_reset(void);

#ifdef __cplusplus
}
#endif

#endif
