#include "frame.h"

#include "image.h"
#include "output.h"

typedef bool make_image(png_file *file, const order *o, const frame *f);

typedef struct {
    const char *name;
    make_image *make;
} wanted_image;

size_t pixels_of(const order *o)
{
    return (size_t)o->width * o->height;
}

/* ---- Painting ---- */

static jv_answer paint_row(frame *f, const order *o, const run_input *input, uint32_t row)
{
    const display_list *list = &input->lists[0];
    size_t width = o->width, start = row * width;
    return jv_paint_row(list->bytes, held_bytes(list), input->ram_g, held_ram_g(input), o->width, o->height, row,
                        o->limit, f->picture + 3 * start, 3 * width, f->tags + start, width);
}

/* Each row takes a run of the list, so this is for those who want to see how far it is. */
static jv_answer paint_rows(frame *f, const order *o, const run_input *input)
{
    jv_answer answer = { .number = JV_DONE };
    for (uint32_t row = 0; answer.number == JV_DONE && row < o->height; row++) {
        answer = paint_row(f, o, input, row);
        note_row();
    }
    return answer;
}

jv_answer paint_list(frame *f, const order *o, const run_input *input, stage s)
{
    const display_list *list = &input->lists[0];
    begin_stage(s, o->height);
    if (shows_progress(o))
        return paint_rows(f, o, input);
    return jv_paint(list->bytes, held_bytes(list), input->ram_g, held_ram_g(input), o->width, o->height, o->limit,
                    f->picture, 3 * pixels_of(o), f->tags, pixels_of(o));
}

/* ---- Writing ---- */

static bool make_frame_picture(png_file *file, const order *o, const frame *f)
{
    return make_picture(file, o->width, o->height, f->picture);
}

static bool make_frame_tags(png_file *file, const order *o, const frame *f)
{
    return make_tags(file, o->width, o->height, f->tags);
}

static bool make_frame_marks(png_file *file, const order *o, const frame *f)
{
    return make_marks(file, o->width, o->height, f->picture, f->marks);
}

/* Returns how many there are. */
static size_t list_wanted(const order *o, wanted_image wanted[MOST_OUTPUTS])
{
    size_t count = 0;
    wanted[count++] = (wanted_image){ o->output, make_frame_picture };
    if (o->tags != NULL)
        wanted[count++] = (wanted_image){ o->tags, make_frame_tags };
    if (o->marks != NULL)
        wanted[count++] = (wanted_image){ o->marks, make_frame_marks };
    return count;
}

bool write_frame(const frame *f, const order *o)
{
    static png_file files[MOST_OUTPUTS];
    wanted_image wanted[MOST_OUTPUTS];
    output outputs[MOST_OUTPUTS];
    size_t count = list_wanted(o, wanted);
    for (size_t n = 0; n < count; n++) {
        if (!wanted[n].make(&files[n], o, f))
            return false;
        outputs[n] = (output){ wanted[n].name, files[n].bytes, files[n].length };
    }
    return write_outputs(outputs, count);
}
