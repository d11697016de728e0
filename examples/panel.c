/* Checks and draws a screen, repaints it after an edit, and writes the picture: panel OLD NEW RAM_G >PICTURE.ppm */
#include <jokulvisp.h>
#include <stdio.h>

enum { WIDTH = 480, HEIGHT = 272, LIMIT = JV_MAX_LIMIT };

/* One byte more than is allowed, so that a file that is too long is refused, not cut off. */
static uint8_t old_list[JV_MAX_LIST_BYTES + 1], new_list[JV_MAX_LIST_BYTES + 1], ram_g[JV_MAX_RAM_G_BYTES + 1];
static uint8_t picture[3 * WIDTH * HEIGHT], tags[WIDTH * HEIGHT], marks[HEIGHT];

static size_t load(const char *name, uint8_t *bytes, size_t room)
{
    FILE *file = fopen(name, "rb");
    size_t length = file != NULL ? fread(bytes, 1, room, file) : 0;
    if (file == NULL || fclose(file) != 0)
        perror(name);
    return length;
}

static int is_done(const char *call, jv_answer a)
{
    fprintf(stderr, "%s: %s List %u, byte %u, count %u.\n", call, jv_number_text(a.number), a.list, a.place, a.count);
    return a.number == JV_DONE;
}

int main(int count, char **names)
{
    if (count != 4)
        return fputs("usage: panel OLD NEW RAM_G >PICTURE.ppm\n", stderr), 2;
    size_t o = load(names[1], old_list, sizeof old_list), n = load(names[2], new_list, sizeof new_list);
    size_t g = load(names[3], ram_g, sizeof ram_g);
    if (!is_done("check", jv_check(old_list, o, ram_g, g, WIDTH, HEIGHT, LIMIT)) ||
        !is_done("paint", jv_paint(old_list, o, ram_g, g, WIDTH, HEIGHT, LIMIT, picture, sizeof picture, tags,
                                   sizeof tags)) ||
        !is_done("repaint", jv_repaint(old_list, o, new_list, n, ram_g, g, WIDTH, HEIGHT, LIMIT, picture,
                                       sizeof picture, tags, sizeof tags, marks, sizeof marks)))
        return 1;
    printf("P6\n%d %d\n255\n", WIDTH, HEIGHT);
    return fwrite(picture, sizeof picture, 1, stdout) != 1 || fflush(stdout) != 0;
}
