/* The pictures whose painting and repainting is measured: lists that draw on a frame of 800 by 480 pixels, as they are
   and after an edit in the middle of the list. */
#ifndef SCENES_H
#define SCENES_H

#include <stddef.h>
#include <stdint.h>

#include "lists.h"

enum { SCENE_WIDTH = 800, SCENE_HEIGHT = 480 };

/* Writes the list of the scene of this name and gives the number of its words, 0 where there is no such scene:
     shapes   a clear and twenty large points and rectangles, half of them translucent
     map      a clear and 300 small rectangles, each with a colour and a tag of its own
     lines    a clear, twelve strips across the frame, and 96 short lines, of all slopes and many widths
     icons    a clear and 200 icons of 24 by 24 pixels in all three formats
     full     2048 words: state changes, shapes, icons, saves, restores and calls
   and after the edit of this name, or as it is where the name is empty:
     word     one word changed: in shapes and map the colour of a rectangle, in lines that of a short one, in icons and
              full the place of an icon
     action   a BEGIN and an action more, which reaches 24 rows: in shapes and map a rectangle, in lines a line, in the
              others an icon
     colours  every colour changed */
size_t write_scene(const char *name, const char *edit, uint32_t words[MOST_WORDS]);

/* The bytes of the icons. */
void fill_scene_ram_g(uint8_t ram_g[RAM_G_BYTES]);

#endif
