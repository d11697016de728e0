/* One instruction of a text, made into a word. */
#ifndef INSTRUCTION_H
#define INSTRUCTION_H

#include <stdbool.h>
#include <stdint.h>

#include "fault.h"
#include "label.h"
#include "text.h"

/* Makes a word of the line's pieces. If that is not possible, says why and returns false. */
bool make_word(faults *f, const label_table *labels, const text_line *line, uint32_t *bits);

#endif
