#include "command.h"

#include <string.h>

#include "assemble.h"
#include "check.h"
#include "draw.h"
#include "repaint.h"
#include "words.h"

/* Help is at most 80 columns wide. */

#define RUN_OPTIONS "[-s WIDTHxHEIGHT] [-g RAM_G] [-l LIMIT]"

#define ABOUT_LISTS                                                                                                    \
    "A list is a file of raw display list bytes, the lowest byte of each word first:\n"                                \
    TEXT_OF(JV_MIN_LIST_BYTES) " to " TEXT_OF(JV_MAX_LIST_BYTES) " bytes, a multiple of 4.\n"

#define ABOUT_ANSWERS                                                                                                  \
    "The first line of the answer is one of\n"                                                                         \
    "  done COUNT\n"                                                                                                   \
    "  fault NUMBER at OFFSET after COUNT\n"                                                                           \
    "  refused NUMBER\n"                                                                                               \
    "The next line says what that means. Then comes the word at fault, if there is\n"                                  \
    "one.\n"

#define STATUS_2 "  2  wrong use, or a file cannot be read or written\n"
#define STATUS_2_TIMED "  2  wrong use, a file cannot be read or written, or the time is up\n"

static const command commands[] = {
    {
        .name = "check",
        .run = run_check,
        .options = "sglqh",
        .files = 1,
        .takes = "takes one list",
        .usage = "check " RUN_OPTIONS " [-q] LIST",
        .summary = "check whether a list draws and, if not, what is wrong and where",
        .about = "Runs a display list without drawing it. Prints whether the list draws and, if\n"
                 "not, which word is at fault and why.\n"
                 "\n" ABOUT_ANSWERS "\n" ABOUT_LISTS,
        .examples = "  jokulvisp check panel.list\n"
                    "  jokulvisp check -s 800x480 -g icons.ram_g panel.list\n",
        .status = "  0  the list draws\n"
                  "  1  the list does not draw\n" STATUS_2,
    },
    {
        .name = "draw",
        .run = run_draw,
        .options = "sglotTqh",
        .files = 1,
        .takes = "takes one list",
        .usage = "draw " RUN_OPTIONS " [-q]\n"
                 "                      [--tags TAGS.png] [--timeout SECONDS] -o PICTURE.png LIST",
        .summary = "draw a list as a PNG picture, and its touch areas as another",
        .about = "Draws a display list as a PNG picture, and prints the same answer as check. If\n"
                 "the list does not draw, no file changes.\n"
                 "\n" ABOUT_ANSWERS "\n" ABOUT_LISTS,
        .examples = "  jokulvisp draw -o panel.png panel.list\n"
                    "  jokulvisp draw -g icons.ram_g --tags touch.png -o panel.png panel.list\n",
        .status = "  0  the list is drawn\n"
                  "  1  the list does not draw\n" STATUS_2_TIMED,
    },
    {
        .name = "repaint",
        .run = run_repaint,
        .options = "sglotmTeqh",
        .files = 2,
        .takes = "takes two lists, the old one and the new one",
        .usage = "repaint " RUN_OPTIONS " [-q]\n"
                 "                         [--tags TAGS.png] [--marks MARKS.png]\n"
                 "                         [--timeout SECONDS] [--exit-code]\n"
                 "                         -o PICTURE.png OLD NEW",
        .summary = "draw a list, then repaint only the rows that an edit changes",
        .about = "Draws the old list, then repaints the rows that the new list draws differently.\n"
                 "If one of the lists does not draw, no file changes.\n"
                 "\n"
                 "The answer is 'done COUNT', with the number of rows repainted, and which rows\n"
                 "these are. If a list does not draw, the answer is that of check, with the list's\n"
                 "name.\n"
                 "\n" ABOUT_LISTS,
        .examples = "  jokulvisp repaint -o panel.png before.list after.list\n"
                    "  jokulvisp repaint --marks marks.png -o panel.png before.list after.list\n",
        .status = "  0  both lists draw\n"
                  "  1  one of them does not draw\n" STATUS_2_TIMED
                  "With --exit-code:\n"
                  "  0  both lists draw, and no row is repainted\n"
                  "  1  both lists draw, and a row is repainted\n"
                  "  2  anything else\n",
    },
    {
        .name = "words",
        .run = run_words,
        .options = "sgleh",
        .files = 1,
        .takes = "takes one list",
        .usage = "words " RUN_OPTIONS "\n"
                 "                       [--exit-code] LIST",
        .summary = "print a list as text, word by word",
        .about = "Prints a display list as text, one line for each word: its offset, its bits, the\n"
                 "command, and the fields by name. The answer of check is included as a comment.\n"
                 "assemble turns this text into the same list again.\n"
                 "\n" ABOUT_LISTS,
        .examples = "  jokulvisp words panel.list\n"
                    "  jokulvisp words panel.list >panel.txt\n",
        .status = "  0  the list is printed; with --exit-code, it also draws\n"
                  "  1  the file's length is not that of a list; with --exit-code, also if the\n"
                  "     list does not draw\n" STATUS_2,
    },
    {
        .name = "assemble",
        .run = run_assemble,
        .options = "oqh",
        .files = 1,
        .takes = "takes one text",
        .usage = "assemble [-q] -o LIST TEXT",
        .summary = "make a list out of text",
        .about = "Makes a display list out of text, as words prints it or as written by hand. A\n"
                 "line of it is\n"
                 "\n"
                 "  [label:] [COMMAND field ..] [# comment]\n"
                 "\n"
                 "with fields by name, in any order, or all of them without names in the guide's\n"
                 "order:\n"
                 "\n"
                 "  CLEAR_COLOR_RGB red=255 green=0 blue=0      is the same as\n"
                 "  CLEAR_COLOR_RGB(255, 0, 0)\n"
                 "\n"
                 "A value is a number, 255, 0xFF or -16, or one of the guide's names, as in\n"
                 "BEGIN(POINTS). CALL and JUMP also take a label. reserved=0x.. sets bits that\n"
                 "belong to no field, and WORD 0x.. is any word. A line may end with ';', and\n"
                 "// .. and /* .. */ are comments too.\n"
                 "\n"
                 "Offset and bits before a command, as words prints them, are skipped. If the bits\n"
                 "are not those of the command, there is a warning.\n"
                 "\n"
                 "If the text has errors, up to 20 wrong lines are reported on standard error, and\n"
                 "no list is written.\n",
        .examples = "  jokulvisp assemble -o panel.list panel.txt\n"
                    "  jokulvisp words panel.list | sed 's/red=16/red=32/' |\n"
                    "      jokulvisp assemble -q -o redder.list -\n",
        .status = "  0  the list is written\n"
                  "  1  the text is wrong\n" STATUS_2,
    },
};

static const option_names options[] = {
    { 's', "size", true, "WIDTHxHEIGHT", "the frame in pixels, " SIZE_RANGE ";\nthe default is 480x272" },
    { 'g', "ram-g", true, "RAM_G",
      "a file with the bytes of the graphics memory, at\n"
      "most " TEXT_OF(JV_MAX_RAM_G_BYTES) "; without it no bitmap can be drawn" },
    { 'l', "limit", true, "LIMIT",
      "the step limit: how many words the run may fetch,\n" LIMIT_RANGE "; the default is " TEXT_OF(JV_MAX_LIMIT) },
    { 'o', "output", true, "FILE",
      "the file to write; '-' is standard output, and\n"
      "then the answer goes to standard error" },
    { 't', "tags", false, "TAGS.png",
      "also write the touch areas, as a picture with a\n"
      "palette: the index of a pixel is its tag" },
    { 'm', "marks", false, "MARKS.png",
      "also write the picture with a strip on its left,\n"
      "16 pixels wide, bright beside each repainted row" },
    { 'T', "timeout", false, "SECONDS",
      "give up after this many seconds, " TIMEOUT_RANGE ",\n"
      "and write no file; the default is never" },
    { 'e', "exit-code", false, NULL, "report the result in the exit status, see below" },
    { 'q', "quiet", true, NULL, "print only errors: no answer, warnings, progress" },
    { 'h', "help", true, NULL, "print this" },
};

const command *command_at(size_t n)
{
    return n < sizeof commands / sizeof commands[0] ? &commands[n] : NULL;
}

const option_names *option_at(size_t n)
{
    return n < sizeof options / sizeof options[0] ? &options[n] : NULL;
}

const command *find_command(const char *name)
{
    for (size_t n = 0; command_at(n) != NULL; n++)
        if (strcmp(commands[n].name, name) == 0)
            return &commands[n];
    return NULL;
}

const option_names *find_option(char letter)
{
    for (size_t n = 0; option_at(n) != NULL; n++)
        if (options[n].letter == letter)
            return &options[n];
    return NULL;
}

bool takes_option(const command *c, char letter)
{
    return strchr(c->options, letter) != NULL;
}
