#include "usage.h"

#include <stdio.h>

#include "message.h"

enum { NAME_COLUMNS = 10, OPTION_COLUMNS = 28 };

static void print_summary(const char *name, const char *summary)
{
    printf("  %-*s%s\n", NAME_COLUMNS, name, summary);
}

int print_help(void)
{
    puts("usage: jokulvisp COMMAND [OPTION ..] FILE ..\n"
         "\n"
         "Checks, draws, prints and assembles display lists of FT81x and BT88x panels.\n");
    for (size_t n = 0; command_at(n) != NULL; n++)
        print_summary(command_at(n)->name, command_at(n)->summary);
    print_summary("help", "explain a command, or print this");
    puts("\n"
         "  -h, --help     print this\n"
         "  -V, --version  print the version\n"
         "\n"
         "'jokulvisp help COMMAND' explains a command. The manual is 'man jokulvisp'.");
    return SUCCEEDED;
}

int print_version(void)
{
    puts("jokulvisp " JV_VERSION);
    return SUCCEEDED;
}

/* Every line of the text but the first stands under the first. */
static void print_beside_option(const char *text)
{
    for (; *text != '\0'; text++) {
        putchar(*text);
        if (*text == '\n')
            printf("%*s", OPTION_COLUMNS, "");
    }
    putchar('\n');
}

static void print_option(const option_names *option)
{
    char left[OPTION_COLUMNS + 1], letter[] = { '-', option->letter, ',', ' ', '\0' };
    snprintf(left, sizeof left, "  %s--%s%s%s", option->has_short_name ? letter : "    ", option->name,
             option->value != NULL ? " " : "", option->value != NULL ? option->value : "");
    printf("%-*s", OPTION_COLUMNS, left);
    print_beside_option(option->about);
}

static void print_options(const command *c)
{
    puts("\nOptions:");
    for (size_t n = 0; option_at(n) != NULL; n++)
        if (takes_option(c, option_at(n)->letter))
            print_option(option_at(n));
}

int print_help_of(const command *c)
{
    printf("usage: jokulvisp %s\n\n%s", c->usage, c->about);
    print_options(c);
    printf("\nFor a file to read, '-' is standard input. Use it for one file only.\n");
    printf("\nExamples:\n%s\nExit status:\n%s", c->examples, c->status);
    return SUCCEEDED;
}

int explain_usage(const command *c, const char *what, const char *why)
{
    fputs("jokulvisp: ", stderr);
    if (c != NULL)
        fprintf(stderr, "%s: ", c->name);
    if (what != NULL) {
        print_name(stderr, what);
        fputs(": ", stderr);
    }
    fprintf(stderr, "%s\n", why);
    if (c != NULL)
        fprintf(stderr, "usage: jokulvisp %s\n", c->usage);
    fprintf(stderr, "'jokulvisp help%s%s' says more.\n", c != NULL ? " " : "", c != NULL ? c->name : "");
    return GAVE_UP;
}
