#define _POSIX_C_SOURCE 200809L

#include "death.h"

#include <signal.h>
#include <stdbool.h>
#include <stddef.h>
#include <stdio.h>
#include <string.h>
#include <unistd.h>

enum { SEED_DIGITS = 16 };

static const int signals[] = { SIGSEGV, SIGBUS, SIGFPE, SIGILL, SIGABRT, SIGINT, SIGTERM };
enum { SIGNALS = sizeof signals / sizeof signals[0] };

static struct sigaction before[SIGNALS];

static char last_words[1024];
static size_t length;

/* There only in a program that was built with a sanitizer. */
void __sanitizer_set_death_callback(void (*callback)(void)) __attribute__((weak));

/* Nothing else is safe in a program that dies; if not even this is heard, there is nobody left to tell. */
static void say_last_words(void)
{
    ssize_t written = write(STDOUT_FILENO, last_words, length);
    (void)written;
}

/* Whoever was to take the signal before takes it afterwards. What the program itself did wrong it does again when this
   ends; what came from outside has to be sent again. */
static void take_signal(int number)
{
    say_last_words();
    for (size_t n = 0; n < SIGNALS; n++)
        if (signals[n] == number)
            sigaction(number, &before[n], NULL);
    if (number == SIGINT || number == SIGTERM)
        raise(number);
}

static void take_signals(void)
{
    static bool are_taken = false;
    struct sigaction now = { .sa_handler = take_signal };
    for (size_t n = 0; n < SIGNALS && !are_taken; n++)
        sigaction(signals[n], &now, &before[n]);
    are_taken = true;
}

void prepare_for_death(const char *command)
{
    int put = snprintf(last_words, sizeof last_words, "\nthis case came to a bad end\nto repeat it:  %s0x%0*d\n",
                       command, SEED_DIGITS, 0);
    length = put > 0 && (size_t)put < sizeof last_words ? (size_t)put : 0;
    take_signals();
    if (__sanitizer_set_death_callback != NULL)
        __sanitizer_set_death_callback(say_last_words);
}

/* Digit by digit, before the last byte, which ends the line: this is done for every case. */
void note_seed(uint64_t seed)
{
    for (size_t n = 0; n < SEED_DIGITS && length > SEED_DIGITS; n++, seed >>= 4)
        last_words[length - 2 - n] = "0123456789ABCDEF"[seed & 0xF];
}
