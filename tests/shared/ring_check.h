/* The ring's calls as the tests make them: by the library and by the second program (ringer.c), on runs that stand
   between bytes that nobody lent. */
#ifndef RING_CHECK_H
#define RING_CHECK_H

#include <stdbool.h>
#include <stddef.h>
#include <stdint.h>

#include "../second/ringer.h"
#include "jokulvisp.h"

enum { MOST_WAITING_WORDS = JV_MAX_WAITING / 4, REPORTED_FAULT = 0xFFF };

/* Numbers are below this. */
enum { RING_NUMBERS = JV_RING_NO_ROOM + 1 };

typedef enum { RUN_RING, WRITE_RING, RESET_RING, RING_CALLS } ring_call;

extern const char *const ring_call_names[RING_CALLS];

/* One of the two programs. */
typedef struct {
    const char *name; /* stands before the name of a call */
    jv_ring (*run)(const ring_run_request *request);
    jv_ring (*write)(const ring_write_request *request);
    jv_ring (*reset)(void);
} ring_program;

extern const ring_program ring_library, ring_second_program;

bool are_equal_ring_answers(jv_ring a, jv_ring b);
ring_marks marks_of(jv_ring a);

/* ---- What is lent ---- */

typedef enum { THE_RING, RAM_DL, SHOWN, RAM_G, RING_RUNS } ring_run;

/* The four runs. One without a byte is NULL. */
typedef struct {
    uint8_t *bytes[RING_RUNS];
    size_t length[RING_RUNS];
    uint8_t *block[RING_RUNS]; /* with the bytes around them */
} lent_ring;

/* Gives runs of these lengths, each full of bytes of its own. */
lent_ring lend_ring(const size_t length[RING_RUNS]);

void take_ring_back(lent_ring *lent);

/* Whether the bytes around the runs are as they were. */
bool is_ring_kept_inside(const lent_ring *lent);

/* Whether two runs of one length are the same. */
bool are_equal_ring_runs(const lent_ring *a, const lent_ring *b, ring_run run);

ring_run_request lending_for_run(const lent_ring *lent, ring_marks marks);
ring_write_request lending_for_write(const lent_ring *lent, const uint8_t *words, size_t words_length,
                                     ring_marks marks);

/* ---- Commands ---- */

/* What a word is where a command starts. */
typedef enum {
    PLAIN_WORD,
    A_DLSTART,
    A_SWAP,
    A_COLDSTART,
    A_MEMSET,
    A_MEMZERO,
    A_MEMCPY,
    AN_APPEND,
    NO_COMMAND,
    RING_COMMANDS
} ring_command;

ring_command ring_command_of(uint32_t word);
const char *name_of_ring_command(ring_command command);

/* How many words it has with its parameters. */
uint32_t words_of_ring_command(ring_command command);

/* ---- What is told ---- */

void print_ring_answer(const char *before, jv_ring a);

/* The marks, the lengths and, where the marks and the ring are good, the commands that wait. */
void print_ring(const lent_ring *lent, ring_marks marks);

/* Where each run first differs from what is wanted of it. */
void print_ring_differences(const lent_ring *came, const lent_ring *wanted);

#endif
