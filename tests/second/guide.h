/* The guide's commands as one table, and what reading and writing a word should give by that table. It is written from
   the guide's chapter 4 and document 01's row 12, apart from the library, so that a mistake in one shows against the
   other. */
#ifndef GUIDE_H
#define GUIDE_H

#include <stdbool.h>
#include <stdint.h>

#include "jokulvisp.h"

enum { COMMANDS = 48, FIELDS = 5 };

/* What a field's number stands for. It decides which numbers have a meaning. */
typedef enum { PLAIN, TEST, ACTION, FACTOR, PRIMITIVE, FORMAT, FRAC, SCISSOR } kind;

typedef enum { UNSIGNED, SIGNED } sign;

typedef struct {
    const char *name;
    unsigned high, low;
    sign sign;
    kind kind;
} field;

typedef struct {
    const char *name;
    uint32_t command;
    unsigned fields;
    field field[FIELDS];
} entry;

/* A command and its fields, as jv_write_word takes them. */
typedef struct {
    uint32_t command;
    uint32_t field[FIELDS];
} instruction;

extern const entry guide[COMMANDS];

/* The entry of a command, or NULL where there is no such command. */
const entry *find_entry(uint32_t command);

/* The command that a word's top bits name, whether or not there is such a command. */
uint32_t command_of(uint32_t bits);

/* The least and the largest number that the field's bits can hold, and the least and the largest with a meaning. */
uint32_t least_held(const field *f);
uint32_t largest_held(const field *f);
uint32_t least_meant(const field *f);
uint32_t largest_meant(const field *f);

bool is_held(const field *f, uint32_t value);
bool is_meant(const field *f, uint32_t value);

instruction instruct(uint32_t command, uint32_t a, uint32_t b, uint32_t c, uint32_t d, uint32_t e);

/* The answers that give something, and those that refuse. */
jv_word as_word(instruction i);
jv_bits as_bits(uint32_t bits);
jv_word refused_word(uint32_t number);
jv_bits refused_bits(uint32_t number);

/* What jv_read_word and jv_write_word should give. */
jv_word guide_read(uint32_t bits);
jv_bits guide_write(instruction i);

/* The word that has these fields in its bits, whether or not they have a meaning; each is cut to its bits. */
uint32_t place_fields(const entry *e, const uint32_t value[FIELDS]);

#endif
