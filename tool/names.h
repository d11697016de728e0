/* What the guide calls commands, fields and values, and where in a word each field lies. The table serves names and
   messages; whether a word can be read or written, jv_read_word and jv_write_word say. */
#ifndef NAMES_H
#define NAMES_H

#include <stdbool.h>
#include <stddef.h>
#include <stdint.h>

enum { MOST_FIELDS = 5 };

/* The values that are valid in some field. Where they have names, value n is called names[n], and NULL stands for an n
   that is invalid; where they have none, they are the numbers up to `most`. */
typedef struct {
    const char *noun; /* what each of them is; NULL where they have no names */
    const char *const *names;
    uint32_t most;
} value_set;

/* A target is a place in the list, for which a label can stand. */
typedef enum { UNSIGNED, SIGNED, TARGET } field_kind;

typedef struct {
    const char *name;
    unsigned high, low; /* bits */
    field_kind kind;
    const value_set *values; /* NULL where every number that the bits hold is valid */
} field_names;

typedef struct {
    const char *name;
    uint32_t command;
    field_names field[MOST_FIELDS]; /* in order; those left over have no name */
} command_names;

/* Stands for a word of any 32 bits. It is no command, and in no table of them. */
extern const command_names any_word;

/* Row n of the table, or NULL past its end. */
const command_names *names_at(size_t n);

/* The names of a command, or NULL where there is no such command. */
const command_names *find_names(uint32_t command);

/* The command that a word's top bits name, whether or not there is such a command. */
uint32_t command_in(uint32_t bits);

/* The bits that say which command it is. */
uint32_t command_mask(const command_names *names);

unsigned count_fields(const command_names *names);

/* The bits that belong to a field. */
uint32_t mask_of(const field_names *field);

/* The field's bits in a word, as an unsigned number. */
uint32_t value_in(uint32_t bits, const field_names *field);

/* The least and the largest number that the field's bits can hold. */
int64_t least_value(const field_names *field);
int64_t largest_value(const field_names *field);

/* A value's name, or NULL where it has none. */
const char *find_value_name(const field_names *field, uint32_t value);

/* Whether a number that the field's bits can hold is valid there. */
bool has_meaning(const field_names *field, uint32_t value);

#endif
