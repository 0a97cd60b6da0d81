// What the files of the driver share.
#ifndef DRIVER_H
#define DRIVER_H

#include "totlog.h"

#include <stdbool.h>
#include <stdio.h>

// ---- numbers.c: byte strings, and the numbers of scripts and logs

#define QUOTED(x) #x
#define IN_WORDS(x) QUOTED(x) // a limit of totlog.h, in messages
#define NUMBER_RANGE "a number from 0 to " IN_WORDS(TOTLOG_MOST_NUMBER)

struct bytes {
    uint8_t *at;
    size_t length, room;
};

void put_byte(struct bytes *b, uint8_t byte);
void put_number(struct bytes *b, uint32_t number);

struct reader { // `at` is the first byte not read; after a failed read, the byte that did not, and `fault` says why
    const uint8_t *bytes;
    size_t length, at;
    const char *fault;
};

bool read_number(struct reader *r, uint32_t *number);

// ---- text.c: scripts as bytes and as text

enum { MOST_PARTS = 6 }; // numbers after a command's code

struct command {
    const struct form *form; // null where no code of a command was read
    uint32_t code;
    int count; // numbers read after the code
    uint32_t numbers[MOST_PARTS];
};

// The head where `place` is 0, else a command. What was read before a fault is in `c`.
bool read_command(struct reader *script, uint32_t place, struct command *c);
// What the number that did not read would have been.
const char *part_wanted(const struct command *c);
void print_command(FILE *to, const struct command *c);
// A decimal number up to TOTLOG_MOST_NUMBER.
bool parse_number(const char *word, size_t length, uint32_t *number);
// The script that a text stands for. A fault of the text goes to standard error.
bool assemble(const char *name, const struct bytes *text, struct bytes *script);
// The text of a script, to standard output; a script that does not read goes to standard error alone.
bool disassemble(const char *name, const struct bytes *script);
// The line that the command at a place stands on, from 1. The text has been assembled.
unsigned long line_of(const struct bytes *text, uint32_t place);

// ---- records.c: the records of a log. False where a record does not read.

bool print_records(struct reader log, uint32_t first_step, uint32_t steps);
bool print_hex(struct reader log);
bool print_cnf(struct reader log);

// ---- refusal.c: why a script was refused, in a sentence

enum { NUMBER, PLACE, LOG_BYTES, STEPS, CLAUSES, NODES, NUMBERS }; // of the answer

void explain(FILE *to, const uint32_t answer[NUMBERS], const struct bytes *script, size_t log_size);

#endif
