/* runs.h - runs of programs: the processor time that they take, and the least stack limit with which they print what they should. */
#ifndef RUNS_H
#define RUNS_H

#include "../tests/reference/reference.h"

#include <stdio.h>

enum { MOST_REPEATS = 10001, MOST_COMMANDS = 4, MOST_TEXT = REF_PAGE + 1 };

/* A program and what it is given: its name, its arguments, and a null pointer. */
struct command {
    const char *path, *argument[4];
};

/* Ends the bench with status 2 if the system, or a program, does not do what it must. */
void must(int good, const char *what);

/* A file with the ticket of a job, or with nothing. */
FILE *ticket_file(const struct ref_job *job);

/* Medians of the processor time of the commands, user and system together, in microseconds; each less that of the same command on the empty ticket,
 * which is refused at once. They run in turn, and what they print is thrown away. */
void measure(const struct command *command, unsigned how_many, FILE *ticket, FILE *empty, unsigned repeats, double *took);

/* What a command prints with a stack of at most so many bytes, up to MOST_TEXT; 0 if it does not end as it should. */
enum { LARGEST_STACK = 1 << 22 };
size_t output_of(const struct command *command, FILE *ticket, size_t stack, uint8_t *text);

/* The least stack limit with which a command prints the same as with the largest, each time, in steps of a page of memory. */
size_t least_stack(const struct command *command, FILE *ticket);

#endif
