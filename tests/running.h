/* running.h - the programs that a test runs, and how the test ends where they differ from the
 * reference. */
#ifndef RUNNING_H
#define RUNNING_H

#include <stdbool.h>
#include <stddef.h>
#include <stdint.h>
#include <stdio.h>

enum { WAIT_SECONDS = 60 };    /* seconds to wait for an answer */

/* What a test runs: the program `cases`, the program of its own, and on which draws. */
extern struct runs {
    const char *test, *cases, *program;
    uint64_t seed, count, first;       /* the draws from the first on */
    int64_t draw;                      /* the one that is tried, or NO_DRAW */
} runs;

enum { NO_DRAW = -1 };

/* Before anything is run: the test's name and its arguments, CASES PROGRAM [SEED [COUNT [FIRST]]]. */
void begin_running(const char *test, int argc, char **argv);

/* After all was run: the status of the test, of what was drawn and whether all that it must meet was met.
 * Draws that begin later, or none, need not meet all. */
int end_running(const char *drawn, bool (*all_met)(void), const char *kinds);

/* Prints how to replay it, ends the program that is running, and ends the test with status 1. */
_Noreturn void fail(void);

/* Ends the test with status 2 if the system does not do what it must. */
void must(bool good, const char *what);

/* One process of the program `cases` has all lines: another one writes them, and this one reads the
 * answers, all of them. */
void try_lines(void (*write_lines)(FILE *), void (*read_answers)(FILE *));

/* As much of a text as fits a line. */
void print_text(const char *who, const uint8_t *text, size_t len);

/* Two answers from the first word on in which they differ. */
void print_words(const char *have, const char *want);

/* The next answer of `cases` must repeat the call and be the reference's answer, which is given; `say` prints
 * the two where they differ. */
const char *same_answer(FILE *file, const char *call, void (*say)(const char *have, const char *want));

/* The whole output of a program for an input, as far as there is room; gives the length. The command is
 * the program's path and its arguments, up to a null pointer. The program must end by itself and with
 * status 0, and write nothing to standard error. Its input comes from a file, so that it need not be read
 * to the end. */
typedef size_t output(const char *const *command, const char *name, const uint8_t *input, size_t length,
                      uint8_t *text, size_t room);
output output_of;

/* The same with the input through a pipe, the second half once the first is read; it must fit a pipe. */
output output_in_two;

/* How many bytes of its input that program has read; 0 if it came through a pipe. */
size_t input_taken(void);

#endif
