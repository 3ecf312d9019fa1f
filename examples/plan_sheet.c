/* plan_sheet.c - reads a ticket from standard input and writes the sheet to run to standard output.
 *
 * usage: plan_sheet [STOP]
 * With a STOP only so many references count, from the first on, and the sheet is for that part of the job; without it all count. Exit 1 if the ticket
 * or the stop is refused, with a line on standard error that says why; 2 for bad usage, or if reading or writing fails. */
#include <planner.h>

#include <stdio.h>
#include <stdlib.h>
#include <string.h>

static int is_number(const char *word)
{
    return word[0] != '\0' && word[strspn(word, "0123456789")] == '\0';
}

int main(int argc, char **argv)
{
    /* One byte more than the longest ticket: a longer input is refused as it would be as a whole. */
    static uint8_t ticket[PLANNER_LONGEST_TICKET + 1];
    static uint8_t sheets[2][PLANNER_LONGEST_SHEET];
    uint8_t counts[4];

    if (argc > 2 || (argc == 2 && !is_number(argv[1]))) {
        fprintf(stderr, "usage: plan_sheet [STOP]\n");
        return 2;
    }
    size_t n = fread(ticket, 1, sizeof ticket, stdin);

    if (ferror(stdin)) {
        perror("reading the ticket");
        return 2;
    }
    /* A number too large for strtoul becomes the largest, which is refused as well. */
    size_t stop = argc == 2 ? strtoul(argv[1], NULL, 10) : planner_references(ticket, n);
    uint32_t number = planner_plan(ticket, n, stop, sheets[0], sizeof sheets[0], sheets[1], sizeof sheets[1], counts, sizeof counts);

    if (number != PLANNER_OK) {
        fprintf(stderr, "refused %u: %s\n", (unsigned)number, planner_why(number));
        return 1;
    }
    unsigned mark = (unsigned)counts[0] << 8 | counts[1];     /* 0: the short sheet, 1: the sparing one */
    size_t length = (size_t)counts[2] << 8 | counts[3];

    if (fwrite(sheets[mark], 1, length, stdout) != length || fflush(stdout) != 0) {
        perror("writing the sheet");
        return 2;
    }
    return 0;
}
