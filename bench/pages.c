/* pages.c - what a page costs: the program `page` beside the program `plan`, in time and in stack.
 *
 * usage: pages PLAN PAGE [REPEATS]
 * Runs both programs in turn on the jobs of full size and on an empty ticket, which is refused at once, REPEATS times each (default 201), with what
 * they print thrown away. Prints medians of their processor time, each less the median of the same program on the empty ticket, as a table in
 * markdown; then the least stack limit with which each prints the longest job. Exit 1 if the call with a page takes more than 64 KB more stack. */
#include "../tests/draw.h"
#include "jobs.h"
#include "runs.h"

#include <stdlib.h>
#include <string.h>

enum { MORE_STACK = 65536 };
enum program { PLAN, PAGE, PROGRAMS };

static struct command program[PROGRAMS] = {{NULL, {"plan"}}, {NULL, {"page"}}};
static const size_t text_buffer[PROGRAMS] = {128, REF_PAGE};   /* what the program has for what it prints */

/* ---- Time ---- */

static size_t page_length(const struct ref_job *job)
{
    static uint8_t ticket[REF_TICKET], sheet[2][REF_SHEET], page[REF_PAGE];
    size_t n = ref_write_ticket(job, ticket, sizeof ticket);
    struct ref_paged paged;

    must(ref_page(ticket, n, job->stop, sheet[0], REF_SHEET, sheet[1], REF_SHEET, page, REF_PAGE, &paged) == 0,
         "the reference refuses a job");
    return paged.length;
}

static void times(unsigned repeats)
{
    static struct ref_job job;
    FILE *empty = ticket_file(NULL);

    printf("| job | plan, us | page, us | ratio | page, bytes |\n|---|---|---|---|---|\n");
    for (unsigned k = 0; k < FULL_SIZE; k++) {
        struct shape s = full_shape(k);
        double took[PROGRAMS];
        FILE *ticket;

        make_job(&s, &job);
        ticket = ticket_file(&job);
        measure(program, PROGRAMS, ticket, empty, repeats, took);
        print_full(&s);
        printf(" %.0f | %.0f | %.2f | %zu |\n", took[PLAN], took[PAGE], took[PAGE] / took[PLAN], page_length(&job));
        fflush(stdout);
        fclose(ticket);
    }
    fclose(empty);
}

/* ---- Stack ---- */

/* The least that is enough for the longest job; of a page, the longest. */
static size_t stack_of(enum program p, FILE *ticket)
{
    static uint8_t text[MOST_TEXT];
    size_t n = output_of(&program[p], ticket, LARGEST_STACK, text);

    must(p == PAGE ? n == REF_PAGE : n > strlen("refused 26\n"), "the longest job is not printed");
    return least_stack(&program[p], ticket);
}

/* 1 if the call with a page takes more stack than is asked. */
static int stacks(void)
{
    struct chance c = chance_for(1, 0);
    static struct ref_job job;
    long rest[PROGRAMS], more;
    FILE *ticket;

    draw_longest(&c, &job);
    ticket = ticket_file(&job);
    printf("\n| program | least stack, bytes | its buffer for the text | the rest |\n|---|---|---|---|\n");
    for (int p = 0; p < PROGRAMS; p++) {
        size_t least = stack_of((enum program)p, ticket);

        rest[p] = (long)least - (long)text_buffer[p];
        printf("| `%s` | %zu | %zu | %ld |\n", program[p].argument[0], least, text_buffer[p], rest[p]);
    }
    fclose(ticket);
    more = rest[PAGE] - rest[PLAN];
    printf("\nThe call with a page takes %ld bytes of stack more than `plan` (at most %d asked).\n", more, MORE_STACK);
    return more > MORE_STACK;
}

int main(int argc, char **argv)
{
    unsigned repeats = argc > 3 ? (unsigned)strtoul(argv[3], NULL, 10) : 201;

    must(argc > 2 && repeats > 0 && repeats <= MOST_REPEATS, "usage: pages PLAN PAGE [REPEATS]");
    program[PLAN].path = argv[1];
    program[PAGE].path = argv[2];
    times(repeats);
    return stacks();
}
