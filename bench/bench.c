/* bench.c - what planning, checking and choosing cost, beside the reference.
 *
 * usage: bench [REPEATS [DATA]]
 * Times the library and the reference in turn on the same bytes, with the stop of the whole job, REPEATS times (default 31), and prints medians of
 * times and of ratios as tables in markdown. Writes the figures of the growing jobs to the file DATA. Exit 1 if a ratio is above what is asked of
 * full-size jobs: planning half of the reference's time, checking all of it. */
#include "jobs.h"
#include "stack.h"
#include <planner.h>

#include <stdio.h>
#include <stdlib.h>
#include <string.h>
#include <time.h>

enum { MOST_REPEATS = 1001, ENOUGH = 100000 /* nanoseconds in one measurement, at least */ };
enum call { PLAN, REF_PLAN, CHECK, REF_CHECK, CHOOSE, REF_CHOOSE, CALLS };   /* each beside the reference's */

static const double most_ratio[2] = {0.5, 1.0};   /* planning, checking */

/* ---- The calls ---- */

static struct {
    uint8_t ticket[REF_TICKET], sheet[2][REF_SHEET], other[2][REF_SHEET];
    size_t ticket_length, stop;
    struct ref_planned planned;
} job;

static void must(int good, const char *what)
{
    if (good)
        return;
    fprintf(stderr, "bench: %s\n", what);
    exit(2);
}

static unsigned plan(void)
{
    uint8_t counts[PLANNER_PLAN_COUNTS];

    return planner_plan(job.ticket, job.ticket_length, job.stop, job.other[0], REF_SHEET, job.other[1], REF_SHEET, counts, sizeof counts);
}

static unsigned ref_plan_both(void)
{
    struct ref_planned planned;

    return ref_plan(job.ticket, job.ticket_length, job.stop, job.other[0], REF_SHEET, job.other[1], REF_SHEET, &planned);
}

/* Checks both sheets. */
static unsigned check(void)
{
    uint8_t counts[PLANNER_CHECK_COUNTS];
    unsigned number = 0;

    for (unsigned k = 0; k < 2; k++)
        number |= planner_check(job.ticket, job.ticket_length, job.stop, job.sheet[k], job.planned.sheet_length[k], counts, sizeof counts);
    return number;
}

static unsigned ref_check_both(void)
{
    struct ref_counts counts;
    unsigned number = 0;

    for (unsigned k = 0; k < 2; k++)
        number |= ref_check(job.ticket, job.ticket_length, job.stop, job.sheet[k], job.planned.sheet_length[k], &counts);
    return number;
}

/* Chooses between both sheets, the short plan's first. */
static unsigned choose(void)
{
    uint8_t counts[PLANNER_CHOOSE_COUNTS];

    return planner_choose(job.ticket, job.ticket_length, job.stop, job.sheet[0], job.planned.sheet_length[0], job.sheet[1],
                          job.planned.sheet_length[1], counts, sizeof counts);
}

static unsigned ref_choose_one(void)
{
    struct ref_chosen chosen;

    return ref_choose(job.ticket, job.ticket_length, job.stop, job.sheet[0], job.planned.sheet_length[0], job.sheet[1],
                      job.planned.sheet_length[1], &chosen);
}

static unsigned (*const calls[CALLS])(void) = {plan, ref_plan_both, check, ref_check_both, choose, ref_choose_one};

/* The shape's job, its ticket and its sheets; the library's sheets must be the reference's. */
static void prepare(const struct shape *s)
{
    static struct ref_job made;

    make_job(s, &made);
    job.ticket_length = ref_write_ticket(&made, job.ticket, sizeof job.ticket);
    job.stop = made.stop;
    must(ref_plan(job.ticket, job.ticket_length, job.stop, job.sheet[0], REF_SHEET, job.sheet[1], REF_SHEET, &job.planned) == 0,
         "a job is refused");
    must(plan() == 0, "the library refuses a job");
    for (unsigned k = 0; k < 2; k++)
        must(memcmp(job.sheet[k], job.other[k], job.planned.sheet_length[k]) == 0, "the sheets differ");
}

/* ---- Time ---- */

/* Processor time of this program, so that other programs count less. */
static double nanoseconds(void)
{
    struct timespec t;

    clock_gettime(CLOCK_PROCESS_CPUTIME_ID, &t);
    return 1e9 * (double)t.tv_sec + (double)t.tv_nsec;
}

static double time_of(enum call call, unsigned times)
{
    double start = nanoseconds();

    for (unsigned k = 0; k < times; k++)
        must(calls[call]() == 0, "a call is refused");
    return (nanoseconds() - start) / times;
}

struct result {
    double took[CALLS];        /* median nanoseconds; checking is one sheet's, the mean of both */
    double ratio[CALLS / 2];   /* planning, checking, choosing: median of library / reference, each pair measured one after the other */
};

/* The calls from one to another, the last left out. */
static struct result measure(const struct shape *s, enum call from, enum call to, unsigned repeats)
{
    static double took[CALLS][MOST_REPEATS], ratio[MOST_REPEATS];
    struct result result = {{0}, {0}};
    unsigned times[CALLS];

    prepare(s);
    for (int c = from; c < (int)to; c++)
        for (times[c] = 1; time_of((enum call)c, times[c]) * times[c] < ENOUGH;)
            times[c] *= 2;
    for (unsigned r = 0; r < repeats; r++)
        for (int c = from; c < (int)to; c++)
            took[c][r] = time_of((enum call)c, times[c]) / (c == CHECK || c == REF_CHECK ? 2 : 1);
    for (int c = from; c < (int)to; c += 2) {
        for (unsigned r = 0; r < repeats; r++)
            ratio[r] = took[c][r] / took[c + 1][r];
        result.ratio[c / 2] = median_of(ratio, repeats);
    }
    for (int c = from; c < (int)to; c++)
        result.took[c] = median_of(took[c], repeats);
    return result;
}

/* ---- Tables ---- */

static void print_row(const struct result *r)
{
    printf(" %.1f | %.1f | %.2f | %.1f | %.1f | %.2f |\n", r->took[PLAN] / 1e3, r->took[REF_PLAN] / 1e3, r->ratio[0], r->took[CHECK] / 1e3,
           r->took[REF_CHECK] / 1e3, r->ratio[1]);
    fflush(stdout);
}

static void print_head(const char *first)
{
    printf("| %s | plan, us | reference | ratio | check, us | reference | ratio |\n|---|---|---|---|---|---|---|\n", first);
}

/* 1 if a ratio is above what is asked. */
static int full_size(unsigned repeats)
{
    double worst[2] = {0, 0};

    printf("Full size: 8 disks, 512 blocks, 2,048 references.\n\n");
    print_head("job");
    for (unsigned k = 0; k < FULL_SIZE; k++) {
        struct shape s = full_shape(k);
        struct result r = measure(&s, PLAN, CHOOSE, repeats);

        print_full(&s);
        print_row(&r);
        for (int what = 0; what < 2; what++)
            if (r.ratio[what] > worst[what])
                worst[what] = r.ratio[what];
    }
    printf("\nHighest ratios: planning %.2f (at most %.1f asked), checking %.2f (at most %.1f).\n\n", worst[0], most_ratio[0],
           worst[1], most_ratio[1]);
    return worst[0] > most_ratio[0] || worst[1] > most_ratio[1];
}

/* The choice between both sheets of the same jobs. Nothing is asked of it. */
static void choosing(unsigned repeats)
{
    printf("Choosing between both sheets of these jobs.\n\n| job | choose, us | reference | ratio |\n|---|---|---|---|\n");
    for (unsigned k = 0; k < FULL_SIZE; k++) {
        struct shape s = full_shape(k);
        struct result r = measure(&s, CHOOSE, CALLS, repeats);

        print_full(&s);
        printf(" %.1f | %.1f | %.2f |\n", r.took[CHOOSE] / 1e3, r.took[REF_CHOOSE] / 1e3, r.ratio[CHOOSE / 2]);
        fflush(stdout);
    }
    printf("\n");
}

/* Jobs that take a round or a few: the ticket and the tables cost more than the plan. Nothing is asked of them. */
static void few_rounds(unsigned repeats)
{
    static const struct shape shapes[] = {{SAME, 8, 512, 2048, 4}, {SAME, 1, 1, 2048, 1}, {RANDOM, 8, 512, 16, 4}, {SAME, 1, 1, 0, 1}};
    printf("Few rounds.\n\n");
    print_head("job: disks, blocks, references, slots");
    for (unsigned k = 0; k < sizeof shapes / sizeof shapes[0]; k++) {
        const struct shape *s = &shapes[k];
        struct result r = measure(s, PLAN, CHOOSE, repeats);

        printf("| %s: %u, %u, %u, %u |", pattern_name[s->pattern], s->disks, s->blocks, s->references, s->slots);
        print_row(&r);
    }
    printf("\n");
}

/* Reading a ticket of full size: the check of an empty sheet, which ends with 9. */
static void reading(unsigned repeats)
{
    enum { TIMES = 32 };
    static double took[2][MOST_REPEATS];
    const struct shape s = {RANDOM, 8, 512, 2048, 4};
    uint8_t counts[PLANNER_CHECK_COUNTS];
    struct ref_counts ref;

    prepare(&s);
    for (unsigned r = 0; r < repeats; r++) {
        for (int which = 0; which < 2; which++) {
            double start = nanoseconds();

            for (unsigned k = 0; k < TIMES; k++)
                must((which == 0 ? planner_check(job.ticket, job.ticket_length, job.stop, NULL, 0, counts, sizeof counts)
                                 : ref_check(job.ticket, job.ticket_length, job.stop, job.sheet[0], 0, &ref)) == PLANNER_SHEET_ENDS,
                     "an empty sheet does not end with 9");
            took[which][r] = (nanoseconds() - start) / TIMES;
        }
    }
    printf("Reading a ticket of full size, %zu bytes: %.1f us, the reference %.1f us.\n\n", job.ticket_length, median_of(took[0], repeats) / 1e3,
           median_of(took[1], repeats) / 1e3);
}

/* One size grows, the others stay: random references, 4 slots. */
static void growth(const char *name, size_t which, const unsigned *values, unsigned repeats, FILE *data)
{
    printf("Growing %s.\n\n", name);
    print_head(name);
    fprintf(data, "# %s: plan, reference's plan, check, reference's check, in nanoseconds\n", name);
    for (; *values != 0; values++) {
        struct shape s = {RANDOM, 8, 512, 2048, 4};
        unsigned *const size[] = {&s.references, &s.blocks, &s.disks, &s.slots};

        struct result r;

        *size[which] = *values;
        r = measure(&s, PLAN, CHOOSE, repeats);
        printf("| %u |", *values);
        print_row(&r);
        fprintf(data, "%u %.0f %.0f %.0f %.0f\n", *values, r.took[PLAN], r.took[REF_PLAN], r.took[CHECK], r.took[REF_CHECK]);
    }
    printf("\n");
    fprintf(data, "\n\n");
}

static void all_growth(unsigned repeats, FILE *data)
{
    growth("references", 0, (const unsigned[]){16, 32, 64, 128, 256, 512, 1024, 2048, 0}, repeats, data);
    growth("blocks", 1, (const unsigned[]){8, 16, 32, 64, 128, 256, 512, 0}, repeats, data);
    growth("disks", 2, (const unsigned[]){1, 2, 3, 4, 5, 6, 7, 8, 0}, repeats, data);
    growth("slots", 3, (const unsigned[]){1, 2, 4, 8, 16, 32, 64, 0}, repeats, data);
}

static void run_call(void *call)
{
    must(calls[*(const enum call *)call]() == 0, "a call is refused");
}

/* The deepest stack of one call, on a job of full size. */
static void stacks(void)
{
    static const char *const name[CALLS] = {"planner_plan", "ref_plan", "planner_check", "ref_check", "planner_choose", "ref_choose"};
    const struct shape s = {THRASH, 8, 512, 2048, 64};

    prepare(&s);
    printf("| call | stack, bytes |\n|---|---|\n");
    for (int c = 0; c < CALLS; c++) {
        enum call call = (enum call)c;

        printf("| %s | %zu |\n", name[c], stack_of(run_call, &call));
    }
}

int main(int argc, char **argv)
{
    unsigned repeats = argc > 1 ? (unsigned)strtoul(argv[1], NULL, 10) : 31;
    FILE *data = fopen(argc > 2 ? argv[2] : "/dev/null", "w");
    int slow;

    must(repeats > 0 && repeats <= MOST_REPEATS && data != NULL, "usage: bench [REPEATS [DATA]]");
    slow = full_size(repeats);
    choosing(repeats);
    few_rounds(repeats);
    reading(repeats);
    all_growth(repeats, data);
    stacks();
    fclose(data);
    return slow;
}
