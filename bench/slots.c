/* slots.c - what the least slot count costs: the program `slots` beside the program `plan`, in time and in stack.
 *
 * usage: slots PLAN SLOTS [REPEATS]
 * Runs both programs in turn on the jobs of full size and on an empty ticket, which is refused at once, REPEATS times each (default 201). `slots` is
 * asked for disk 0 and three numbers of rounds: one fewer than any count gives, those of the ticket's own short plan, and those that are enough for
 * any plan. Prints medians of their processor time, each less the median of the same program on the empty ticket, as a table in markdown, with the
 * counts that are tried; then the least stack limit with which each prints the longest job. Exit 2 if `slots` does not print what the reference
 * gives. */
#include "../tests/draw.h"
#include "jobs.h"
#include "runs.h"

#include <stdlib.h>
#include <string.h>

enum run { PLAN, NONE, OWN, MANY, RUNS };
enum { DIGITS = 16 };

static char disk[] = "0", wanted[RUNS][DIGITS];
static struct command command[RUNS] = {
    {NULL, {"plan"}}, {NULL, {"slots", disk, wanted[NONE]}}, {NULL, {"slots", disk, wanted[OWN]}}, {NULL, {"slots", disk, wanted[MANY]}}
};

/* ---- What is asked ---- */

/* Rounds of the short plan with so many slots of disk 0. */
static unsigned rounds_with(const struct ref_job *job, unsigned slots)
{
    static struct ref_action schedule[REF_ROUNDS * REF_DISKS];
    struct ref_job with = *job;
    struct ref_counts counts;

    with.slots[0] = slots;
    ref_run(&with, REF_P_MIN, schedule, &counts);
    return counts.charged;
}

static unsigned fewest_rounds(const struct ref_job *job)
{
    unsigned fewest = REF_ROUNDS;

    for (unsigned s = 1; s <= REF_SLOTS; s++) {
        unsigned rounds = rounds_with(job, s);

        fewest = rounds < fewest ? rounds : fewest;
    }
    return fewest;
}

/* The count that the reference gives for what a run asks, 0 for none; the run must print it. */
static unsigned answer(const struct ref_job *job, enum run r, FILE *file)
{
    static uint8_t ticket[REF_TICKET], sheet[REF_SHEET], have[MOST_TEXT];
    size_t n = ref_write_ticket(job, ticket, sizeof ticket), length;
    struct ref_slotted slotted;
    char want[32] = "none\n";

    must(ref_slots(ticket, n, job->stop, strtoul(disk, NULL, 10), strtoul(wanted[r], NULL, 10), sheet, REF_SHEET, &slotted) == 0,
         "the reference refuses a job");
    if (slotted.slots > 0)
        sprintf(want, "slots %u\n", slotted.slots);
    length = output_of(&command[r], file, LARGEST_STACK, have);
    must(length == strlen(want) && memcmp(have, want, length) == 0, "slots prints other than the reference");
    return slotted.slots;
}

static void ask(const struct ref_job *job)
{
    unsigned fewest = fewest_rounds(job);

    must(fewest > 0, "a job has no rounds");
    sprintf(wanted[NONE], "%u", fewest - 1);
    sprintf(wanted[OWN], "%u", rounds_with(job, job->slots[0]));
    sprintf(wanted[MANY], "%u", (unsigned)REF_ROUNDS);
}

/* ---- Time ---- */

/* The cells of one job. No block is carried in, so that the counts are tried from 1 on. */
static void print_row(const struct ref_job *job, FILE *ticket, const double *took)
{
    printf(" %.0f |", took[PLAN]);
    for (int r = NONE; r < RUNS; r++) {
        unsigned slots = answer(job, (enum run)r, ticket);

        must(r == NONE ? slots == 0 : slots > 0, "an answer is not the one that is measured");
        printf(" %s | %u | %.0f | %.2f |", wanted[r], slots == 0 ? (unsigned)REF_SLOTS : slots, took[r], took[r] / took[PLAN]);
    }
    printf("\n");
    fflush(stdout);
}

static void times(unsigned repeats)
{
    static struct ref_job job;
    FILE *empty = ticket_file(NULL);

    printf("| job | plan, us | rounds, none | tried | us | ratio | its own rounds | tried | us | ratio | enough rounds | tried | us | ratio |\n"
           "|---|---|---|---|---|---|---|---|---|---|---|---|---|---|\n");
    for (unsigned k = 0; k < FULL_SIZE; k++) {
        struct shape s = full_shape(k);
        double took[RUNS];
        FILE *ticket;

        make_job(&s, &job);
        ticket = ticket_file(&job);
        ask(&job);
        measure(command, RUNS, ticket, empty, repeats, took);
        print_full(&s);
        print_row(&job, ticket, took);
        fclose(ticket);
    }
    fclose(empty);
}

/* ---- Stack ---- */

/* The longest job has all its references on the last disk, which has one slot: the sheet for that count is the longest too. */
static void stacks(void)
{
    struct chance c = chance_for(1, 0);
    static struct ref_job job;
    FILE *ticket;

    draw_longest(&c, &job);
    ticket = ticket_file(&job);
    sprintf(disk, "%d", REF_DISKS - 1);
    sprintf(wanted[MANY], "%u", (unsigned)REF_ROUNDS);
    must(answer(&job, MANY, ticket) == 1, "the longest job is not printed");
    printf("\n| program | least stack, bytes |\n|---|---|\n");
    printf("| `plan` | %zu |\n", least_stack(&command[PLAN], ticket));
    printf("| `slots` | %zu |\n", least_stack(&command[MANY], ticket));
    fclose(ticket);
}

int main(int argc, char **argv)
{
    unsigned repeats = argc > 3 ? (unsigned)strtoul(argv[3], NULL, 10) : 201;

    must(argc > 2 && repeats > 0 && repeats <= MOST_REPEATS, "usage: slots PLAN SLOTS [REPEATS]");
    for (int r = 0; r < RUNS; r++)
        command[r].path = argv[r == PLAN ? 1 : 2];
    times(repeats);
    stacks();
    return 0;
}
