/* differential.c - a library under test (planner.h) against the reference.
 *
 * usage: differential [SEED [COUNT [FIRST]]]
 * Draws COUNT jobs from number FIRST on (default 0) and stops at the first disagreement. Every
 * job's draws depend on the seed and its own number only, so "SEED 1 FIRST" replays one job.
 * Exit 0 only if all agree and, in a run from 0 on, each call met every number that it can return,
 * every kind of stop, and stops above N for tickets that are refused, tickets that end in the carried
 * blocks, and jobs that carry blocks in and that carry none, that are read before round 1 in part and
 * to the stop, and with a disk full of carried blocks, and filled counts slices of every length from 0
 * to 45; the check met sheets for a later and for an earlier stop, and passed
 * sheets of which all rounds are charged, not all, and none; the choice met also each number of a
 * second sheet whose first passes, handed back either sheet, also where the rounds written would
 * have it the other, and met equal rounds and the same sheet twice; a sparing plan took more than
 * D - 1 times the rounds of the short one, with some D above 1; and the header read N from sound
 * tickets and other bytes. */
#define _DEFAULT_SOURCE        /* for MAP_ANONYMOUS */
#include "draw.h"
#include <planner.h>

#include <inttypes.h>
#include <signal.h>
#include <stdio.h>
#include <stdlib.h>
#include <string.h>
#include <sys/mman.h>

enum { GUARD = 24, COUNTS_MOST = 45, NUMBERS = 27, SLICES = 4, SHEETS = 17 };
enum { ARENA = 1 << 16, EDGE = 1 << 12 };   /* bytes for one slice; bytes after it that nobody may touch */

/* CHOOSE_SECOND is planner_choose where the first sheet passes and the second is refused. */
enum call { PLAN, CHECK, CHOOSE, CHOOSE_SECOND, CALLS };

static const char *const call_name[CALLS] = {"planner_plan", "planner_check", "planner_choose",
                                             "planner_choose, by the second sheet"};

/* The kinds of stop, for an accepted ticket: 0, between 0 and N, N; above N the next number, the
 * largest, one whose last 16 or 32 bits are not above, and others. */
enum kind { NONE, BETWEEN, WHOLE, NEXT, LARGEST, LOW_16, LOW_32, ABOVE, KINDS };

static const char *const kind_name[KINDS] = {"0", "in between", "N", "N + 1", "the largest",
                                             "not above in 16 bits", "in 32 bits", "others"};

/* The kinds of job, of calls that are not refused, by what it carries in: nothing; something, of which
 * nothing, some, or all up to the stop is read before round 1; and so much that a disk is full. */
enum carried { EMPTY, UNREAD, IN_PART, IN_WHOLE, FULL, CARRIED };

static const char *const carried_name[CARRIED] = {"nothing", "blocks that are not next",
                                                  "blocks read before round 1 in part", "to the stop",
                                                  "a disk full"};

/* The bytes from which the header reads N: a sound ticket; others that give a number, or 0. */
enum read { SOUND, OTHER, ZERO, READS };

static struct {
    uint64_t seed, job;
    size_t stop;               /* of the last call */
    struct chance chance;
    unsigned long met[CALLS][NUMBERS], lengths[CALLS][COUNTS_MOST + 1];
    unsigned long stops[CALLS][KINDS], ticket_first[CALLS];
    unsigned long carried[CALLS][CARRIED];
    unsigned long ends[CALLS];                 /* tickets that end in the carried blocks */
    unsigned long later, earlier[2];           /* sheets for a later stop; an earlier one: 0, 15 */
    unsigned long reads[READS];
    unsigned long marks[2], passes, chosen[2], equal, same;
    unsigned long all_charged, some_charged, none_charged;     /* sheets that pass, with rounds */
    unsigned long idle_after, fetching_after;  /* plans' sheets with such rounds after them */
    unsigned long against[2];                  /* choices against the rounds written */
    unsigned long tied;                        /* choices of equal rounds, with others written */
    struct {
        unsigned p_min, p_con;                 /* the rounds of the largest factor, by disks */
    } wait[REF_DISKS + 1];
} run;

/* ---- Lent slices ---- */

/* The library gets real + GUARD: guard bytes stand before it, and after it either guard bytes or
 * the edge of memory that may be touched. The reference gets want, exactly len bytes. */
struct lent {
    const char *name;
    size_t len, whole;         /* whole: with the guards */
    uint8_t *real, *before, *want;
    bool null;                 /* an empty slice lent as a null pointer */
    bool given;                /* it has content; else the call may write it */
};

static uint8_t *get_bytes(size_t len)
{
    uint8_t *bytes = malloc(len);

    if (bytes == NULL)
        exit(2);
    return bytes;
}

/* The end of the memory for slice k of a call; a read or write past it stops the program. */
static uint8_t *edge_of(unsigned k)
{
    static uint8_t *edge[SLICES];

    if (edge[k] == NULL) {
        uint8_t *start = mmap(NULL, ARENA + EDGE, PROT_READ | PROT_WRITE,
                              MAP_PRIVATE | MAP_ANONYMOUS, -1, 0);

        if (start == MAP_FAILED || mprotect(start + ARENA, EDGE, PROT_NONE) != 0)
            exit(2);
        edge[k] = start + ARENA;
    }
    return edge[k];
}

/* Slice k of a call: random bytes, or the given content, with random guards. */
static struct lent lend(unsigned k, const char *name, const uint8_t *content, size_t len)
{
    bool at_edge = one_in(&run.chance, 2);
    size_t whole = GUARD + len + (at_edge ? 0 : GUARD);
    struct lent s = {.name = name, .len = len, .whole = whole, .real = edge_of(k) - whole,
                     .before = get_bytes(whole), .want = get_bytes(len > 0 ? len : 1),
                     .null = len == 0 && one_in(&run.chance, 2), .given = content != NULL};

    fill(&run.chance, s.real, whole);
    if (len > 0 && content != NULL)
        memcpy(s.real + GUARD, content, len);
    memcpy(s.before, s.real, whole);
    memcpy(s.want, s.real + GUARD, len);
    return s;
}

/* The pointer that the library gets. */
static uint8_t *lent_at(const struct lent *s)
{
    return s->null ? NULL : s->real + GUARD;
}

static void give_back(struct lent *s)
{
    free(s->before);
    free(s->want);
}

/* ---- Reports ---- */

static void print_hex(const char *name, const struct lent *s)
{
    printf("  %s (%zu bytes) ", name, s->len);
    for (size_t k = 0; k < s->len; k++)
        printf("%02x", s->before[GUARD + k]);
    printf("%s\n", s->len == 0 ? "-" : "");
}

static void say_replay(void)
{
    printf("replay: differential %" PRIu64 " 1 %" PRIu64 "\n", run.seed, run.job);
}

/* Says what was asked, in a way that can be replayed, and ends the run. */
static void fail(enum call call, const struct lent *slices, unsigned how_many)
{
    printf("  in %s, seed %" PRIu64 ", job %" PRIu64 ", stop %zu\n", call_name[call], run.seed,
           run.job, run.stop);
    for (unsigned k = 0; k < how_many; k++) {
        if (slices[k].given)
            print_hex(slices[k].name, &slices[k]);
        else
            printf("  %s: %zu bytes lent\n", slices[k].name, slices[k].len);
    }
    say_replay();
    exit(1);
}

/* A crash, or an interrupt where the library hangs, names the job too. */
static void stopped(int cause)
{
    printf("STOPPED by signal %d\n", cause);
    say_replay();
    fflush(stdout);
    _Exit(1);
}

/* Every lent byte and every guard byte must be as the reference left it. */
static bool slice_agrees(const struct lent *s)
{
    for (size_t k = 0; k < s->whole; k++) {
        bool inside = k >= GUARD && k < GUARD + s->len;
        uint8_t want = inside ? s->want[k - GUARD] : s->before[k];

        if (s->real[k] != want) {
            printf("DISAGREE: %s, byte %ld%s: library %02x, reference %02x\n", s->name,
                   (long)k - GUARD, inside ? "" : " (a guard)", s->real[k], want);
            return false;
        }
    }
    return true;
}

/* The last slice is the counts. */
static void compare(enum call call, uint32_t have, unsigned want, struct lent *slices,
                    unsigned how_many)
{
    run.met[call][want]++;
    if (want == 0)
        run.lengths[call][slices[how_many - 1].len]++;
    if (have != want) {
        printf("DISAGREE: number: library %" PRIu32 ", reference %u\n", have, want);
        printf("  library: %s\n  reference: %s\n", planner_why(have), planner_why(want));
        fail(call, slices, how_many);
    }
    for (unsigned k = 0; k < how_many; k++)
        if (!slice_agrees(&slices[k]))
            fail(call, slices, how_many);
    for (unsigned k = 0; k < how_many; k++)
        give_back(&slices[k]);
}

/* ---- The three calls ---- */

struct bytes {
    const uint8_t *at;
    size_t len;
};

/* A ticket and a stop. */
struct part {
    struct bytes ticket;
    size_t stop;
};

static enum kind kind_of(size_t stop, unsigned references)
{
    if (stop <= references)
        return stop == references ? WHOLE : stop == 0 ? NONE : BETWEEN;
    if (stop == references + 1u)
        return NEXT;
    if (stop == SIZE_MAX)
        return LARGEST;
    return (uint32_t)stop <= references ? LOW_32 : (uint16_t)stop <= references ? LOW_16 : ABOVE;
}

/* The numbers of a ticket. */
static bool of_a_ticket(unsigned number)
{
    return (number >= 1 && number <= 8) || number == 25 || number == 26;
}

/* A field of a ticket that has it, of at most 16 bits. */
static unsigned field_at(struct bytes ticket, size_t at, unsigned width)
{
    unsigned value = 0;

    for (; width > 0; width--, at++)
        value = value << 1 | (ticket.at[at / 8] >> (7 - at % 8) & 1);
    return value;
}

/* Whether a ticket that ends inside a field has all its references, so that it ends after them. */
static bool ends_late(struct bytes ticket, unsigned references)
{
    size_t blocks = ticket.len == 0 ? 0 : 4 + 7 * (ticket.at[0] >> 4);

    return references > 0 && 8 * ticket.len >= blocks + 10 + 3 * field_at(ticket, blocks, 10) + 12 +
                                                   9 * references;
}

/* Counts what the job of a call that is not refused carries in. */
static void count_carried(enum call call, struct part part)
{
    static struct ref_job job;
    unsigned held[REF_DISKS] = {0}, blocks = 0, next_read = 0;
    bool full = false;

    if (ref_read_ticket(part.ticket.at, part.ticket.len, part.stop, &job) != 0)
        exit(2);
    for (unsigned b = 0; b < job.blocks; b++)
        if (job.carried[b]) {
            full = full || ++held[job.disk[b]] == job.slots[job.disk[b]];
            blocks++;
        }
    while (next_read < job.stop && job.carried[job.reference[next_read]])
        next_read++;
    run.carried[call][blocks == 0 ? EMPTY : next_read == 0 ? UNREAD
                      : next_read < job.stop ? IN_PART : IN_WHOLE]++;
    run.carried[call][FULL] += full;
}

/* Counts the ticket and the stop of a call with this number: which they were, or that the ticket came
 * first. */
static void count_part(enum call call, struct part part, unsigned number)
{
    unsigned references = ref_references(part.ticket.at, part.ticket.len);

    if (number == 0 || number == 21)
        run.stops[call][kind_of(part.stop, references)]++;
    else if (of_a_ticket(number) && part.stop > references)
        run.ticket_first[call]++;
    if (number == 0)
        count_carried(call, part);
    run.ends[call] += number == 1 && ends_late(part.ticket, references);
}

/* The rounds that are written in a sheet, which has them. */
static unsigned written_in(struct bytes sheet)
{
    return (unsigned)sheet.at[0] << 4 | sheet.at[1] >> 4;
}

/* The first number in a counts slice, or another if it is too short. */
static unsigned mark_in(const struct lent *counts, unsigned other)
{
    const uint8_t *at = counts->real + GUARD;

    return counts->len < 2 ? other : (unsigned)at[0] << 8 | at[1];
}

/* Request L8, of the ticket, the sheets and the counts of a planning call that the library does not
 * refuse: "the sparing plan takes at most D times the rounds of the short plan", whose sheets have no
 * rounds but those charged. On one disk both then take as many, and the sparing one is marked. Gives
 * what does not hold, or NULL. */
static const char *waits_too_long(const struct lent *s)
{
    unsigned disks = s[0].want[0] >> 4;
    unsigned p_min = written_in((struct bytes){s[1].real + GUARD, s[1].len});
    unsigned p_con = written_in((struct bytes){s[2].real + GUARD, s[2].len});

    if (disks == 1 && p_con != p_min)
        return "on one disk the sparing plan takes other rounds than the short one";
    if (disks == 1 && mark_in(&s[3], REF_P_CON) != REF_P_CON)
        return "on one disk the short plan is marked";
    if (p_con > disks * p_min)
        return "the sparing plan takes more than D times the rounds of the short one";
    if (run.wait[disks].p_min == 0 || p_con * run.wait[disks].p_min > run.wait[disks].p_con * p_min) {
        run.wait[disks].p_min = p_min;
        run.wait[disks].p_con = p_con;
    }
    return NULL;
}

static void try_plan(struct part part, size_t ns, size_t np)
{
    const struct bytes ticket = part.ticket;
    uint16_t numbers[REF_PLANNED_NUMBERS];
    struct ref_planned planned;
    const char *broken;
    struct lent s[4];
    unsigned want;
    uint32_t have;

    s[0] = lend(0, "ticket", ticket.at, ticket.len);
    s[1] = lend(1, "short sheet", NULL, ns);
    s[2] = lend(2, "sparing sheet", NULL, np);
    s[3] = lend(3, "counts", NULL, below(&run.chance, COUNTS_MOST + 1));
    run.stop = part.stop;
    want = ref_plan(s[0].want, ticket.len, part.stop, s[1].want, ns, s[2].want, np, &planned);
    have = planner_plan(lent_at(&s[0]), ticket.len, part.stop, lent_at(&s[1]), ns, lent_at(&s[2]),
                        np, lent_at(&s[3]), s[3].len);
    broken = have == 0 && want == 0 ? waits_too_long(s) : NULL;
    if (broken != NULL) {
        printf("DISAGREE: %s\n", broken);
        fail(PLAN, s, 4);
    }
    if (want == 0) {
        ref_planned_numbers(&planned, numbers);
        ref_fill_counts(numbers, REF_PLANNED_NUMBERS, s[3].want, s[3].len);
        run.marks[planned.mark]++;
    }
    count_part(PLAN, part, want);
    compare(PLAN, have, want, s, 4);
}

/* The counts of both plans for a ticket up to a stop, "whether or not a planning call has room". */
static const struct ref_counts *plans_of(struct part part)
{
    static struct ref_action schedule[REF_ROUNDS * REF_DISKS];
    static struct ref_counts counts[2];
    static uint8_t last[REF_TICKET];
    static size_t last_len, last_stop;
    static struct ref_job job;

    if (part.ticket.len == last_len && part.stop == last_stop &&
        memcmp(part.ticket.at, last, last_len) == 0)
        return counts;
    if (ref_read_ticket(part.ticket.at, part.ticket.len, part.stop, &job) != 0)
        exit(2);
    last_stop = part.stop;
    last_len = part.ticket.len;
    memcpy(last, part.ticket.at, last_len);
    ref_run(&job, REF_P_MIN, schedule, &counts[REF_P_MIN]);
    ref_run(&job, REF_P_CON, schedule, &counts[REF_P_CON]);
    return counts;
}

/* Demand 3: "the rounds given with the pass are compared with the short plan's, and the fetches
 * on each disk with the sparing plan's", of the plans up to the same stop; "the claim of fewest
 * rounds" uses "the charged number". */
static bool unbeaten(struct part part, const struct ref_counts *sheet)
{
    const struct ref_counts *plan = plans_of(part);
    bool good = sheet->charged >= plan[REF_P_MIN].charged;

    for (unsigned d = 0; d < REF_DISKS; d++)
        good = good && sheet->fetches[d] >= plan[REF_P_CON].fetches[d];
    return good;
}

/* A sheet, and what the reference's check of it says. */
struct checked {
    struct bytes sheet;
    unsigned number;
    struct ref_counts counts;
};

/* Counts a sheet that passes. */
static void count_pass(const struct checked *c)
{
    unsigned written = written_in(c->sheet), charged = c->counts.charged;

    run.passes++;
    run.all_charged += written > 0 && charged == written;
    run.some_charged += charged > 0 && charged < written;
    run.none_charged += written > 0 && charged == 0;
}

static struct checked try_check(struct part part, struct bytes sheet)
{
    const struct bytes ticket = part.ticket;
    uint16_t numbers[REF_CHECKED_NUMBERS];
    struct checked want = {.sheet = sheet};
    struct lent s[3];
    uint32_t have;

    s[0] = lend(0, "ticket", ticket.at, ticket.len);
    s[1] = lend(1, "sheet", sheet.at, sheet.len);
    s[2] = lend(2, "counts", NULL, below(&run.chance, COUNTS_MOST + 1));
    run.stop = part.stop;
    want.number = ref_check(s[0].want, ticket.len, part.stop, s[1].want, sheet.len, &want.counts);
    have = planner_check(lent_at(&s[0]), ticket.len, part.stop, lent_at(&s[1]), sheet.len,
                         lent_at(&s[2]), s[2].len);
    if (want.number == 0) {
        ref_checked_numbers(&want.counts, numbers);
        ref_fill_counts(numbers, REF_CHECKED_NUMBERS, s[2].want, s[2].len);
        count_pass(&want);
        if (!unbeaten(part, &want.counts)) {
            printf("DISAGREE: a sheet that passes beats a plan (demand 3)\n");
            fail(CHECK, s, 3);
        }
    }
    count_part(CHECK, part, want.number);
    compare(CHECK, have, want.number, s, 3);
    return want;
}

/* What is promised of the choice, by the check of each sheet: the number is that of the first sheet
 * that is refused; the sheet handed back takes no more rounds than the other; after the short
 * plan's, a second one is handed back only for equal rounds. Gives what does not hold, or NULL. */
static const char *broken_promise(struct part part, const struct checked *first,
                                  const struct checked *second, unsigned number, unsigned which)
{
    unsigned r1 = first->counts.charged, r2 = second->counts.charged;

    if (number != (first->number != 0 ? first->number : second->number))
        return "the choice has another number than the check";
    if (number != 0)
        return NULL;
    if (which == 1 && r1 == plans_of(part)[REF_P_MIN].charged && r2 != r1)
        return "the short plan's sheet is first, and one with other rounds is handed back";
    if (which == 0 ? r1 > r2 : r2 > r1)
        return "the sheet handed back takes more rounds than the other";
    return NULL;
}

/* Counts a choice that is not refused. */
static void count_choice(const struct checked *first, const struct checked *second, unsigned which)
{
    bool same = first->sheet.at == second->sheet.at;
    bool equal = first->counts.charged == second->counts.charged;
    unsigned w1 = written_in(first->sheet), w2 = written_in(second->sheet);

    run.chosen[which]++;
    run.equal += !same && equal;
    run.same += same;
    run.tied += equal && w1 != w2;
    if (which != (w2 <= w1))
        run.against[which]++;
}

/* Both were checked for this ticket and stop. The same sheet twice is lent as the same memory. */
static void try_choose(struct part part, struct checked first, struct checked second)
{
    const struct bytes ticket = part.ticket;
    bool same = first.sheet.at == second.sheet.at;
    uint16_t numbers[REF_CHOSEN_NUMBERS];
    struct ref_chosen chosen;
    const char *broken;
    struct lent s[4];
    unsigned want;
    uint32_t have;

    s[0] = lend(0, "ticket", ticket.at, ticket.len);
    s[1] = lend(1, "first sheet", first.sheet.at, first.sheet.len);
    s[2] = lend(2, "second sheet", second.sheet.at, second.sheet.len);
    s[3] = lend(3, "counts", NULL, below(&run.chance, COUNTS_MOST + 1));
    run.stop = part.stop;
    want = ref_choose(s[0].want, ticket.len, part.stop, s[1].want, s[1].len, s[2].want, s[2].len,
                      &chosen);
    have = planner_choose(lent_at(&s[0]), ticket.len, part.stop, lent_at(&s[1]), s[1].len,
                          lent_at(&s[same ? 1 : 2]), s[2].len, lent_at(&s[3]), s[3].len);
    broken = broken_promise(part, &first, &second, want, chosen.which);
    if (broken != NULL) {
        printf("DISAGREE: %s\n", broken);
        fail(CHOOSE, s, 4);
    }
    if (want == 0) {
        ref_chosen_numbers(&chosen, numbers);
        ref_fill_counts(numbers, REF_CHOSEN_NUMBERS, s[3].want, s[3].len);
        count_choice(&first, &second, chosen.which);
    }
    count_part(CHOOSE, part, want);
    compare(want != 0 && first.number == 0 ? CHOOSE_SECOND : CHOOSE, have, want, s, 4);
}

/* ---- What the header reads ---- */

/* The number of references that the header reads from any bytes. */
static void try_references(struct bytes ticket, unsigned want, enum read read)
{
    struct lent s = lend(0, "ticket", ticket.at, ticket.len);
    size_t have = planner_references(lent_at(&s), ticket.len);

    run.reads[read]++;
    if (have != want) {
        printf("DISAGREE: planner_references gives %zu, the reference %u\n", have, want);
        print_hex(s.name, &s);
        say_replay();
        exit(1);
    }
    give_back(&s);
}

/* Of bytes that may be no ticket. */
static void try_other_references(struct bytes ticket)
{
    unsigned want = ref_references(ticket.at, ticket.len);

    try_references(ticket, want, want > 0 ? OTHER : ZERO);
}

/* A sound ticket, the damaged one, the sound one cut anywhere, and bytes by chance, of which half
 * are long enough for any number of disks and blocks. */
static void try_reading(struct bytes ticket, struct bytes worse, const struct ref_job *job)
{
    static uint8_t any[800];

    try_references(ticket, job->references, SOUND);
    try_other_references(worse);
    try_other_references((struct bytes){ticket.at, below(&run.chance, (unsigned)ticket.len)});
    fill(&run.chance, any, sizeof any);
    try_other_references((struct bytes){any, below(&run.chance, sizeof any)});
}

/* ---- One job ---- */

/* Rooms exact, one byte short or more, or ample. */
static void try_room(struct part part, size_t ns, size_t np)
{
    switch (below(&run.chance, 6)) {
    case 0: try_plan(part, ns - 1, np); break;
    case 1: try_plan(part, ns, np - 1); break;
    case 2: try_plan(part, ns - 1, np - 1); break;
    case 3: try_plan(part, below(&run.chance, (unsigned)ns), np); break;
    case 4: try_plan(part, ns, below(&run.chance, (unsigned)np)); break;
    default: try_plan(part, REF_SHEET, REF_SHEET); break;
    }
}

static void try_rooms(struct part part, size_t ns, size_t np)
{
    unsigned spare = below(&run.chance, 50);

    try_plan(part, ns, np);
    try_plan(part, ns + spare, np + 49 - spare);
    try_room(part, ns, np);
}

/* The job's sheets, the short plan's first, a plan's with rounds after it last, and those of them that
 * passed. */
static struct {
    uint8_t bytes[SHEETS][REF_SHEET + SPARE];
    struct checked all[SHEETS], passed[SHEETS];
    unsigned how_many, passes;
} kept;

/* Checks the next of the kept sheets. */
static void try_kept(struct part part, size_t len)
{
    struct checked c = try_check(part, (struct bytes){kept.bytes[kept.how_many], len});

    kept.all[kept.how_many++] = c;
    if (c.number == 0)
        kept.passed[kept.passes++] = c;
}

/* A sheet, then the same sheet damaged. */
static void try_sheet(struct part part, const uint8_t *sheet, size_t len)
{
    memcpy(kept.bytes[kept.how_many], sheet, len);
    try_kept(part, len);
    memcpy(kept.bytes[kept.how_many], sheet, len);
    try_kept(part, damage_sheet(&run.chance, kept.bytes[kept.how_many], len));
}

/* A schedule drawn by chance, as it is and with some actions changed. */
static void try_schedule(struct part part, const struct ref_job *job, enum ending ending)
{
    static struct ref_action schedule[REF_ROUNDS * REF_DISKS];
    static uint8_t sheet[REF_SHEET];
    unsigned rounds = draw_schedule(&run.chance, job, ending, schedule);
    size_t len = ref_write_sheet(schedule, rounds, job->disks, sheet, sizeof sheet);

    try_sheet(part, sheet, len);
    spoil_schedule(&run.chance, job, schedule, rounds);
    len = ref_write_sheet(schedule, rounds, job->disks, sheet, sizeof sheet);
    try_sheet(part, sheet, len);
}

/* The schedule of a plan with rounds put after it, idle or not: its sheet passes, charged as the plan,
 * with the fetches of all rounds. */
static void try_longer(struct part part, const struct ref_job *job)
{
    static struct ref_action schedule[REF_ROUNDS * REF_DISKS];
    struct ref_counts want;
    struct checked have;
    unsigned rounds, late = 0;

    ref_run(job, (enum ref_rule)below(&run.chance, 2), schedule, &want);
    rounds = draw_longer(&run.chance, job, schedule, want.charged);
    for (unsigned k = want.charged * job->disks; k < rounds * job->disks; k++)
        if (schedule[k].fetch != REF_NONE) {
            want.fetches[k % job->disks]++;
            late++;
        }
    *(late > 0 ? &run.fetching_after : &run.idle_after) += rounds > want.charged;
    try_kept(part, ref_write_sheet(schedule, rounds, job->disks, kept.bytes[kept.how_many],
                                   REF_SHEET));
    have = kept.all[kept.how_many - 1];
    if (have.number != 0 || memcmp(&have.counts, &want, sizeof want) != 0) {
        printf("DISAGREE: a plan's sheet with rounds after it is refused, or has other counts\n");
        say_replay();
        exit(1);
    }
}

static struct checked one_of(const struct checked *sheets, unsigned how_many)
{
    return sheets[below(&run.chance, how_many)];
}

static struct checked checked_for(struct part part, struct checked c)
{
    c.number = ref_check(part.ticket.at, part.ticket.len, part.stop, c.sheet.at, c.sheet.len,
                         &c.counts);
    return c;
}

/* Choices between the kept sheets: the short plan's, or a plan's with rounds after it, and one that
 * passes, one that passes and any, any two; and any two for the damaged ticket, and for a stop above
 * N. */
static void try_choices(struct part part, struct part worse, struct part above)
{
    for (unsigned k = 0; k < 6; k++) {
        struct part other = k == 4 ? worse : above;
        struct checked first = k == 0 ? kept.all[0]
                             : k == 1 ? kept.all[kept.how_many - 1]
                             : k == 2 ? one_of(kept.passed, kept.passes)
                             : one_of(kept.all, kept.how_many);
        struct checked second = k < 2 ? one_of(kept.passed, kept.passes)
                                      : one_of(kept.all, kept.how_many);

        if (k < 4)
            try_choose(part, first, second);
        else
            try_choose(other, checked_for(other, first), checked_for(other, second));
    }
}

/* A sheet of a plan for a later stop up to an earlier one, which passes, and the reverse. */
static void try_two_stops(struct part part, const struct ref_job *job)
{
    static uint8_t sheet[2][2][REF_SHEET];     /* by stop and rule */
    bool ends = part.stop == job->references;
    unsigned rule = below(&run.chance, 2);
    struct part of[2] = {part, part};          /* the earlier, the later */
    struct ref_planned planned[2];
    struct bytes s[2];

    of[!ends].stop = ends ? below(&run.chance, job->references)
                          : between(&run.chance, (unsigned)part.stop + 1, job->references);
    for (unsigned k = 0; k < 2; k++) {
        if (ref_plan(part.ticket.at, part.ticket.len, of[k].stop, sheet[k][0], REF_SHEET,
                     sheet[k][1], REF_SHEET, &planned[k]) != 0)
            exit(2);
        s[k] = (struct bytes){sheet[k][rule], planned[k].sheet_length[rule]};
    }
    if (try_check(of[0], s[1]).number != 0) {
        printf("DISAGREE: a sheet for the stop %zu is refused up to %zu\n", of[1].stop, of[0].stop);
        say_replay();
        exit(1);
    }
    run.later++;
    run.earlier[try_check(of[1], s[0]).number != 0]++;
}

/* Planning and choices, and for the damaged ticket and for a stop above N the check too. */
static void try_parts(struct part part, struct part worse, struct part above,
                      const struct ref_planned *planned)
{
    size_t ns = planned->sheet_length[REF_P_MIN], np = planned->sheet_length[REF_P_CON];

    try_rooms(part, ns, np);
    try_plan(worse, ns, np);
    try_room(above, ns, np);
    try_check(worse, kept.all[2].sheet);
    try_check(above, one_of(kept.all, kept.how_many).sheet);
    try_choices(part, worse, above);
}

static void try_job(uint64_t number)
{
    static uint8_t ticket[REF_TICKET], bad[REF_TICKET + SPARE], sheets[2][REF_SHEET];
    static struct ref_job job;
    struct ref_planned planned;
    struct part part = {{ticket, 0}, 0}, worse = {{bad, 0}, 0}, above;

    run.job = number;
    run.chance = chance_for(run.seed, number);
    kept.how_many = kept.passes = 0;
    draw_job(&run.chance, &job);
    part.ticket.len = ref_write_ticket(&job, ticket, sizeof ticket);
    part.stop = draw_stop(&run.chance, job.references);
    above = (struct part){part.ticket, draw_stop_above(&run.chance, job.references)};
    job.stop = (unsigned)part.stop;
    if (ref_plan(ticket, part.ticket.len, part.stop, sheets[0], REF_SHEET, sheets[1], REF_SHEET,
                 &planned) != 0)
        exit(2);
    for (int k = 0; k < 2; k++)
        try_sheet(part, sheets[k], planned.sheet_length[k]);
    for (int ending = FINISHED; ending <= UNFINISHED; ending++)
        try_schedule(part, &job, (enum ending)ending);
    try_two_stops(part, &job);
    try_longer(part, &job);
    memcpy(bad, ticket, part.ticket.len);
    worse.ticket.len = damage_ticket(&run.chance, &job, bad, part.ticket.len);
    worse.stop = one_in(&run.chance, 2) ? part.stop : above.stop;
    try_parts(part, worse, above, &planned);
    try_reading(part.ticket, worse.ticket, &job);
}

/* Planning returns 0 to 8, 25, 26, 21, 17 and 18; the check and the choice 0 to 8, 25, 26, 21, 9 to 16
 * and 20, by the second sheet alone 9 to 16 and 20. */
static bool can_return(enum call call, unsigned number)
{
    bool of_a_sheet = (number >= 9 && number <= 16) || number == 20;
    bool of_all = number == 0 || of_a_ticket(number) || number == 21;

    switch (call) {
    case PLAN: return of_all || number == 17 || number == 18;
    case CHOOSE_SECOND: return of_a_sheet;
    default: return of_all || of_a_sheet;
    }
}

/* Prints what was met; false if something that should be was not. */
static bool all_met(enum call call)
{
    bool all = true;

    printf("  %s:", call_name[call]);
    for (unsigned k = 0; k < NUMBERS; k++) {
        if (can_return(call, k))
            printf(" %u:%lu", k, run.met[call][k]);
        all = all && (run.met[call][k] > 0) == can_return(call, k);
    }
    printf("\n");
    for (unsigned k = 0; k <= COUNTS_MOST; k++)
        all = all && (run.lengths[call][k] > 0) == can_return(call, 0);
    return all;
}

/* The same of stops, for a call that has one of its own. */
static bool all_stops_met(enum call call)
{
    bool all = run.ticket_first[call] > 0;

    printf("  stops of %s:", call_name[call]);
    for (unsigned k = 0; k < KINDS; k++) {
        printf(" %s %lu,", kind_name[k], run.stops[call][k]);
        all = all && run.stops[call][k] > 0;
    }
    printf(" above N for a refused ticket %lu\n", run.ticket_first[call]);
    return all;
}

/* The same of what jobs carry in. */
static bool all_carried_met(enum call call)
{
    bool all = run.ends[call] > 0;

    printf("  carried in, in %s:", call_name[call]);
    for (unsigned k = 0; k < CARRIED; k++) {
        printf(" %s %lu,", carried_name[k], run.carried[call][k]);
        all = all && run.carried[call][k] > 0;
    }
    printf(" tickets that end there %lu\n", run.ends[call]);
    return all;
}

/* The same of what neither numbers nor stops show. */
static bool all_else_met(void)
{
    printf("  sheets for a later stop passed %lu, for an earlier one %lu, and %lu were refused\n",
           run.later, run.earlier[0], run.earlier[1]);
    printf("  N read from sound tickets %lu, other bytes %lu, bytes that give 0 %lu\n",
           run.reads[SOUND], run.reads[OTHER], run.reads[ZERO]);
    printf("  plans marked short %lu, sparing %lu; sheets passed %lu\n", run.marks[REF_P_MIN],
           run.marks[REF_P_CON], run.passes);
    printf("  first sheets chosen %lu, second %lu; of equal rounds %lu, the same sheet twice %lu\n",
           run.chosen[0], run.chosen[1], run.equal, run.same);
    printf("  sheets of which all rounds are charged %lu, some %lu, none %lu; plans' sheets with idle "
           "rounds after them %lu, with fetching ones %lu\n", run.all_charged, run.some_charged,
           run.none_charged, run.idle_after, run.fetching_after);
    printf("  choices against the rounds written: first sheets %lu, second %lu; of equal rounds, with "
           "others written %lu\n", run.against[0], run.against[1], run.tied);
    return run.all_charged > 0 && run.some_charged > 0 && run.none_charged > 0 &&
           run.idle_after > 0 && run.fetching_after > 0 && run.against[0] > 0 &&
           run.against[1] > 0 && run.tied > 0 && run.later > 0 && run.earlier[0] > 0 &&
           run.earlier[1] > 0 && run.reads[SOUND] > 0 && run.reads[OTHER] > 0 &&
           run.reads[ZERO] > 0 && run.chosen[0] > 0 && run.chosen[1] > 0 && run.equal > 0 &&
           run.same > 0;
}

/* The same of long waits: with some D above 1 one of more than D - 1 times the rounds. */
static bool long_wait_met(void)
{
    bool met = false;

    printf("  rounds of the sparing plan to those of the short one, at most, by disks:");
    for (unsigned d = 1; d <= REF_DISKS; d++) {
        printf(" %u: %u to %u%s", d, run.wait[d].p_con, run.wait[d].p_min, d < REF_DISKS ? "," : "\n");
        met = met || (d > 1 && run.wait[d].p_con > (d - 1) * run.wait[d].p_min);
    }
    return met;
}

int main(int argc, char **argv)
{
    uint64_t count = argc > 2 ? strtoull(argv[2], NULL, 10) : 20000;
    uint64_t first = argc > 3 ? strtoull(argv[3], NULL, 10) : 0;
    bool all = true;

    run.seed = argc > 1 ? strtoull(argv[1], NULL, 10) : 1;
    signal(SIGSEGV, stopped);
    signal(SIGBUS, stopped);
    signal(SIGABRT, stopped);
    signal(SIGILL, stopped);
    signal(SIGINT, stopped);
    for (uint64_t k = 0; k < count; k++)
        try_job(first + k);
    printf("%" PRIu64 " jobs agree (seed %" PRIu64 "); numbers met:\n", count, run.seed);
    for (int call = PLAN; call < CALLS; call++)
        all = all_met((enum call)call) && all;
    for (int call = PLAN; call <= CHOOSE; call++)
        all = all_stops_met((enum call)call) && all;
    for (int call = PLAN; call <= CHOOSE; call++)
        all = all_carried_met((enum call)call) && all;
    all = all_else_met() && all;
    all = long_wait_met() && all;
    if (!all && first == 0)
        printf("FAIL: a number, a length of the counts slice, a kind of stop, of carried blocks, of "
               "sheet, of choice or of bytes, or a wait of more than D - 1 times the rounds was never "
               "met\n");
    return all || first != 0 ? 0 : 1;
}
