/* fuzz.c - the library against the reference on bytes that libFuzzer makes (input.h has their form).
 *
 * An input's first sheet is checked for its ticket up to its stop, the choice is made between its two sheets, and its ticket is planned; the sheets
 * of a plan are checked too, one of them also with rounds put after it, and the choice is made between them and between one of them and the first
 * sheet. Numbers, counts and all lent bytes must be the reference's, with guard bytes around them, no sheet that passes may beat a plan, rounds after
 * a plan's may not be charged, and the sparing plan may take at most D times the rounds of the short one. The header must read the same N from the
 * ticket. */
#include "../tests/draw.h"
#include "input.h"
#include <planner.h>

#include <stdio.h>
#include <stdlib.h>
#include <string.h>

size_t LLVMFuzzerMutate(uint8_t *data, size_t size, size_t most);

enum { GUARD = 16, FILL = 0xa5 };

static void must(bool good, const char *what)
{
    if (good)
        return;
    fprintf(stderr, "DISAGREE: %s\n", what);
    abort();
}

static void same_number(uint32_t have, unsigned want, const char *what)
{
    if (have != want)
        fprintf(stderr, "library %lu: %s\nreference %u: %s\n", (unsigned long)have, planner_why(have), want, planner_why(want));
    must(have == want, what);
}

/* ---- Lent slices ---- */

struct lent {
    size_t len;
    uint8_t *have, *want;      /* the library's and the reference's, amid guard bytes */
};

static struct lent lend(const uint8_t *content, size_t len)
{
    struct lent s = {len, malloc(len + 2 * GUARD), malloc(len + 2 * GUARD)};

    must(s.have != NULL && s.want != NULL, "no memory");
    memset(s.have, FILL, len + 2 * GUARD);
    if (content != NULL && len > 0)
        memcpy(s.have + GUARD, content, len);
    memcpy(s.want, s.have, len + 2 * GUARD);
    return s;
}

static void compare(struct lent *s, const char *what)
{
    must(memcmp(s->have, s->want, s->len + 2 * GUARD) == 0, what);
    free(s->have);
    free(s->want);
}

/* ---- The three calls ---- */

/* Demand 3, for a ticket and a stop that are accepted. */
static bool unbeaten(const struct input *in, const struct ref_counts *sheet)
{
    static struct ref_action schedule[REF_ROUNDS * REF_DISKS];
    static struct ref_job job;
    struct ref_counts p_min, p_con;
    bool good;

    must(ref_read_ticket(in->ticket, in->ticket_length, in->stop, &job) == 0, "a pass for a ticket or a stop that is refused");
    ref_run(&job, REF_P_MIN, schedule, &p_min);
    ref_run(&job, REF_P_CON, schedule, &p_con);
    good = sheet->charged >= p_min.charged;
    for (unsigned d = 0; d < REF_DISKS; d++)
        good = good && sheet->fetches[d] >= p_con.fetches[d];
    return good;
}

struct sheet {
    const uint8_t *at;
    size_t len;
};

static void try_check(const struct input *in, struct sheet sheet)
{
    struct lent t = lend(in->ticket, in->ticket_length), s = lend(sheet.at, sheet.len), c = lend(NULL, in->counts_length);
    uint16_t numbers[REF_CHECKED_NUMBERS];
    struct ref_counts counts;
    unsigned want = ref_check(t.want + GUARD, t.len, in->stop, s.want + GUARD, s.len, &counts);
    uint32_t have = planner_check(t.have + GUARD, t.len, in->stop, s.have + GUARD, s.len, c.have + GUARD, c.len);

    same_number(have, want, "the check's number");
    if (want == 0) {
        ref_checked_numbers(&counts, numbers);
        ref_fill_counts(numbers, REF_CHECKED_NUMBERS, c.want + GUARD, c.len);
        must(unbeaten(in, &counts), "a sheet that passes beats a plan");
    }
    compare(&t, "the check's ticket");
    compare(&s, "the check's sheet");
    compare(&c, "the check's counts");
}

static void try_choose(const struct input *in, struct sheet first, struct sheet second)
{
    struct lent t = lend(in->ticket, in->ticket_length), c = lend(NULL, in->counts_length);
    struct lent a = lend(first.at, first.len), b = lend(second.at, second.len);
    uint16_t numbers[REF_CHOSEN_NUMBERS];
    struct ref_chosen chosen;
    unsigned want = ref_choose(t.want + GUARD, t.len, in->stop, a.want + GUARD, a.len, b.want + GUARD, b.len, &chosen);
    uint32_t have = planner_choose(t.have + GUARD, t.len, in->stop, a.have + GUARD, a.len, b.have + GUARD, b.len, c.have + GUARD, c.len);

    same_number(have, want, "the choice's number");
    if (want == 0) {
        ref_chosen_numbers(&chosen, numbers);
        ref_fill_counts(numbers, REF_CHOSEN_NUMBERS, c.want + GUARD, c.len);
    }
    compare(&t, "the choice's ticket");
    compare(&a, "the choice's first sheet");
    compare(&b, "the choice's second sheet");
    compare(&c, "the choice's counts");
}

static size_t room_for(size_t length, enum room room)
{
    return room == EXACT ? length : room == ONE_SHORT ? length - 1 : room == AMPLE ? length + 9 : 5;
}

/* The rounds that are written in a sheet that the library wrote. */
static unsigned written_in(const struct lent *sheet)
{
    const uint8_t *at = sheet->have + GUARD;

    return (unsigned)at[0] << 4 | at[1] >> 4;
}

/* Request L8, of a planning call that is not refused: the library's sheets, which have no rounds but those charged, and its mark, where there is room
 * for it. */
static void keeps_bound(const struct input *in, const struct lent *p_min, const struct lent *p_con, const struct lent *counts)
{
    unsigned disks = in->ticket[0] >> 4, rounds = written_in(p_min);

    if (disks == 1) {
        must(written_in(p_con) == rounds, "on one disk the sparing plan takes other rounds than the short one");
        must(counts->len < 2 || (counts->have[GUARD] == 0 && counts->have[GUARD + 1] == REF_P_CON), "on one disk the short plan is marked");
    }
    must(written_in(p_con) <= disks * rounds, "the sparing plan takes more than D times the rounds of the short one");
}

/* Gives the number; rooms for sheets of the given lengths. */
static unsigned try_plan(const struct input *in, const size_t length[2])
{
    struct lent t = lend(in->ticket, in->ticket_length), c = lend(NULL, in->counts_length);
    struct lent s = lend(NULL, room_for(length[0], in->room[0])), p = lend(NULL, room_for(length[1], in->room[1]));
    uint16_t numbers[REF_PLANNED_NUMBERS];
    struct ref_planned planned;
    unsigned want = ref_plan(t.want + GUARD, t.len, in->stop, s.want + GUARD, s.len, p.want + GUARD, p.len, &planned);
    uint32_t have = planner_plan(t.have + GUARD, t.len, in->stop, s.have + GUARD, s.len, p.have + GUARD, p.len, c.have + GUARD, c.len);

    same_number(have, want, "planning's number");
    if (want == 0) {
        keeps_bound(in, &s, &p, &c);
        ref_planned_numbers(&planned, numbers);
        ref_fill_counts(numbers, REF_PLANNED_NUMBERS, c.want + GUARD, c.len);
    }
    compare(&t, "planning's ticket");
    compare(&s, "the short sheet");
    compare(&p, "the sparing sheet");
    compare(&c, "planning's counts");
    return want;
}

/* The sheet of a plan, for a ticket and a stop that are accepted, with rounds put after it, idle or not: it passes, charged as the plan, with the
 * fetches of all rounds. */
static struct sheet longer_plan(const struct input *in)
{
    static struct ref_action schedule[REF_ROUNDS * REF_DISKS];
    static uint8_t sheet[REF_SHEET];
    static struct ref_job job;
    struct chance c = chance_for(in->after, 0);
    struct ref_counts want, have;
    struct sheet longer = {sheet, 0};
    unsigned rounds;

    must(ref_read_ticket(in->ticket, in->ticket_length, in->stop, &job) == 0, "a plan for a ticket or a stop that is refused");
    ref_run(&job, (enum ref_rule)(in->after % 2), schedule, &want);
    rounds = draw_longer(&c, &job, schedule, want.charged);
    for (unsigned k = want.charged * job.disks; k < rounds * job.disks; k++)
        want.fetches[k % job.disks] += schedule[k].fetch != REF_NONE;
    longer.len = ref_write_sheet(schedule, rounds, job.disks, sheet, sizeof sheet);
    must(ref_check(in->ticket, in->ticket_length, in->stop, sheet, longer.len, &have) == 0, "a plan's sheet with rounds after it is refused");
    must(memcmp(&have, &want, sizeof want) == 0, "a plan's sheet with rounds after it has other counts");
    return longer;
}

/* The header's reader, on bytes of their own, so that a read past them is seen. */
static void try_references(const struct input *in)
{
    uint8_t *ticket = malloc(in->ticket_length + 1);

    must(ticket != NULL, "no memory");
    if (in->ticket_length > 0)
        memcpy(ticket + 1, in->ticket, in->ticket_length);
    must(planner_references(ticket + 1, in->ticket_length) == ref_references(in->ticket, in->ticket_length), "planner_references");
    free(ticket);
}

int LLVMFuzzerTestOneInput(const uint8_t *data, size_t size)
{
    static uint8_t sheet[2][REF_SHEET];
    struct input in = input_of(data, size);
    struct sheet first = {in.sheet[0], in.sheet_length[0]}, second = {in.sheet[1], in.sheet_length[1]}, plan[2], longer;
    struct ref_planned planned;

    try_references(&in);
    try_check(&in, first);
    try_choose(&in, first, second);
    if (ref_plan(in.ticket, in.ticket_length, in.stop, sheet[0], REF_SHEET, sheet[1], REF_SHEET, &planned) != 0) {
        try_plan(&in, (const size_t[]){1, 1});
        return 0;
    }
    try_plan(&in, planned.sheet_length);
    for (unsigned k = 0; k < 2; k++) {
        plan[k] = (struct sheet){sheet[k], planned.sheet_length[k]};
        try_check(&in, plan[k]);
    }
    longer = longer_plan(&in);
    try_check(&in, longer);
    try_choose(&in, plan[REF_P_MIN], plan[REF_P_CON]);
    try_choose(&in, plan[REF_P_MIN], first);
    try_choose(&in, first, plan[REF_P_CON]);
    try_choose(&in, first, longer);
    try_choose(&in, longer, first);
    return 0;
}

/* ---- Mutation ---- */

/* The parts of an input while they are changed. */
static struct {
    uint8_t ticket[REF_TICKET + 64], sheet[2][REF_SHEET + 64];
    size_t n, m[2], stop;
} parts;

/* Puts an input together from its parts; 0 if they are more than most bytes. */
static size_t put_together(uint8_t *data, size_t most)
{
    size_t first = HEAD + parts.n, second = first + parts.m[0], end = second + parts.m[1];

    if (end > most)
        return 0;
    data[2] = (uint8_t)(parts.n >> 8);
    data[3] = (uint8_t)parts.n;
    data[4] = (uint8_t)(parts.m[0] >> 8);
    data[5] = (uint8_t)parts.m[0];
    put_stop(data, parts.stop);
    memcpy(data + HEAD, parts.ticket, parts.n);
    memcpy(data + first, parts.sheet[0], parts.m[0]);
    memcpy(data + second, parts.sheet[1], parts.m[1]);
    return end;
}

/* A stop for a job of so many references; one in eight is above them. */
static size_t fresh_stop(struct chance *c, unsigned references)
{
    return one_in(c, 8) ? draw_stop_above(c, references) : draw_stop(c, references);
}

/* A sheet of a job up to its stop: one of its plans, or a schedule drawn by chance. Gives its length. */
static size_t fresh_sheet(struct chance *c, const struct ref_job *job, uint8_t *sheet)
{
    static struct ref_action schedule[REF_ROUNDS * REF_DISKS];
    struct ref_counts counts;
    unsigned rounds, how = below(c, 4);

    if (how < 2) {
        ref_run(job, (enum ref_rule)how, schedule, &counts);
        rounds = counts.charged;
    } else {
        rounds = draw_schedule(c, job, (enum ending)below(c, 3), schedule);
        if (how == 3)
            spoil_schedule(c, job, schedule, rounds);
    }
    return ref_write_sheet(schedule, rounds, job->disks, sheet, REF_SHEET);
}

/* A sound ticket and a stop drawn by chance, with two sheets for them, or for the whole job if the stop is above it. */
static size_t fresh(struct chance *c, uint8_t *data, size_t most)
{
    static struct ref_job job;

    draw_job(c, &job);
    parts.n = ref_write_ticket(&job, parts.ticket, sizeof parts.ticket);
    parts.stop = fresh_stop(c, job.references);
    if (parts.stop <= job.references)
        job.stop = (unsigned)parts.stop;
    for (unsigned k = 0; k < 2; k++)
        parts.m[k] = fresh_sheet(c, &job, parts.sheet[k]);
    fill(c, data, 2);
    return put_together(data, most);
}

/* Takes an input apart to be changed; false if it does not fit. */
static bool take_apart(const struct input *in)
{
    if (in->ticket_length > sizeof parts.ticket || in->sheet_length[0] > sizeof parts.sheet[0] || in->sheet_length[1] > sizeof parts.sheet[1])
        return false;
    parts.stop = in->stop;
    parts.n = in->ticket_length;
    memcpy(parts.ticket, in->ticket, parts.n);
    for (unsigned k = 0; k < 2; k++) {
        parts.m[k] = in->sheet_length[k];
        memcpy(parts.sheet[k], in->sheet[k], parts.m[k]);
    }
    return true;
}

/* Changes the ticket alone, one sheet alone, the stop alone, or all bytes as they stand; now and then a field of an accepted ticket, those of the
 * carried blocks most of all, or puts in a fresh job. */
size_t LLVMFuzzerCustomMutator(uint8_t *data, size_t size, size_t most, unsigned seed)
{
    static struct ref_job job;
    struct chance c = chance_for(seed, 0);
    struct input in = input_of(data, size);
    unsigned how = below(&c, 16);
    size_t made = 0;

    if (how == 0)
        made = fresh(&c, data, most);
    else if (how < 13 && size >= HEAD && take_apart(&in)) {
        if (how == 1 && ref_read_ticket(parts.ticket, parts.n, 0, &job) == 0)
            parts.n = damage_ticket(&c, &job, parts.ticket, parts.n);
        else if (how < 6)
            parts.n = LLVMFuzzerMutate(parts.ticket, parts.n, sizeof parts.ticket);
        else if (how < 11)
            parts.m[how % 2] = LLVMFuzzerMutate(parts.sheet[how % 2], parts.m[how % 2], sizeof parts.sheet[0]);
        else
            parts.stop = fresh_stop(&c, ref_references(parts.ticket, parts.n));
        made = put_together(data, most);
    }
    return made > 0 ? made : LLVMFuzzerMutate(data, size, most);
}
