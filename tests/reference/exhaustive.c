/* exhaustive.c - every schedule of small jobs up to a stop, against the two plans.
 *
 * usage: exhaustive [SEED [COUNT]]
 * A state is the next read and the set of resident blocks. A job starts with the blocks that it
 * carries in, read as far as they allow. All states that allowed actions can reach from there are
 * searched, for each disk on its own for the fewest fetches there, and then for the fewest rounds
 * charged; and once more with discards beside an empty slot, which document 01 allows and
 * request L3 does not. A schedule may go on when all references before the stop are consumed: its
 * rounds then are not charged, and its fetches count. Exit 0 only if the fewest are the fetches of
 * P-CON and the rounds of P-MIN in both searches, though the second reaches some states in fewer
 * rounds, or alone; the sheets of both plans pass the check with the plans' counts, and have no
 * rounds but those charged; the way to a state that was reached, with idle rounds put in, is a sheet
 * that passes with the rounds that the search found, and is chosen by them; the choice between the
 * plans' sheets follows the rounds, and each line of the page says what the sheet handed back does,
 * with the letter of the papers; all that planning gives is the same for the job that ends at the
 * stop, and with other references from there on; either plan goes on as it does for a job that carries
 * in what its buffers hold after some of its rounds; P-CON takes at most as many rounds as it has
 * fetches on all disks, at most D times the rounds of P-MIN on D disks (request L8), and as many on
 * one; the least slot count of a disk, for a number of rounds, is the least by the search of each count,
 * with the short sheet for it, and none exactly if the search finds none; and stops of 0, of N and in
 * between, rounds after the last reference, idle and fetching, idle rounds before it, no rounds charged,
 * jobs that carry blocks in and that carry none, that are read before round 1 in part and to the stop,
 * with a disk full of carried blocks, and of such that are never read, with 2 and with 3 disks more than
 * D - 1 times the rounds of P-MIN, no slot count, and slot counts below, of and above the ticket's own, of
 * 1, and of 2 or more carried blocks were met. */
#include "chance.h"
#include "reference.h"

#include <inttypes.h>
#include <stdio.h>
#include <stdlib.h>
#include <string.h>

/* MOST_REFERENCES is before the stop, MOST_PAST from there on. */
enum { MOST_DISKS = 3, MOST_BLOCKS = 8, MOST_REFERENCES = 32, MOST_PAST = 6 };
enum { ANY_BLOCKS = 6, ANY_REFERENCES = 20 };   /* of jobs that are not of Theorem 8's kind */
enum { SETS = 1 << MOST_BLOCKS };
enum { ROUNDS = MOST_DISKS, UNREACHED = 1000000 };
enum { FILL = 0xa5 };          /* of a lent buffer; no short sheet begins so */

/* What all disks do in one round. */
struct round {
    struct ref_action action[MOST_DISKS];
};

/* How a state was reached: the round, and the state at its start. */
struct step {
    unsigned next_read, set;
    struct round round;
};

struct search {
    const struct ref_job *job;
    unsigned of_disk[MOST_DISKS];            /* the set of blocks on each disk */
    unsigned measure;                        /* ROUNDS, or the disk whose fetches count */
    bool beside_empty;                       /* discards beside an empty slot are allowed */
    unsigned cost[MOST_REFERENCES + 1][SETS];
    struct step step[MOST_REFERENCES + 1][SETS];
    struct step now;                         /* the round that is tried */
    bool changed;
};

static unsigned size(unsigned set)
{
    return set == 0 ? 0 : (set & 1) + size(set >> 1);
}

/* Reading, as far as a set of resident blocks allows, up to the stop. Gives the next read. */
static unsigned read_on(const struct ref_job *job, unsigned set, unsigned next_read)
{
    while (next_read < job->stop && set >> job->reference[next_read] & 1)
        next_read++;
    return next_read;
}

/* The blocks that a job carries in. */
static unsigned carried_in(const struct ref_job *job)
{
    unsigned set = 0;

    for (unsigned b = 0; b < job->blocks; b++)
        set |= (unsigned)job->carried[b] << b;
    return set;
}

/* The end of a round: reading, then the state's cost if it is the least so far. */
static void arrive(struct search *s, unsigned set, unsigned cost)
{
    unsigned next_read = read_on(s->job, set, s->now.next_read);

    if (cost < s->cost[next_read][set]) {
        s->cost[next_read][set] = cost;
        s->step[next_read][set] = s->now;
        s->changed = true;
    }
}

/* Every allowed action of disk d, each followed by every one of the disks after it. A round is
 * charged if a reference is left at its start. */
static void each_action(struct search *s, unsigned d, unsigned set, unsigned cost)
{
    unsigned after = cost + (s->measure == d);
    struct ref_action *a = &s->now.round.action[d];
    bool empty;

    if (d == s->job->disks) {
        arrive(s, set, cost + (s->measure == ROUNDS && s->now.next_read < s->job->stop));
        return;
    }
    *a = (struct ref_action){REF_NONE, REF_NONE};
    each_action(s, d + 1, set, cost);
    empty = size(set & s->of_disk[d]) < s->job->slots[d];
    for (unsigned x = 0; x < s->job->blocks; x++) {
        if (s->job->disk[x] != d || (set >> x & 1))
            continue;
        *a = (struct ref_action){(uint16_t)x, REF_NONE};
        if (empty)
            each_action(s, d + 1, set | 1u << x, after);
        for (unsigned y = 0; (!empty || s->beside_empty) && y < s->job->blocks; y++)
            if (s->job->disk[y] == d && (set >> y & 1)) {
                a->discard = (uint16_t)y;
                each_action(s, d + 1, (set & ~(1u << y)) | 1u << x, after);
            }
    }
}

/* The least rounds charged, or fetches on a disk, of all schedules that consume every reference before
 * the stop, with any rounds after that. */
static unsigned least(struct search *s, unsigned measure)
{
    unsigned best = UNREACHED, carried = carried_in(s->job);

    s->measure = measure;
    for (unsigned p = 0; p <= s->job->stop; p++)
        for (unsigned set = 0; set < SETS; set++)
            s->cost[p][set] = UNREACHED;
    s->cost[read_on(s->job, carried, 0)][carried] = 0;
    do {
        s->changed = false;
        for (unsigned p = 0; p <= s->job->stop; p++)
            for (unsigned set = 0; set < 1u << s->job->blocks; set++)
                if (s->cost[p][set] != UNREACHED) {
                    s->now.next_read = p;
                    s->now.set = set;
                    each_action(s, 0, set, s->cost[p][set]);
                }
    } while (s->changed);
    for (unsigned set = 0; set < SETS; set++)
        if (s->cost[s->job->stop][set] < best)
            best = s->cost[s->job->stop][set];
    return best;
}

/* How many blocks a disk carries in. */
static unsigned carried_on(const struct ref_job *job, unsigned d)
{
    unsigned count = 0;

    for (unsigned b = 0; b < job->blocks; b++)
        count += job->disk[b] == d && job->carried[b];
    return count;
}

/* Blocks carried in, so many as the slots hold: one of two as it comes, or each that fits. */
static void draw_carried(struct chance *c, struct ref_job *job)
{
    bool each = one_in(c, 3);
    unsigned first = below(c, job->blocks);

    for (unsigned k = 0; k < job->blocks; k++) {
        unsigned b = (first + k) % job->blocks, d = job->disk[b];

        if (carried_on(job, d) < job->slots[d] && (each || one_in(c, 2)))
            job->carried[b] = true;
    }
}

/* The jobs of Theorem 8's kind: the family's own with two disks, two slots on each and two
 * repetitions; and, as that with three disks has too many blocks, one with three disks, found by
 * trying, for which P-MIN takes 7 rounds and P-CON 15. */
static const struct ref_job waiting[] = {
    {.disks = 2, .slots = {2, 2}, .blocks = 8, .disk = {0, 0, 0, 0, 1, 1, 1, 1},
     .references = 32, .reference = {3, 0, 1, 0, 7, 4, 5, 4, 1, 2, 3, 2, 5, 6, 7, 6,
                                     3, 0, 1, 0, 7, 4, 5, 4, 1, 2, 3, 2, 5, 6, 7, 6}},
    {.disks = 3, .slots = {2, 1, 2}, .blocks = 8, .disk = {0, 0, 0, 1, 1, 2, 2, 2},
     .references = 30, .reference = {0, 2, 6, 4, 3, 2, 1, 5, 7, 3, 4, 0, 2, 6, 5,
                                     4, 3, 1, 0, 7, 6, 3, 4, 2, 1, 5, 7, 0, 6, 5}},
};

/* One of these: whole, or, by chance and if it may be, with a reference changed, up to a stop, or with
 * blocks carried in. */
static void draw_waiting_job(struct chance *c, unsigned which, bool whole, struct ref_job *job)
{
    unsigned how = whole ? 0 : below(c, 4), at;

    *job = waiting[which];
    at = below(c, job->references);
    job->stop = how == 2 ? at : job->references;
    if (how == 1)
        job->reference[at] = (uint16_t)below(c, job->blocks);
    if (how == 3)
        draw_carried(c, job);
}

/* Two jobs in three are of any kind, with at most 8 references before the stop. The third has two
 * disks with one and two slots, is longer and reads in stretches of one disk: there the two plans
 * often part. In two jobs of three the stop may be before the end; one in two carries blocks in. */
static void draw_any_job(struct chance *c, struct ref_job *job)
{
    bool tight = one_in(c, 3);
    unsigned last = 0;

    memset(job, 0, sizeof *job);
    job->disks = tight ? 2 : between(c, 1, MOST_DISKS);
    job->blocks = tight ? ANY_BLOCKS : between(c, 1, ANY_BLOCKS);
    job->stop = tight ? between(c, 9, ANY_REFERENCES) : between(c, 0, 8);
    job->references = job->stop + (one_in(c, 3) ? 0 : below(c, MOST_PAST + 1));
    for (unsigned d = 0; d < job->disks; d++)
        job->slots[d] = tight ? d + 1 : between(c, 1, 3);
    for (unsigned b = 0; b < job->blocks; b++)
        job->disk[b] = (uint8_t)(tight ? b >= 2 : below(c, job->disks));
    for (unsigned i = 0; i < job->references; i++) {
        unsigned b = below(c, job->blocks);

        if (tight && i > 0 && !one_in(c, 3))
            while (job->disk[b] != job->disk[last])
                b = below(c, job->blocks);
        job->reference[i] = (uint16_t)b;
        last = b;
    }
    if (one_in(c, 2))
        draw_carried(c, job);
}

/* Every 100th job is of Theorem 8's kind, the one with 2 disks and the one with 3 in turn; the first of
 * each is whole, so that 200 jobs meet both. */
static void draw_small_job(struct chance *c, uint64_t number, struct ref_job *job)
{
    if (number % 100 == 99)
        draw_waiting_job(c, number / 100 % 2, number < 200, job);
    else
        draw_any_job(c, job);
}

/* A ticket and a stop, and both sheets by rule. */
struct written {
    uint8_t ticket[REF_TICKET], sheet[2][REF_SHEET];
    size_t n, stop;
};

/* Both sheets pass, with the counts planning gave; 0 if not. */
static bool both_pass(const struct ref_job *job, struct written *w, struct ref_planned *planned)
{
    struct ref_counts counts;

    w->n = ref_write_ticket(job, w->ticket, sizeof w->ticket);
    w->stop = job->stop;
    if (ref_plan(w->ticket, w->n, w->stop, w->sheet[0], REF_SHEET, w->sheet[1], REF_SHEET,
                 planned) != 0)
        return false;
    for (int k = 0; k < 2; k++)
        if (ref_check(w->ticket, w->n, w->stop, w->sheet[k], planned->sheet_length[k],
                      &counts) != 0 || memcmp(&counts, &planned->counts[k], sizeof counts) != 0)
            return false;
    return true;
}

/* With the sheet of this rule first and the other's second, the sheet of the wanted rule is handed
 * back. */
static bool chooses(const struct written *w, const struct ref_planned *planned, enum ref_rule first,
                    enum ref_rule wanted)
{
    enum ref_rule second = first == REF_P_MIN ? REF_P_CON : REF_P_MIN;
    struct ref_chosen chosen;

    return ref_choose(w->ticket, w->n, w->stop, w->sheet[first], planned->sheet_length[first],
                      w->sheet[second], planned->sheet_length[second], &chosen) == 0 &&
           chosen.which == (wanted == second) && chosen.length == planned->sheet_length[wanted];
}

/* P-MIN's sheet first: P-CON's is handed back if both take equally many rounds, which the mark
 * says too. P-CON's sheet first: P-MIN's always is, as it takes no more rounds. */
static bool choices_follow_rounds(const struct written *w, const struct ref_planned *planned)
{
    bool equal = planned->counts[REF_P_CON].charged == planned->counts[REF_P_MIN].charged;

    return planned->mark == (equal ? REF_P_CON : REF_P_MIN) &&
           chooses(w, planned, REF_P_MIN, equal ? REF_P_CON : REF_P_MIN) &&
           chooses(w, planned, REF_P_CON, REF_P_MIN);
}

static void search_in(struct search *s, const struct ref_job *job)
{
    s->job = job;
    memset(s->of_disk, 0, sizeof s->of_disk);
    for (unsigned b = 0; b < job->blocks; b++)
        s->of_disk[job->disk[b]] |= 1u << b;
}

/* The costs that the search leaves are of rounds. */
static bool plans_are_least(struct search *s, const struct ref_job *job,
                            const struct ref_planned *planned)
{
    bool good = true;

    search_in(s, job);
    for (unsigned d = 0; d < job->disks; d++)
        good = good && least(s, d) == planned->counts[REF_P_CON].fetches[d];
    return good && least(s, ROUNDS) == planned->counts[REF_P_MIN].charged;
}

/* The states that a takes more rounds to reach than b, or does not reach. */
static unsigned later(const struct search *a, const struct search *b)
{
    unsigned states = 0;

    for (unsigned p = 0; p <= a->job->stop; p++)
        for (unsigned set = 0; set < SETS; set++)
            states += a->cost[p][set] > b->cost[p][set];
    return states;
}

/* ---- A sheet, read once more ---- */

/* The next field of a sheet. */
static unsigned take(const uint8_t *sheet, size_t *at, unsigned width)
{
    unsigned value = 0;

    for (; width > 0; width--, ++*at)
        value = value << 1 | (sheet[*at / 8] >> (7 - *at % 8) & 1);
    return value;
}

static struct ref_action take_action(const uint8_t *sheet, size_t *at)
{
    struct ref_action a = {REF_NONE, REF_NONE};

    if (take(sheet, at, 1) == 1) {
        a.fetch = (uint16_t)take(sheet, at, 9);
        if (take(sheet, at, 1) == 1)
            a.discard = (uint16_t)take(sheet, at, 9);
    }
    return a;
}

/* The buffers after an action. */
static unsigned after(unsigned set, struct ref_action a)
{
    if (a.discard != REF_NONE)
        set &= ~(1u << a.discard);
    if (a.fetch != REF_NONE)
        set |= 1u << a.fetch;
    return set;
}

/* The round of a sheet in which the last reference before the stop is consumed, 0 if there is none. */
static unsigned last_reading(const struct ref_job *job, const uint8_t *sheet)
{
    unsigned set = carried_in(job), next_read = read_on(job, set, 0), last = 0;
    size_t at = 0, written = take(sheet, &at, 12);

    for (unsigned round = 1; round <= written; round++) {
        for (unsigned d = 0; d < job->disks; d++)
            set = after(set, take_action(sheet, &at));
        for (; next_read < job->stop && set >> job->reference[next_read] & 1; next_read++)
            last = round;
    }
    return last;
}

/* Either plan's sheet has so many rounds as are charged, and its last one consumes the last
 * reference. */
static bool plans_are_charged(const struct ref_job *job, const struct written *w,
                              const struct ref_planned *planned)
{
    bool good = true;

    for (int k = 0; k < 2; k++) {
        size_t at = 0;

        good = good && take(w->sheet[k], &at, 12) == planned->counts[k].charged &&
               last_reading(job, w->sheet[k]) == planned->counts[k].charged;
    }
    return good;
}

/* ---- How long P-CON waits ---- */

/* The largest factor met: the job whose rounds of P-CON are the most times those of P-MIN, by disks. */
static struct {
    unsigned p_min, p_con;
} longest_wait[MOST_DISKS + 1];

static void count_wait(unsigned disks, unsigned p_min, unsigned p_con)
{
    if (longest_wait[disks].p_min == 0 ||
        p_con * longest_wait[disks].p_min > longest_wait[disks].p_con * p_min) {
        longest_wait[disks].p_min = p_min;
        longest_wait[disks].p_con = p_con;
    }
}

/* The bound that the rounds of P-CON do not keep, or NULL: on one disk those of P-MIN; D times those of
 * P-MIN (request L8); its fetches on all disks, as none of its rounds is idle on every disk. Where no
 * schedule beats the plans, the first two follow from the third; so they are tested before it. */
static const char *waits_too_long(const struct ref_job *job, const struct ref_planned *planned)
{
    unsigned p_min = planned->counts[REF_P_MIN].charged, fetches = 0;
    unsigned p_con = planned->counts[REF_P_CON].charged;

    for (unsigned d = 0; d < job->disks; d++)
        fetches += planned->counts[REF_P_CON].fetches[d];
    if (job->disks == 1 && p_con != p_min)
        return "OTHER ROUNDS OF P-CON ON ONE DISK";
    if (p_con > job->disks * p_min)
        return "MORE THAN D TIMES THE ROUNDS OF P-MIN";
    if (p_con > fetches)
        return "MORE ROUNDS OF P-CON THAN FETCHES";
    count_wait(job->disks, p_min, p_con);
    return NULL;
}

/* Prints the largest factors met; false if P-CON never took more than D - 1 times the rounds of P-MIN
 * with 2 or with 3 disks. */
static bool long_waits_met(void)
{
    bool all = true;

    printf("  rounds of P-CON to those of P-MIN, at most, by disks:");
    for (unsigned d = 1; d <= MOST_DISKS; d++) {
        printf(" %u: %u to %u%s", d, longest_wait[d].p_con, longest_wait[d].p_min,
               d < MOST_DISKS ? "," : "\n");
        all = all && (d == 1 || longest_wait[d].p_con > (d - 1) * longest_wait[d].p_min);
    }
    return all;
}

/* ---- The ways of the search, as sheets ---- */

/* No way is longer: no more rounds are charged than there are references, and after these each set
 * comes once. */
enum { MOST_WAY = MOST_REFERENCES + SETS, MOST_IDLE = 2 };

/* A way of the search to a state at the stop, with idle rounds put in, and what the check must give
 * for it. */
struct way {
    struct ref_action schedule[(MOST_IDLE + 1) * (MOST_WAY + 1) * MOST_DISKS];
    unsigned rounds;
    struct ref_counts want;
    uint8_t sheet[REF_SHEET];
    size_t length;
};

static struct {
    unsigned long none, whole, between;   /* stops: 0, N, and others */
    unsigned long carried, empty;         /* jobs that carry blocks in, and that carry none */
    unsigned long in_part, in_whole;      /* read before round 1, in part and to the stop */
    unsigned long full, unread;           /* a disk full of carried blocks; none of which is read */
    unsigned long sooner;      /* states that discards beside an empty slot reach sooner, or alone */
    unsigned long slower, spares;
    unsigned long waited;      /* ways with idle rounds before the last reference is consumed */
    unsigned long idle, fetched;          /* with idle rounds after it, with fetches after it */
    unsigned long uncharged;   /* ways that have rounds, of which none is charged */
    unsigned long tied;        /* ways charged as P-MIN is, with more rounds */
    unsigned long fewer, same, more, no_count;  /* least slot counts, to the ticket's own; none */
    unsigned long one, of_carried;        /* of 1; of as many as 2 or more carried blocks */
} met;

static void put_round(const struct ref_job *job, struct way *way, const struct round *round)
{
    for (unsigned d = 0; d < job->disks; d++) {
        way->schedule[way->rounds * job->disks + d] = round->action[d];
        way->want.fetches[d] += round->action[d].fetch != REF_NONE;
    }
    way->rounds++;
}

/* Some idle rounds, or none; they are charged if references are left. Gives how many. */
static unsigned put_idle(struct chance *c, const struct ref_job *job, struct way *way, bool left)
{
    static const struct round idle = {{{REF_NONE, REF_NONE}, {REF_NONE, REF_NONE},
                                       {REF_NONE, REF_NONE}}};
    unsigned more = below(c, MOST_IDLE + 1);

    for (unsigned k = 0; k < more; k++)
        put_round(job, way, &idle);
    way->want.charged += left ? more : 0;
    return more;
}

/* Some set that is reached with all references before the stop consumed. */
static unsigned reached(struct chance *c, const struct search *s)
{
    unsigned sets = 1u << s->job->blocks, set = below(c, sets);

    while (s->cost[s->job->stop][set] == UNREACHED)
        set = (set + 1) % sets;
    return set;
}

/* The way to such a set, by a search that counts rounds. */
static void build_way(struct chance *c, const struct search *s, struct way *way)
{
    unsigned set = reached(c, s), at = s->job->stop, steps = 0, waited = 0, idle = 0, fetched = 0;
    unsigned carried = carried_in(s->job), start = read_on(s->job, carried, 0);
    const struct step *step[MOST_WAY];

    memset(way, 0, sizeof *way);
    way->want.charged = (uint16_t)s->cost[at][set];
    for (; at != start || set != carried; at = step[steps]->next_read, set = step[steps]->set, steps++)
        step[steps] = &s->step[at][set];
    while (steps-- > 0) {
        bool left = step[steps]->next_read < s->job->stop;

        *(left ? &waited : &idle) += put_idle(c, s->job, way, left);
        put_round(s->job, way, &step[steps]->round);
        fetched += !left;
    }
    idle += put_idle(c, s->job, way, false);
    met.waited += waited > 0;
    met.idle += idle > 0;
    met.fetched += fetched > 0;
    met.uncharged += way->rounds > 0 && way->want.charged == 0;
    way->length = ref_write_sheet(way->schedule, way->rounds, s->job->disks, way->sheet,
                                  sizeof way->sheet);
}

/* The check gives the rounds that the search found, and the fetches of all rounds. */
static bool way_is_charged(const struct written *w, const struct way *way)
{
    struct ref_counts counts;

    return ref_check(w->ticket, w->n, w->stop, way->sheet, way->length, &counts) == 0 &&
           memcmp(&counts, &way->want, sizeof counts) == 0;
}

/* Beside P-MIN's sheet: after it, it is handed back for equal rounds alone; before it, never. */
static bool way_is_chosen(const struct written *w, const struct ref_planned *planned,
                          const struct way *way)
{
    const struct ref_counts *p_min = &planned->counts[REF_P_MIN];
    bool equal = way->want.charged == p_min->charged;
    struct ref_chosen as_second, as_first;

    met.tied += equal && way->rounds > p_min->charged;
    return ref_choose(w->ticket, w->n, w->stop, w->sheet[REF_P_MIN],
                      planned->sheet_length[REF_P_MIN], way->sheet, way->length, &as_second) == 0 &&
           ref_choose(w->ticket, w->n, w->stop, way->sheet, way->length, w->sheet[REF_P_MIN],
                      planned->sheet_length[REF_P_MIN], &as_first) == 0 &&
           as_second.which == equal && as_first.which == 1;
}

/* ---- The page, line by line ---- */

enum { LETTERS = 5 };

static const char letters[LETTERS + 1] = "EMSWN";
static unsigned long letters_met[LETTERS];

/* The position of the first reference, at or after this one, to a block of the set; the stop if there
 * is none before it. */
static unsigned due(const struct ref_job *job, unsigned set, unsigned at)
{
    while (at < job->stop && !(set >> job->reference[at] & 1))
        at++;
    return at;
}

/* A disk at the start of a round. */
struct seen {
    unsigned held, outside;    /* its blocks in the buffer, and the others */
    unsigned slots, next_read;
};

static struct seen look(const struct ref_job *job, unsigned d, unsigned set, unsigned next_read)
{
    struct seen s = {0, 0, job->slots[d], next_read};

    for (unsigned b = 0; b < job->blocks; b++)
        if (job->disk[b] == d)
            *(set >> b & 1 ? &s.held : &s.outside) |= 1u << b;
    return s;
}

/* Whether this one of the buffered blocks is due last; of several that are never, the highest. */
static bool due_last(const struct ref_job *job, const struct seen *s, unsigned block)
{
    unsigned when = due(job, 1u << block, s->next_read);

    for (unsigned b = 0; b < job->blocks; b++)
        if (s->held >> b & 1) {
            unsigned other = due(job, 1u << b, s->next_read);

            if (other > when || (other == when && b > block))
                return false;
        }
    return true;
}

/* The letter by the papers' words, or 0 if the action is not what they say. With full slots: S if
 * every buffered block is read before U; M if one is replaced; else W, which only P-CON gives. */
static char letter_of(const struct ref_job *job, const struct seen *s, enum ref_rule rule,
                      struct ref_action a)
{
    unsigned before = 0, u_due = due(job, s->outside, s->next_read);
    bool idle = a.fetch == REF_NONE;

    if (u_due == job->stop)
        return idle ? 'N' : 0;
    if (!idle && a.fetch != job->reference[u_due])
        return 0;
    if (size(s->held) < s->slots)
        return !idle && a.discard == REF_NONE ? 'E' : 0;
    for (unsigned i = s->next_read; i < u_due; i++)
        before |= 1u << job->reference[i];
    if ((s->held & ~before) == 0)
        return idle ? 'S' : 0;
    if (idle)
        return rule == REF_P_CON ? 'W' : 0;
    return a.discard < job->blocks && (s->held >> a.discard & 1) && due_last(job, s, a.discard)
               ? 'M' : 0;
}

/* A block in three columns. */
static void put_block(char *to, uint16_t block)
{
    if (block == REF_NONE)
        strcpy(to, "---");
    else
        sprintf(to, "%3u", (unsigned)block);
}

/* One line of the page against one action of the sheet. */
static bool line_agrees(const uint8_t *line, unsigned round, unsigned d, struct ref_action a,
                        char letter)
{
    char want[64], fetched[16], discarded[16];

    if (letter == 0)
        return false;
    letters_met[strchr(letters, letter) - letters]++;
    put_block(fetched, a.fetch);
    put_block(discarded, a.discard);
    sprintf(want, "%4u %u %s %s %c\n", round, d, fetched, discarded, letter);
    return strlen(want) == REF_LINE && memcmp(line, want, REF_LINE) == 0;
}

/* Replays a sheet beside its page: a line for each round and disk, then the legend. */
static bool page_agrees(const struct ref_job *job, enum ref_rule rule, const uint8_t *sheet,
                        const uint8_t *page, size_t length)
{
    static const char legend[] = "E empty slot    \nM min-block out \nS used sooner   \n"
                                 "W waits         \nN none left     \n";
    unsigned set = carried_in(job), next_read = read_on(job, set, 0);
    size_t at = 0, rounds = take(sheet, &at, 12);

    if (length != rounds * job->disks * REF_LINE + strlen(legend))
        return false;
    for (unsigned round = 1; round <= rounds; round++) {
        for (unsigned d = 0; d < job->disks; d++, page += REF_LINE) {
            struct seen s = look(job, d, set, next_read);
            struct ref_action a = take_action(sheet, &at);

            if (!line_agrees(page, round, d, a, letter_of(job, &s, rule, a)))
                return false;
            set = after(set, a);
        }
        next_read = read_on(job, set, next_read);
    }
    return memcmp(page, legend, strlen(legend)) == 0;
}

/* All that the page call gives. */
struct paged {
    uint8_t sheet[2][REF_SHEET], page[REF_PAGE];
    struct ref_paged out;
};

static bool ask_page(const struct written *w, struct paged *p)
{
    return ref_page(w->ticket, w->n, w->stop, p->sheet[0], REF_SHEET, p->sheet[1], REF_SHEET,
                    p->page, REF_PAGE, &p->out) == 0;
}

/* The page call gives what planning gave. */
static bool same_plans(const struct paged *p, const struct written *w,
                       const struct ref_planned *planned)
{
    if (p->out.planned.mark != planned->mark || p->out.planned.length != planned->length)
        return false;
    for (int k = 0; k < 2; k++)
        if (memcmp(&p->out.planned.counts[k], &planned->counts[k], sizeof planned->counts[k]) != 0 ||
            p->out.planned.sheet_length[k] != planned->sheet_length[k] ||
            memcmp(p->sheet[k], w->sheet[k], planned->sheet_length[k]) != 0)
            return false;
    return true;
}

/* The page call gives what planning gives, and the page agrees with the sheet handed back. */
static bool page_follows(const struct ref_job *job, const struct written *w,
                         const struct ref_planned *planned)
{
    static struct paged p;

    return ask_page(w, &p) && same_plans(&p, w, planned) &&
           page_agrees(job, (enum ref_rule)planned->mark, p.sheet[planned->mark], p.page,
                       p.out.length);
}

/* ---- What is past the stop ---- */

/* All that planning gives, the page too, is the same for this job, up to the same stop. */
static bool same_for(const struct ref_job *other, const struct written *w,
                     const struct ref_planned *planned)
{
    static struct paged want, have;
    struct written o = {.stop = other->stop};

    o.n = ref_write_ticket(other, o.ticket, sizeof o.ticket);
    return ask_page(w, &want) && ask_page(&o, &have) && same_plans(&have, w, planned) &&
           have.out.length == want.out.length &&
           memcmp(have.page, want.page, want.out.length) == 0;
}

/* For the job that ends at the stop, where the stop is N. */
static bool stop_is_end(const struct ref_job *job, const struct written *w,
                        const struct ref_planned *planned)
{
    struct ref_job other = *job;

    other.references = job->stop;
    return same_for(&other, w, planned);
}

/* For a job that goes on from the stop, for as long as may be, with other references. */
static bool past_is_ignored(struct chance *c, const struct ref_job *job, const struct written *w,
                            const struct ref_planned *planned)
{
    struct ref_job other = *job;

    other.references = job->stop + below(c, MOST_PAST + 1);
    for (unsigned i = job->stop; i < other.references; i++)
        other.reference[i] = (uint16_t)below(c, job->blocks);
    return same_for(&other, w, planned);
}

/* ---- A plan that goes on from what it holds ---- */

/* A rule's plan, cut after some of its rounds: a job that carries in what is in the buffers then, with
 * the references from those on that the last of these rounds consumed, has the rest of the plan. */
static bool rest_is_planned(struct chance *c, const struct ref_job *job, enum ref_rule rule,
                            const uint8_t *sheet)
{
    static struct ref_action schedule[REF_ROUNDS * REF_DISKS];
    unsigned set = carried_in(job), next_read = read_on(job, set, 0), before = 0;
    size_t at = 0, rounds = take(sheet, &at, 12), played = below(c, (unsigned)rounds + 1);
    struct ref_job rest = *job;
    struct ref_counts counts;

    for (size_t round = 0; round < played; round++) {
        for (unsigned d = 0; d < job->disks; d++)
            set = after(set, take_action(sheet, &at));
        before = next_read;
        next_read = read_on(job, set, next_read);
    }
    rest.references -= before;
    rest.stop -= before;
    memmove(rest.reference, rest.reference + before, rest.references * sizeof rest.reference[0]);
    for (unsigned b = 0; b < job->blocks; b++)
        rest.carried[b] = set >> b & 1;
    ref_run(&rest, rule, schedule, &counts);
    for (size_t k = 0; k < (rounds - played) * job->disks; k++) {
        struct ref_action a = take_action(sheet, &at);

        if (a.fetch != schedule[k].fetch || a.discard != schedule[k].discard)
            return false;
    }
    return counts.charged == rounds - played;
}

/* What does not hold of a job whose plans pass, or NULL. */
static const char *cut_job(struct chance *c, const struct ref_job *job)
{
    static struct written written;
    struct ref_planned planned;

    return both_pass(job, &written, &planned) &&
           rest_is_planned(c, job, REF_P_MIN, written.sheet[REF_P_MIN]) &&
           rest_is_planned(c, job, REF_P_CON, written.sheet[REF_P_CON])
               ? NULL : "A PLAN GOES ON OTHERWISE";
}

/* ---- The least slot count ---- */

/* The fewest rounds charged, by the slots of one disk: from the least count that is allowed up to one
 * that is as good as any greater, as the disk has no more blocks. */
struct by_slots {
    unsigned disk, low, high, fewest[MOST_BLOCKS + 1];
};

static void search_counts(const struct ref_job *job, unsigned d, struct by_slots *by)
{
    static struct search s = {.beside_empty = false};
    unsigned carried = carried_on(job, d);
    struct ref_job other = *job;

    search_in(&s, &other);
    by->disk = d;
    by->low = carried > 1 ? carried : 1;
    by->high = size(s.of_disk[d]) > by->low ? size(s.of_disk[d]) : by->low;
    for (other.slots[d] = by->low; other.slots[d] <= by->high; other.slots[d]++)
        by->fewest[other.slots[d]] = least(&s, ROUNDS);
}

/* The first count, 0 if there is none, with which the search finishes within these rounds. */
static unsigned first_count(const struct by_slots *by, size_t wanted)
{
    for (unsigned s = by->low; s <= by->high; s++)
        if (by->fewest[s] <= wanted)
            return s;
    return 0;
}

/* The fewest rounds of some count, one less or one more; none, or more than any sheet has. */
static size_t draw_wanted(struct chance *c, const struct by_slots *by, unsigned slots)
{
    static const size_t many[] = {REF_ROUNDS, UINT32_MAX, SIZE_MAX};
    unsigned some = between(c, by->low, by->high), how = below(c, 8);
    unsigned own = slots < by->high ? slots : by->high;
    unsigned fewest = by->fewest[how < 4 ? own : some];

    if (how == 7)
        return one_in(c, 2) ? 0 : many[below(c, 3)];
    return how % 4 == 1 ? fewest + 1 : how % 4 == 2 && fewest > 0 ? fewest - 1 : fewest;
}

/* The sheet is P-MIN's for the job with this count, which passes with the rounds that the search
 * found. */
static bool is_short_sheet(const struct ref_job *job, const struct by_slots *by, unsigned slots,
                           const uint8_t *sheet, size_t length)
{
    static struct written w;
    struct ref_job other = *job;
    struct ref_planned planned;

    other.slots[by->disk] = slots;
    return both_pass(&other, &w, &planned) &&
           planned.counts[REF_P_MIN].charged == by->fewest[slots] &&
           planned.sheet_length[REF_P_MIN] == length &&
           memcmp(w.sheet[REF_P_MIN], sheet, length) == 0;
}

/* Which of the least slot counts is met. With fewer slots than carried blocks, if that were allowed,
 * no slot would be empty and the run would be as with so many slots as blocks; so each count of these
 * is one where fewer would do. */
static void count_slots(const struct ref_job *job, const struct by_slots *by, unsigned slots)
{
    unsigned own = job->slots[by->disk];

    met.no_count += slots == 0;
    met.fewer += slots > 0 && slots < own;
    met.same += slots == own;
    met.more += slots > own;
    met.one += slots == 1;
    met.of_carried += slots > 1 && slots == carried_on(job, by->disk);
}

/* What does not hold of the least slot count of a disk, or NULL. */
static const char *slots_are_least(struct chance *c, const struct ref_job *job,
                                   const struct written *w, const struct by_slots *by)
{
    static uint8_t sheet[REF_SHEET];
    size_t wanted = draw_wanted(c, by, job->slots[by->disk]);
    unsigned slots = first_count(by, wanted);
    struct ref_slotted slotted;

    sheet[0] = FILL;
    if (ref_slots(w->ticket, w->n, w->stop, by->disk, wanted, sheet, REF_SHEET, &slotted) != 0 ||
        slotted.slots != slots) {
        printf("disk %u, %zu rounds: %u slots, 0 for none, by the search, and %u by the reference\n",
               by->disk, wanted, slots, slotted.slots);
        return "ANOTHER SLOT COUNT";
    }
    if (slots == 0 ? sheet[0] != FILL : !is_short_sheet(job, by, slots, sheet, slotted.length))
        return "ANOTHER SHEET FOR THE SLOTS";
    count_slots(job, by, slots);
    return NULL;
}

/* Some disk, and two numbers of rounds. */
static const char *try_slots(struct chance *c, const struct ref_job *job, const struct written *w)
{
    const char *wrong = NULL;
    struct by_slots by;

    search_counts(job, below(c, job->disks), &by);
    for (unsigned k = 0; k < 2 && wrong == NULL; k++)
        wrong = slots_are_least(c, job, w, &by);
    return wrong;
}

/* ---- All of it ---- */

/* What a job carries in, and how far it is read before round 1. */
static void count_carried(const struct ref_job *job)
{
    unsigned set = carried_in(job), next_read = read_on(job, set, 0), read = 0;
    bool full = false, unread = false;

    for (unsigned i = 0; i < job->stop; i++)
        read |= 1u << job->reference[i];
    for (unsigned d = 0; d < job->disks; d++)
        if (carried_on(job, d) == job->slots[d]) {
            unsigned due = 0;

            for (unsigned b = 0; b < job->blocks; b++)
                due += job->disk[b] == d && (set & read) >> b & 1;
            full = true;
            unread = unread || due == 0;
        }
    met.carried += set != 0;
    met.empty += set == 0;
    met.in_part += next_read > 0 && next_read < job->stop;
    met.in_whole += next_read > 0 && next_read == job->stop;
    met.full += full;
    met.unread += unread;
}

static void count_met(const struct ref_job *job, const struct ref_planned *planned)
{
    count_carried(job);
    met.none += job->stop == 0;
    met.whole += job->stop == job->references;
    met.between += job->stop > 0 && job->stop < job->references;
    met.slower += planned->counts[REF_P_CON].charged > planned->counts[REF_P_MIN].charged;
    met.spares += memcmp(planned->counts[0].fetches, planned->counts[1].fetches,
                         sizeof planned->counts[0].fetches) != 0;
}

/* What does not hold of a job, or NULL. */
static const char *search_job(struct chance *c, const struct ref_job *job)
{
    static struct search now = {.beside_empty = false}, before = {.beside_empty = true};
    static struct written written;
    static struct way way;
    struct ref_planned planned;
    const char *wrong;

    if (!both_pass(job, &written, &planned) || !plans_are_least(&now, job, &planned))
        return "NOT THE LEAST";
    if (!plans_are_least(&before, job, &planned))
        return "LONGER THAN BEFORE L3";
    met.sooner += later(&now, &before);
    if (!stop_is_end(job, &written, &planned))
        return "THE STOP IS NOT AS THE END";
    if (!past_is_ignored(c, job, &written, &planned))
        return "WHAT IS PAST THE STOP COUNTS";
    if (!plans_are_charged(job, &written, &planned))
        return "A PLAN HAS OTHER ROUNDS THAN THOSE CHARGED";
    build_way(c, &now, &way);
    if (!way_is_charged(&written, &way))
        return "OTHER COUNTS THAN THE SEARCH FOUND";
    if (!choices_follow_rounds(&written, &planned) || !way_is_chosen(&written, &planned, &way))
        return "ANOTHER CHOICE";
    if (!page_follows(job, &written, &planned))
        return "ANOTHER PAGE";
    wrong = waits_too_long(job, &planned);
    if (wrong == NULL)
        wrong = try_slots(c, job, &written);
    if (wrong != NULL)
        return wrong;
    count_met(job, &planned);
    return NULL;
}

/* Says what does not hold of a job, and gives the exit status. */
static int report(const char *what, uint64_t seed, uint64_t k, const struct ref_job *job)
{
    printf("%s: seed %" PRIu64 ", job %" PRIu64 "\n", what, seed, k);
    printf("  %u disks; slots", job->disks);
    for (unsigned d = 0; d < job->disks; d++)
        printf(" %u", job->slots[d]);
    printf("; disks of the blocks");
    for (unsigned b = 0; b < job->blocks; b++)
        printf(" %u", job->disk[b]);
    printf("; references");
    for (unsigned i = 0; i < job->references; i++)
        printf(" %u", job->reference[i]);
    printf("; stop %u; carried in", job->stop);
    for (unsigned b = 0; b < job->blocks; b++)
        if (job->carried[b])
            printf(" %u", b);
    printf("\n");
    return 1;
}

/* Prints what was met; false if something was not. */
static bool all_met(void)
{
    bool waits;

    printf("  stops of 0: %lu, of N: %lu, in between: %lu\n", met.none, met.whole, met.between);
    printf("  jobs that carry blocks in: %lu, none: %lu; read before round 1 in part: %lu, to the "
           "stop: %lu;\n    with a disk full of carried blocks: %lu, of such that are never read: %lu\n",
           met.carried, met.empty, met.in_part, met.in_whole, met.full, met.unread);
    printf("  discards beside an empty slot reach %lu states sooner, or alone\n", met.sooner);
    printf("  P-CON took more rounds than P-MIN in %lu, and other fetches in %lu\n", met.slower,
           met.spares);
    waits = long_waits_met();
    printf("  ways of the search as sheets: idle before the last reference is consumed %lu, idle "
           "after it %lu, fetching after it %lu,\n    with no round charged %lu, charged as P-MIN "
           "with more rounds %lu\n", met.waited, met.idle, met.fetched, met.uncharged, met.tied);
    printf("  letters met:");
    for (unsigned k = 0; k < LETTERS; k++)
        printf(" %c:%lu", letters[k], letters_met[k]);
    printf("\n  least slot counts below the ticket's own: %lu, equal: %lu, above: %lu, none: %lu; of 1: "
           "%lu, of 2 or more carried blocks: %lu\n", met.fewer, met.same, met.more, met.no_count,
           met.one, met.of_carried);
    return waits && met.none > 0 && met.whole > 0 && met.between > 0 && met.sooner > 0 &&
           met.waited > 0 && met.idle > 0 && met.fetched > 0 && met.uncharged > 0 && met.tied > 0 &&
           met.carried > 0 && met.empty > 0 && met.in_part > 0 && met.in_whole > 0 && met.full > 0 &&
           met.unread > 0 && met.fewer > 0 && met.same > 0 && met.more > 0 && met.no_count > 0 &&
           met.one > 0 && met.of_carried > 0;
}

/* Tries all jobs, and gives the exit status. */
static int try_jobs(uint64_t seed, uint64_t count,
                    const char *(*try)(struct chance *, const struct ref_job *))
{
    for (uint64_t k = 0; k < count; k++) {
        struct chance c = chance_for(seed, k);
        struct ref_job job;
        const char *wrong;

        draw_small_job(&c, k, &job);
        wrong = try(&c, &job);
        if (wrong != NULL)
            return report(wrong, seed, k, &job);
    }
    return 0;
}

int main(int argc, char **argv)
{
    uint64_t seed = argc > 1 ? strtoull(argv[1], NULL, 10) : 1;
    uint64_t count = argc > 2 ? strtoull(argv[2], NULL, 10) : 10000;
    bool all;

    if (try_jobs(seed, count, search_job) != 0 || try_jobs(seed, count, cut_job) != 0)
        return 1;
    printf("%" PRIu64 " jobs searched (seed %" PRIu64 "): the plans are the least in all from the "
           "blocks carried in, with and without L3,\n  whatever rounds follow the last reference, and "
           "the same whatever is past the stop; they go on alike from what their buffers hold;\n  the "
           "choices follow the rounds charged, and the pages the sheets;\n  P-CON takes at most D times "
           "the rounds of P-MIN, and no more than its fetches;\n  the least slot counts are the least for their "
           "rounds\n", count, seed);
    all = all_met();
    if (!all)
        printf("FAIL: a kind of stop, of carried blocks, of way or of slot count, a wait of more than "
               "D - 1 times the rounds, or a state that is reached sooner, or only, with discards beside "
               "an empty slot, was never met\n");
    return !all;
}
