/* draw.c - jobs, stops, schedules and damage drawn by chance. */
#include "draw.h"

#include <string.h>

enum { SELDOM = 1000000 };     /* one in so many: next to never */

/* ---- Jobs ---- */

struct sizes {
    unsigned share;            /* of 1000 jobs */
    unsigned disks, slots, blocks, references;
    bool exactly;              /* these sizes, not up to them */
    bool waiting;              /* of Theorem 8's family, so that P-CON waits long */
};

static const struct sizes sizes[] = {
    {592, 4, 3, 12, 30, false, false},
    {260, 8, 5, 40, 90, false, false},
    {120, 8, 16, 150, 400, false, false},
    {14, 8, 64, 512, 2048, false, false},
    {6, 8, 64, 512, 2048, true, false},
    {8, 8, 64, 512, 2048, false, true},
};

static const struct sizes *draw_sizes(struct chance *c)
{
    unsigned at = below(c, 1000), k = 0;

    while (at >= sizes[k].share)
        at -= sizes[k++].share;
    return &sizes[k];
}

static unsigned draw_size(struct chance *c, unsigned low, unsigned most, bool exactly)
{
    return exactly ? most : between(c, low, most);
}

static void draw_slots(struct chance *c, const struct sizes *s, struct ref_job *job)
{
    unsigned same = draw_size(c, 1, s->slots, s->exactly && one_in(c, 2));
    bool equal = one_in(c, 2);

    for (unsigned d = 0; d < job->disks; d++)
        job->slots[d] = equal ? same : between(c, 1, one_in(c, 16) ? REF_SLOTS : s->slots);
}

/* Blocks by chance, in turn, in stretches, or all on one disk. */
static void draw_places(struct chance *c, struct ref_job *job)
{
    unsigned how = below(c, 8), one = below(c, job->disks);

    for (unsigned b = 0; b < job->blocks; b++) {
        unsigned d = how < 4 ? below(c, job->disks)
                   : how < 6 ? b % job->disks
                   : how < 7 ? b * job->disks / job->blocks : one;

        job->disk[b] = (uint8_t)d;
    }
}

/* The next block after b on the same disk, going round. */
static unsigned neighbour(const struct ref_job *job, unsigned b)
{
    unsigned d = job->disk[b];

    do
        b = (b + 1) % job->blocks;
    while (job->disk[b] != d);
    return b;
}

enum pattern { UNIFORM, SKEWED, PHASES, CYCLIC, REPEATED, STRETCHES, PATTERNS };

struct habit {
    enum pattern pattern;
    unsigned set, length;      /* size of a working set or cycle; length of a phase or stretch */
    unsigned noise;            /* one in so many references is any block */
};

static unsigned draw_reference(struct chance *c, const struct ref_job *job,
                               const struct habit *h, unsigned i, unsigned last)
{
    unsigned any = below(c, job->blocks), second = below(c, job->blocks);

    if (i == 0 || one_in(c, h->noise))
        return any;
    switch (h->pattern) {
    case SKEWED:
        return any * second / job->blocks;
    case PHASES:
        return (i / h->length * 5 + below(c, h->set)) % job->blocks;
    case CYCLIC:
        return i % h->set;
    case REPEATED:
        return one_in(c, 3) ? any : last;
    case STRETCHES:            /* a disk's blocks one after the other, then another disk's */
        return i % h->length == 0 ? any : neighbour(job, last);
    default:
        return any;
    }
}

static void draw_references(struct chance *c, struct ref_job *job)
{
    struct habit h;
    unsigned last = 0;

    h.pattern = (enum pattern)below(c, PATTERNS);
    h.set = between(c, 1, one_in(c, 2) || job->blocks < 6 ? job->blocks : 6);
    h.length = between(c, 1, one_in(c, 4) ? 100 : 10);
    h.noise = one_in(c, 2) ? SELDOM : between(c, 2, 20);
    for (unsigned i = 0; i < job->references; i++) {
        last = draw_reference(c, job, &h, i, last);
        job->reference[i] = (uint16_t)last;
    }
}

/* Carries a block in, if its disk has a slot for it. */
static void carry(struct ref_job *job, unsigned *held, unsigned b)
{
    unsigned d = job->disk[b];

    if (!job->carried[b] && held[d] < job->slots[d]) {
        job->carried[b] = true;
        held[d]++;
    }
}

/* Blocks carried in, in one job of two: those that are read first, up to one of them; these and others;
 * or any, up to as many as the slots hold. */
static void draw_carried(struct chance *c, struct ref_job *job)
{
    unsigned how = below(c, 6), often = between(c, 1, 4), length = between(c, 1, 30);
    unsigned first = below(c, job->blocks), held[REF_DISKS] = {0};

    memset(job->carried, 0, sizeof job->carried);
    for (unsigned i = 0; how < 2 && i < job->references && !one_in(c, length); i++)
        carry(job, held, job->reference[i]);
    for (unsigned k = 0; (how == 1 || how == 2) && k < job->blocks; k++)
        if (one_in(c, often))
            carry(job, held, (first + k) % job->blocks);
}

/* Two of the sequences of Theorem 8's family, on one disk: a block in front and then those between two
 * places, twice, each time with its own block in front. Blocks are counted from the disk's first. */
static void put_stretch(struct ref_job *job, unsigned first, const unsigned front[2], unsigned from,
                        unsigned to)
{
    for (unsigned k = 0; k < 2; k++) {
        job->reference[job->references++] = (uint16_t)(first + front[k]);
        for (unsigned b = from; b < to; b++)
            job->reference[job->references++] = (uint16_t)(first + b);
    }
}

/* A job of the family by which Theorem 8 of document 000 shows that Theorem 7's bound is tight: M
 * slots and 2M blocks on each disk, from B_i(1) on; on each disk in turn alpha and beta, then on each
 * gamma and delta, repeated. One in six has all the disks, M = D and as many repetitions as fit, for a
 * factor above 6 with 8 disks, and carries nothing in; of the others one in three has other slots on
 * one disk. */
static void draw_waiting(struct chance *c, const struct sizes *s, struct ref_job *job)
{
    bool largest = one_in(c, 6);
    unsigned disks = largest ? s->disks : between(c, 1, s->disks), most = s->blocks / (2 * disks);
    unsigned any = between(c, 1, one_in(c, 2) ? 8 : most < s->slots ? most : s->slots);
    unsigned m = largest ? disks : any, all = s->references / (4 * m * disks);
    unsigned some = between(c, 1, one_in(c, 2) || all < 8 ? all : 8);
    unsigned repetitions = largest ? all : some, other = below(c, disks);

    job->disks = disks;
    job->blocks = 2 * m * disks;
    for (unsigned d = 0; d < disks; d++)
        job->slots[d] = m;
    for (unsigned b = 0; b < job->blocks; b++)
        job->disk[b] = (uint8_t)(b / (2 * m));
    job->references = 0;
    for (unsigned k = 0; k < 2 * repetitions; k++)
        for (unsigned d = 0; d < disks; d++)
            if (k % 2 == 0)    /* alpha and beta */
                put_stretch(job, 2 * m * d, (const unsigned[]){2 * m - 1, m - 1}, 0, m - 1);
            else               /* gamma and delta */
                put_stretch(job, 2 * m * d, (const unsigned[]){m - 1, 2 * m - 1}, m, 2 * m - 1);
    job->stop = job->references;
    if (!largest && one_in(c, 3))
        job->slots[other] = between(c, 1, REF_SLOTS);
    memset(job->carried, 0, sizeof job->carried);
    if (!largest)
        draw_carried(c, job);
}

void draw_job(struct chance *c, struct ref_job *job)
{
    const struct sizes *s = draw_sizes(c);

    if (s->waiting) {
        draw_waiting(c, s, job);
        return;
    }
    job->disks = draw_size(c, 1, s->disks, s->exactly);
    draw_slots(c, s, job);
    job->blocks = draw_size(c, 1, s->blocks, s->exactly);
    draw_places(c, job);
    job->references = job->stop = draw_size(c, 0, s->references, s->exactly);
    draw_references(c, job);
    draw_carried(c, job);
}

/* 64 slots and 64 blocks on each disk, all blocks carried in; the references by chance. */
void draw_longest_ticket(struct chance *c, struct ref_job *job)
{
    job->disks = REF_DISKS;
    job->blocks = REF_BLOCKS;
    job->references = job->stop = REF_REFERENCES;
    for (unsigned d = 0; d < job->disks; d++)
        job->slots[d] = REF_SLOTS;
    for (unsigned b = 0; b < job->blocks; b++) {
        job->disk[b] = (uint8_t)(b / REF_SLOTS);
        job->carried[b] = true;
    }
    for (unsigned i = 0; i < job->references; i++)
        job->reference[i] = (uint16_t)below(c, REF_BLOCKS);
}

/* The same, but that the last disk has one slot; it carries in its first block, and all references are
 * to it, the first to another block and no two in a row to the same. */
void draw_longest(struct chance *c, struct ref_job *job)
{
    unsigned first = REF_BLOCKS - REF_SLOTS, last = 0;

    draw_longest_ticket(c, job);
    job->slots[REF_DISKS - 1] = 1;
    for (unsigned b = first + 1; b < job->blocks; b++)
        job->carried[b] = false;
    for (unsigned i = 0; i < job->references; i++) {
        last = (last + between(c, 1, REF_SLOTS - 1)) % REF_SLOTS;
        job->reference[i] = (uint16_t)(first + last);
    }
}

/* ---- Stops ---- */

size_t draw_stop(struct chance *c, unsigned references)
{
    switch (below(c, 8)) {
    case 0: return 0;
    case 1: return references == 0 ? 0 : references - 1;
    case 2:
    case 3:
    case 4: return between(c, 0, references);
    default: return references;
    }
}

size_t draw_stop_above(struct chance *c, unsigned references)
{
    size_t not_above = between(c, 0, references);
    size_t high = between(c, 1, UINT16_MAX);

    switch (below(c, 8)) {
    case 0:
    case 1: return references + 1u;
    case 2: return SIZE_MAX;
    case 3: return high << 16 | not_above;
    case 4: return high << 32 | not_above;
    case 5: return high << 48 | not_above;
    case 6: return references + high;
    default: return high << 16 | below(c, UINT16_MAX + 1);
    }
}

/* ---- Schedules ---- */

/* A run in progress, kept here on its own so that nothing is borrowed from the reference. */
struct run {
    const struct ref_job *job;
    bool in[REF_BLOCKS];
    unsigned held[REF_DISKS], next_read;
    unsigned idle;             /* one action in so many is idle, where allowed */
    unsigned beside_empty;     /* one fetch in so many discards beside an empty slot: 20; 0: none */
    unsigned wise;             /* the discarded block is the last due of so many */
};

static void read_on(struct run *run)
{
    const struct ref_job *job = run->job;

    while (run->next_read < job->stop && run->in[job->reference[run->next_read]])
        run->next_read++;
}

/* A run that starts with what the job carries in, read as far as that allows. */
static struct run begin(const struct ref_job *job)
{
    struct run run = {.job = job};

    for (unsigned b = 0; b < job->blocks; b++)
        if (job->carried[b]) {
            run.in[b] = true;
            run.held[job->disk[b]]++;
        }
    read_on(&run);
    return run;
}

/* Some block of disk d that is in the buffer, or out of it; REF_NONE if there is none. */
static unsigned some_block(struct chance *c, const struct run *run, unsigned d, bool in)
{
    unsigned start = below(c, run->job->blocks);

    for (unsigned k = 0; k < run->job->blocks; k++) {
        unsigned b = (start + k) % run->job->blocks;

        if (run->job->disk[b] == d && run->in[b] == in)
            return b;
    }
    return REF_NONE;
}

/* The block of disk d, outside the buffer, that is due first; else any outside. */
static unsigned due_block(struct chance *c, const struct run *run, unsigned d)
{
    for (unsigned i = run->next_read; i < run->job->stop; i++) {
        unsigned b = run->job->reference[i];

        if (run->job->disk[b] == d && !run->in[b])
            return b;
    }
    return some_block(c, run, d, false);
}

/* How many references come before the next one of b; looks 100 ahead at most. */
static unsigned due_in(const struct run *run, unsigned b)
{
    unsigned k = 0;

    while (k < 100 && run->next_read + k < run->job->stop &&
           run->job->reference[run->next_read + k] != b)
        k++;
    return run->next_read + k < run->job->stop ? k : 100;
}

/* A buffered block of disk d to discard: the last due of a few. */
static unsigned some_victim(struct chance *c, const struct run *run, unsigned d)
{
    unsigned victim = some_block(c, run, d, true);

    for (unsigned k = 1; k < run->wise; k++) {
        unsigned other = some_block(c, run, d, true);

        if (due_in(run, other) > due_in(run, victim))
            victim = other;
    }
    return victim;
}

/* An allowed action, but for discards beside an empty slot. A wise run fetches what is due first
 * and discards nothing due before it. */
static struct ref_action draw_action(struct chance *c, const struct run *run, unsigned d,
                                     bool demanded)
{
    struct ref_action a = {REF_NONE, REF_NONE};

    if (!demanded && one_in(c, run->idle))
        return a;
    a.fetch = (uint16_t)(demanded || run->wise > 1 || one_in(c, 2)
                             ? due_block(c, run, d) : some_block(c, run, d, false));
    if (a.fetch == REF_NONE)
        return a;
    if (run->held[d] == run->job->slots[d] ||
        (run->held[d] > 0 && run->beside_empty > 0 && one_in(c, run->beside_empty)))
        a.discard = (uint16_t)some_victim(c, run, d);
    if (a.discard != REF_NONE && !demanded && run->wise > 1 &&
        due_in(run, a.discard) < due_in(run, a.fetch))
        return (struct ref_action){REF_NONE, REF_NONE};
    return a;
}

static void act(struct run *run, unsigned d, struct ref_action a)
{
    if (a.discard != REF_NONE)
        run->in[a.discard] = false;
    if (a.fetch != REF_NONE)
        run->in[a.fetch] = true;
    run->held[d] += (a.fetch != REF_NONE) - (a.discard != REF_NONE);
}

static void play_round(struct chance *c, struct run *run, bool demand, struct ref_action *actions)
{
    const struct ref_job *job = run->job;
    unsigned next = run->next_read;

    for (unsigned d = 0; d < job->disks; d++) {
        bool demanded = demand && next < job->stop && job->disk[job->reference[next]] == d;
        struct ref_action a = draw_action(c, run, d, demanded);

        act(run, d, a);
        actions[d] = a;
    }
    read_on(run);
}

/* Rounds after the last reference, put after those that a schedule has: idle all of them, one in
 * two, or as it comes. */
static unsigned draw_after(struct chance *c, struct run *run, struct ref_action *schedule,
                           unsigned rounds)
{
    unsigned more = one_in(c, 30) ? REF_ROUNDS : between(c, 1, 9), idle = below(c, 3);
    unsigned disks = run->job->disks;

    for (; more > 0 && rounds < REF_ROUNDS; more--, rounds++) {
        struct ref_action *actions = schedule + rounds * disks;

        if (idle == 0 || (idle == 1 && one_in(c, 2)))
            for (unsigned d = 0; d < disks; d++)
                actions[d] = (struct ref_action){REF_NONE, REF_NONE};
        else
            play_round(c, run, false, actions);
    }
    return rounds;
}

unsigned draw_longer(struct chance *c, const struct ref_job *job, struct ref_action *schedule,
                     unsigned rounds)
{
    struct run run = begin(job);

    run.next_read = job->stop;
    run.idle = between(c, 1, 6);
    run.wise = 1;
    for (unsigned k = 0; k < rounds * job->disks; k++)
        act(&run, k % job->disks, schedule[k]);
    return draw_after(c, &run, schedule, rounds);
}

unsigned draw_schedule(struct chance *c, const struct ref_job *job, enum ending ending,
                       struct ref_action *schedule)
{
    struct run run = begin(job);
    unsigned rounds = 0, lazy = between(c, 2, 6);

    run.wise = one_in(c, 2) ? 1 : between(c, 2, 4);
    run.beside_empty = one_in(c, 5) ? between(c, 1, 100) : SELDOM;
    run.idle = one_in(c, run.wise > 1 ? 2 : 5) ? SELDOM : between(c, 1, 6);
    while (run.next_read < job->stop) {
        bool must = REF_ROUNDS - rounds <= job->stop - run.next_read;

        play_round(c, &run, must || run.wise > 1 || !one_in(c, lazy),
                   schedule + rounds * job->disks);
        rounds++;
    }
    if (ending == UNFINISHED && rounds > 0)
        return below(c, rounds);
    return ending == LATE ? draw_after(c, &run, schedule, rounds) : rounds;
}

/* Some block that is carried in; if there is none, another. */
static unsigned some_carried(struct chance *c, const struct ref_job *job)
{
    unsigned start = below(c, job->blocks), k = 0;

    while (k < job->blocks && !job->carried[(start + k) % job->blocks])
        k++;
    return (start + k) % job->blocks;
}

static void spoil_action(struct chance *c, const struct ref_job *job, struct ref_action *a)
{
    switch (below(c, 12)) {
    case 0: a->fetch = (uint16_t)below(c, REF_BLOCKS); break;
    case 1: a->fetch = (uint16_t)below(c, job->blocks); break;
    case 2: a->fetch = (uint16_t)job->blocks; break;
    case 3: a->discard = (uint16_t)below(c, REF_BLOCKS); break;
    case 4: a->discard = (uint16_t)below(c, job->blocks); break;
    case 5: a->discard = (uint16_t)job->blocks; break;
    case 6: a->discard = a->fetch; break;
    case 7: *a = (struct ref_action){REF_NONE, REF_NONE}; break;
    case 8: a->fetch = (uint16_t)some_carried(c, job); break;
    case 9: a->discard = (uint16_t)some_carried(c, job); break;
    default: a->discard = REF_NONE; break;
    }
}

void spoil_schedule(struct chance *c, const struct ref_job *job, struct ref_action *schedule,
                    unsigned rounds)
{
    unsigned actions = rounds * job->disks, at = below(c, actions);

    for (unsigned tries = 0; tries < 20 && actions > 0 && schedule[at].fetch == REF_NONE; tries++)
        at = below(c, actions);
    for (bool more = actions > 0; more; more = ++at < actions && one_in(c, 2))
        spoil_action(c, job, &schedule[at]);
}

/* ---- Damage ---- */

/* Lays a value over a field of written bytes. */
static void poke(uint8_t *bytes, size_t at, unsigned width, unsigned value)
{
    for (unsigned k = 0; k < width; k++, at++) {
        uint8_t mask = (uint8_t)(0x80 >> at % 8);

        if (value >> (width - 1 - k) & 1)
            bytes[at / 8] |= mask;
        else
            bytes[at / 8] &= (uint8_t)~mask;
    }
}

/* A value above the highest allowed, often the next one. */
static unsigned above(struct chance *c, unsigned highest, unsigned width)
{
    return one_in(c, 2) ? highest + 1 : between(c, highest + 1, (1u << width) - 1);
}

static unsigned zero_or_above(struct chance *c, unsigned highest, unsigned width)
{
    return one_in(c, 3) ? 0 : above(c, highest, width);
}

static size_t damage(struct chance *c, uint8_t *bytes, size_t len)
{
    unsigned at;

    switch (below(c, 7)) {
    case 0:                    /* bits flipped */
        for (unsigned k = between(c, 1, 3); len > 0 && k > 0; k--) {
            at = below(c, 8 * (unsigned)len);
            bytes[at / 8] ^= (uint8_t)(1u << at % 8);
        }
        return len;
    case 1:                    /* cut, often within the first few fields */
        return below(c, len > 8 && one_in(c, 2) ? 8 : (unsigned)len);
    case 2:                    /* cut by one byte */
        return len == 0 ? 0 : len - 1;
    case 3:                    /* extended by zeros */
        memset(bytes + len, 0, SPARE / 2);
        return len + between(c, 1, SPARE / 2);
    case 4:                    /* extended by chance */
        fill(c, bytes + len, SPARE / 2);
        return len + between(c, 1, SPARE / 2);
    case 5:                    /* closing bits set, if there are any */
        if (len > 0)
            bytes[len - 1] |= (uint8_t)(1u << (one_in(c, 2) ? 0 : below(c, 7)));
        return len;
    default:                   /* anything */
        fill(c, bytes, len);
        return len;
    }
}

unsigned carried_on(const struct ref_job *job, unsigned d)
{
    unsigned count = 0;

    for (unsigned b = 0; b < job->blocks; b++)
        count += job->carried[b] && job->disk[b] == d;
    return count;
}

/* The block of which so many that the disk carries in come before. */
static unsigned carried_at(const struct ref_job *job, unsigned d, unsigned k)
{
    unsigned b = 0;

    while (!(job->carried[b] && job->disk[b] == d && k-- == 0))
        b++;
    return b;
}

/* A number for that place which mostly is refused: the one before it, a lower one, one on another disk,
 * or one that the job has not. */
static unsigned wrong_number(struct chance *c, const struct ref_job *job, unsigned d, unsigned k)
{
    unsigned before = k > 0 ? carried_at(job, d, k - 1) : 0, how = below(c, 5);

    if (k > 0 && how < 3)
        return how < 2 ? before : below(c, before + 1);
    for (unsigned b = below(c, job->blocks); how == 3 && b < job->blocks; b++)
        if (job->disk[b] != d)
            return b;
    return job->blocks < REF_BLOCKS ? above(c, job->blocks - 1, 9) : 0;
}

/* Damage to the fields of the carried blocks, which begin at a bit: a count out of range, one more or
 * less, a number that is refused, or the end. */
static size_t damage_carried(struct chance *c, const struct ref_job *job, uint8_t *bytes, size_t at,
                             size_t len)
{
    unsigned d = below(c, job->disks), how = below(c, 7), count, k;

    if (8 * len <= at)
        return len;
    if (how == 0)
        return (at + below(c, 8 * (unsigned)len - (unsigned)at)) / 8;
    for (unsigned tries = 0; tries < 8 && how > 3 && carried_on(job, d) == 0; tries++)
        d = below(c, job->disks);
    count = carried_on(job, d);
    k = below(c, count);
    for (unsigned before = 0; before < d; before++)
        at += 7 + 9 * carried_on(job, before);
    if (how < 3)
        poke(bytes, at, 7, above(c, job->slots[d], 7));
    else if (how == 3 || count == 0)
        poke(bytes, at, 7, count > 0 && one_in(c, 2) ? count - 1 : count + 1);
    else
        poke(bytes, at + 7 + 9 * k, 9, wrong_number(c, job, d, k));
    return len;
}

static size_t damage_ticket_once(struct chance *c, const struct ref_job *job, uint8_t *bytes,
                                 size_t len)
{
    size_t blocks = 4 + 7 * job->disks, references = blocks + 10 + 3 * job->blocks;
    unsigned d = below(c, job->disks), b = below(c, job->blocks);
    unsigned i = below(c, job->references);

    switch (below(c, 16)) {
    case 0: poke(bytes, 0, 4, zero_or_above(c, REF_DISKS, 4)); return len;
    case 1: poke(bytes, 4 + 7 * d, 7, zero_or_above(c, REF_SLOTS, 7)); return len;
    case 2: poke(bytes, blocks, 10, zero_or_above(c, REF_BLOCKS, 10)); return len;
    case 3: poke(bytes, references, 12, above(c, REF_REFERENCES, 12)); return len;
    case 4: poke(bytes, references, 12, job->references + 1); return len;
    case 5:
        if (job->disks < REF_DISKS)
            poke(bytes, blocks + 10 + 3 * b, 3, above(c, job->disks - 1, 3));
        return len;
    case 6:
        if (job->references > 0 && job->blocks < REF_BLOCKS)
            poke(bytes, references + 12 + 9 * i, 9, above(c, job->blocks - 1, 9));
        return len;
    case 7:
    case 8:
    case 9:
    case 10:
        return damage_carried(c, job, bytes, references + 12 + 9 * job->references, len);
    default:
        return damage(c, bytes, len);
    }
}

static size_t damage_sheet_once(struct chance *c, uint8_t *bytes, size_t len)
{
    unsigned rounds = (unsigned)bytes[0] << 4 | bytes[1] >> 4;

    switch (below(c, 10)) {
    case 0: poke(bytes, 0, 12, above(c, REF_ROUNDS, 12)); return len;
    case 1: poke(bytes, 0, 12, rounds + 1); return len;
    case 2: poke(bytes, 0, 12, rounds == 0 ? 0 : rounds - 1); return len;
    default: return damage(c, bytes, len);
    }
}

size_t damage_ticket(struct chance *c, const struct ref_job *job, uint8_t *bytes, size_t len)
{
    len = damage_ticket_once(c, job, bytes, len);
    return one_in(c, 2) ? damage_ticket_once(c, job, bytes, len) : len;
}

size_t damage_sheet(struct chance *c, uint8_t *bytes, size_t len)
{
    len = damage_sheet_once(c, bytes, len);
    return one_in(c, 2) ? damage_sheet_once(c, bytes, len) : len;
}
