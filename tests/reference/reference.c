/* reference.c - document 01 and requests L1 to L5, L7, L9 and L10, sentence by sentence; words
 * between quotation marks are their own. */
#include "reference.h"

#include <stdbool.h>
#include <string.h>

/* ---- Fields: "packed without gaps, most significant bit first" ---- */

struct reader {
    const uint8_t *bytes;
    size_t len, at;            /* length in bytes, place in bits */
};

/* Reads a field of at most 16 bits; false if the input ends inside it. */
static bool field(struct reader *r, unsigned width, unsigned *value)
{
    size_t first = r->at / 8;
    uint32_t window = 0;

    if (width > 8 * r->len - r->at)
        return false;
    for (size_t k = first; k < first + 3; k++)
        window = window << 8 | (k < r->len ? r->bytes[k] : 0u);
    *value = window >> (24 - r->at % 8 - width) & ((1u << width) - 1);
    r->at += width;
    return true;
}

/* "... each end in zero bits up to the next byte edge, fewer than eight, with no byte after." */
static bool closes(struct reader *r)
{
    size_t left = 8 * r->len - r->at;
    unsigned bits;

    return left < 8 && field(r, (unsigned)left, &bits) && bits == 0;
}

struct writer {
    uint8_t *bytes;            /* zero before anything is put */
    size_t at;
};

static void put(struct writer *w, unsigned width, unsigned value)
{
    while (width > 0) {
        unsigned room = 8 - (unsigned)(w->at % 8), take = width < room ? width : room;
        unsigned part = value >> (width - take) & ((1u << take) - 1);

        w->bytes[w->at / 8] |= (uint8_t)(part << (room - take));
        w->at += take;
        width -= take;
    }
}

/* ---- Ticket ---- */

/* "for each disk, a 7-bit count of blocks already in its buffer and their 9-bit numbers in strictly
 * rising order"; "25, a count above the slots, tested at the count; 26, a number not above the one
 * before it, B or more, or on another disk, tested at that number" */
static unsigned read_carried(struct reader *r, struct ref_job *job)
{
    memset(job->carried, 0, sizeof job->carried);
    for (unsigned d = 0; d < job->disks; d++) {
        unsigned count, v, least = 0;  /* least: one more than the number before */

        if (!field(r, 7, &count))
            return 1;
        if (count > job->slots[d])
            return 25;
        for (unsigned k = 0; k < count; k++) {
            if (!field(r, 9, &v))
                return 1;
            if (v < least || v >= job->blocks || job->disk[v] != d)
                return 26;
            job->carried[v] = true;
            least = v + 1;
        }
    }
    return 0;
}

/* "The ticket is read first, field by field"; "1 and 9 are tested before a field's value"; 25 and 26
 * "both before 8". */
static unsigned read_fields(const uint8_t *ticket, size_t n, struct ref_job *job)
{
    struct reader r = {ticket, n, 0};
    unsigned v, number;

    if (!field(&r, 4, &job->disks))
        return 1;
    if (job->disks == 0 || job->disks > REF_DISKS)
        return 2;
    for (unsigned d = 0; d < job->disks; d++) {
        if (!field(&r, 7, &job->slots[d]))
            return 1;
        if (job->slots[d] == 0 || job->slots[d] > REF_SLOTS)
            return 3;
    }
    if (!field(&r, 10, &job->blocks))
        return 1;
    if (job->blocks == 0 || job->blocks > REF_BLOCKS)
        return 4;
    for (unsigned b = 0; b < job->blocks; b++) {
        if (!field(&r, 3, &v))
            return 1;
        if (v >= job->disks)
            return 5;
        job->disk[b] = (uint8_t)v;
    }
    if (!field(&r, 12, &job->references))
        return 1;
    if (job->references > REF_REFERENCES)
        return 6;
    for (unsigned i = 0; i < job->references; i++) {
        if (!field(&r, 9, &v))
            return 1;
        if (v >= job->blocks)
            return 7;
        job->reference[i] = (uint16_t)v;
    }
    number = read_carried(&r, job);
    if (number != 0)
        return number;
    return closes(&r) ? 0 : 8;
}

/* "21, the stop is above N, tested after 8" */
unsigned ref_read_ticket(const uint8_t *ticket, size_t n, size_t stop, struct ref_job *job)
{
    unsigned number = read_fields(ticket, n, job);

    if (number != 0)
        return number;
    if (stop > job->references)
        return 21;
    job->stop = (unsigned)stop;
    return 0;
}

unsigned ref_references(const uint8_t *ticket, size_t n)
{
    struct reader r = {ticket, n, 0};
    unsigned disks, blocks, references, v;

    if (!field(&r, 4, &disks))
        return 0;
    for (unsigned d = 0; d < disks; d++)
        if (!field(&r, 7, &v))
            return 0;
    if (!field(&r, 10, &blocks))
        return 0;
    for (unsigned b = 0; b < blocks; b++)
        if (!field(&r, 3, &v))
            return 0;
    return field(&r, 12, &references) ? references : 0;
}

/* The blocks that a disk carries in. */
static unsigned carried_on(const struct ref_job *job, unsigned d)
{
    unsigned count = 0;

    for (unsigned b = 0; b < job->blocks; b++)
        count += job->carried[b] && job->disk[b] == d;
    return count;
}

static void put_carried(struct writer *w, const struct ref_job *job, unsigned d)
{
    put(w, 7, carried_on(job, d));
    for (unsigned b = 0; b < job->blocks; b++)
        if (job->carried[b] && job->disk[b] == d)
            put(w, 9, b);
}

static size_t ticket_length(const struct ref_job *job)
{
    size_t bits = 4 + 7 * job->disks + 10 + 3 * job->blocks + 12 + 9 * job->references;

    for (unsigned d = 0; d < job->disks; d++)
        bits += 7 + 9 * carried_on(job, d);
    return (bits + 7) / 8;
}

size_t ref_write_ticket(const struct ref_job *job, uint8_t *buf, size_t room)
{
    size_t len = ticket_length(job);
    struct writer w = {buf, 0};

    if (len > room)
        return len;
    memset(buf, 0, len);
    put(&w, 4, job->disks);
    for (unsigned d = 0; d < job->disks; d++)
        put(&w, 7, job->slots[d]);
    put(&w, 10, job->blocks);
    for (unsigned b = 0; b < job->blocks; b++)
        put(&w, 3, job->disk[b]);
    put(&w, 12, job->references);
    for (unsigned i = 0; i < job->references; i++)
        put(&w, 9, job->reference[i]);
    for (unsigned d = 0; d < job->disks; d++)
        put_carried(&w, job, d);
    return len;
}

/* ---- Sheet ---- */

/* "the bit 0 (no fetch), or 1 and a 9-bit fetched block, followed by 0 (nothing discarded) or by
 * 1 and a 9-bit discarded block" */
static void put_action(struct writer *w, struct ref_action a)
{
    put(w, 1, a.fetch != REF_NONE);
    if (a.fetch == REF_NONE)
        return;
    put(w, 9, a.fetch);
    put(w, 1, a.discard != REF_NONE);
    if (a.discard != REF_NONE)
        put(w, 9, a.discard);
}

static size_t sheet_length(const struct ref_action *schedule, size_t actions)
{
    size_t bits = 12;

    for (size_t k = 0; k < actions; k++)
        bits += schedule[k].fetch == REF_NONE ? 1 : schedule[k].discard == REF_NONE ? 11 : 20;
    return (bits + 7) / 8;
}

size_t ref_write_sheet(const struct ref_action *schedule, unsigned rounds, unsigned disks,
                       uint8_t *buf, size_t room)
{
    size_t actions = (size_t)rounds * disks, len = sheet_length(schedule, actions);
    struct writer w = {buf, 0};

    if (len > room)
        return len;
    memset(buf, 0, len);
    put(&w, 12, rounds);
    for (size_t k = 0; k < actions; k++)
        put_action(&w, schedule[k]);
    return len;
}

/* ---- Playing a round ---- */

/* "one mark for each of the 512 block numbers", and how many blocks each disk holds */
struct buffers {
    bool resident[REF_BLOCKS];
    unsigned held[REF_DISKS];
};

/* "the discarded block leaves, then the fetched one enters" */
static void act(struct buffers *s, unsigned d, struct ref_action a)
{
    if (a.discard != REF_NONE) {
        s->resident[a.discard] = false;
        s->held[d]--;
    }
    if (a.fetch != REF_NONE) {
        s->resident[a.fetch] = true;
        s->held[d]++;
    }
}

/* "the reading stops at the first missing block or at the end", which is now the stop: "none at or
 * past it is consumed" */
static unsigned consume(const struct ref_job *job, const struct buffers *s, unsigned next_read)
{
    while (next_read < job->stop && s->resident[job->reference[next_read]])
        next_read++;
    return next_read;
}

/* "Every sheet for a ticket starts from the same carried blocks": they are in the buffers, and "before
 * round 1 the suite reads as far as these allow". Gives the next read. */
static unsigned start(const struct ref_job *job, struct buffers *s)
{
    memset(s, 0, sizeof *s);
    for (unsigned b = 0; b < job->blocks; b++)
        if (job->carried[b]) {
            s->resident[b] = true;
            s->held[job->disk[b]]++;
        }
    return consume(job, s, 0);
}

/* ---- The two plans ---- */

/* Positions, held "as 16-bit numbers". "The lookup of the next reference now answers 'never' for
 * references at or past the stop": never is the stop, "greatest of all". */
struct lookup {
    uint16_t next[REF_REFERENCES];  /* the next position of the same block after this one */
    uint16_t distance[REF_BLOCKS];  /* the first position at or after the next read */
};

static void build_lookup(const struct ref_job *job, struct lookup *l)
{
    for (unsigned b = 0; b < job->blocks; b++)
        l->distance[b] = (uint16_t)job->stop;
    for (unsigned i = job->stop; i-- > 0;) {
        l->next[i] = l->distance[job->reference[i]];
        l->distance[job->reference[i]] = (uint16_t)i;
    }
}

/* Keeps the distances up when the references from one position to another are consumed. */
static void keep_up(const struct ref_job *job, struct lookup *l, unsigned from, unsigned to)
{
    for (unsigned i = from; i < to; i++)
        l->distance[job->reference[i]] = l->next[i];
}

/* A disk at the start of a round. */
struct view {
    uint16_t u;                /* REF_NONE: there is no U */
    uint16_t min_block;        /* REF_NONE: the buffer is empty */
};

/* U: outside the buffer, "with the least distance; if all of these are never, there is no U".
 * Min-block: "the buffered block with the greatest distance; ... among several of never the
 * highest block number is taken". Only nevers are ever equal. */
static void survey(const struct ref_job *job, const struct buffers *s, const struct lookup *l,
                   struct view *view)
{
    for (unsigned d = 0; d < job->disks; d++)
        view[d] = (struct view){REF_NONE, REF_NONE};
    for (unsigned b = 0; b < job->blocks; b++) {
        struct view *v = &view[job->disk[b]];

        if (s->resident[b]) {
            if (v->min_block == REF_NONE || l->distance[b] >= l->distance[v->min_block])
                v->min_block = (uint16_t)b;
        } else if (l->distance[b] < job->stop) {
            if (v->u == REF_NONE || l->distance[b] < l->distance[v->u])
                v->u = (uint16_t)b;
        }
    }
}

/* "counted from the position of U's reference on, some buffered block has a later distance than
 * the min-block, two nevers counting as equal" */
static bool waits(const struct ref_job *job, const struct buffers *s, const struct lookup *l,
                  unsigned d, struct view v)
{
    for (unsigned b = 0; b < job->blocks; b++) {
        unsigned from_u = l->distance[b];

        if (job->disk[b] != d || !s->resident[b])
            continue;
        while (from_u < l->distance[v.u])
            from_u = l->next[from_u];
        if (from_u > l->distance[v.min_block])
            return true;
    }
    return false;
}

/* "In each round and on each disk": the letter of the rule that gives the action. "E into an empty
 * slot, M in place of the min-block, S idle because the min-block is due sooner than U, W idle
 * because the sparing plan waits though S does not hold, N no U." */
static char decide(const struct ref_job *job, const struct buffers *s, const struct lookup *l,
                   enum ref_rule rule, unsigned d, struct view v)
{
    if (v.u == REF_NONE)
        return 'N';
    if (s->held[d] < job->slots[d])
        return 'E';
    if (l->distance[v.min_block] < l->distance[v.u])
        return 'S';
    if (rule == REF_P_CON && waits(job, s, l, d, v))
        return 'W';
    return 'M';
}

static struct ref_action action_of(char letter, struct view v)
{
    const struct ref_action idle = {REF_NONE, REF_NONE};

    if (letter == 'E')
        return (struct ref_action){v.u, REF_NONE};
    if (letter == 'M')
        return (struct ref_action){v.u, v.min_block};
    return idle;
}

/* A plan while it is played. */
struct run {
    struct buffers s;
    struct lookup l;
    unsigned next_read;
};

static void begin(const struct ref_job *job, struct run *r)
{
    memset(r, 0, sizeof *r);
    build_lookup(job, &r->l);
    r->next_read = start(job, &r->s);
    keep_up(job, &r->l, 0, r->next_read);
}

/* One round: an action and its letter for each disk. */
static void play_round(const struct ref_job *job, enum ref_rule rule, struct run *r,
                       struct ref_action *actions, char *letters)
{
    struct view view[REF_DISKS];
    unsigned before = r->next_read;

    survey(job, &r->s, &r->l, view);
    for (unsigned d = 0; d < job->disks; d++) {
        letters[d] = decide(job, &r->s, &r->l, rule, d, view[d]);
        actions[d] = action_of(letters[d], view[d]);
        act(&r->s, d, actions[d]);
    }
    r->next_read = consume(job, &r->s, before);
    keep_up(job, &r->l, before, r->next_read);
}

/* "Planning starts a round only while references remain", so that the last one consumes the last
 * reference, and all are charged. */
void ref_run(const struct ref_job *job, enum ref_rule rule, struct ref_action *schedule,
             struct ref_counts *counts)
{
    char letters[REF_DISKS];
    struct run r;

    memset(counts, 0, sizeof *counts);
    for (begin(job, &r); r.next_read < job->stop; schedule += job->disks) {
        play_round(job, rule, &r, schedule, letters);
        for (unsigned d = 0; d < job->disks; d++)
            counts->fetches[d] += schedule[d].fetch != REF_NONE;
        counts->charged++;
    }
}

/* ---- The choice ---- */

/* "The second is handed back if it takes no more rounds than the first, otherwise the first": 1 for
 * the second, by the counts of both; "only total rounds decide", and "the choice of L1 and the claim
 * of fewest rounds use the charged number". In planning P-MIN's sheet is the first, and this is the
 * mark: in the worked jobs equal rounds give the sheet of P-CON. */
static uint16_t choice(const struct ref_counts *counts)
{
    return counts[1].charged <= counts[0].charged;
}

/* ---- Planning ---- */

/* Both plans of a ticket, before anything is written. */
struct drawn {
    struct ref_job job;
    struct ref_action schedule[2][REF_ROUNDS * REF_DISKS];  /* by rule */
    struct ref_planned planned;
};

/* Reads the ticket and plans it up to the stop; the number, with these rooms for the sheets. */
static unsigned draw_up(const uint8_t *ticket, size_t n, size_t stop, const size_t *room,
                        struct drawn *drawn)
{
    struct ref_planned *p = &drawn->planned;
    unsigned number = ref_read_ticket(ticket, n, stop, &drawn->job);

    if (number != 0)
        return number;
    for (int k = 0; k < 2; k++) {
        ref_run(&drawn->job, (enum ref_rule)k, drawn->schedule[k], &p->counts[k]);
        p->sheet_length[k] = sheet_length(drawn->schedule[k],
                                          (size_t)p->counts[k].charged * drawn->job.disks);
    }
    for (unsigned k = 0; k < 2; k++)
        if (p->sheet_length[k] > room[k])
            return 17 + k;
    p->mark = choice(p->counts);
    p->length = (uint16_t)p->sheet_length[p->mark];
    return 0;
}

/* "two buffers, one for each sheet, and both are written"; a plan has no rounds but those charged */
static void write_sheets(const struct drawn *drawn, uint8_t *const *buffer, const size_t *room)
{
    for (int k = 0; k < 2; k++)
        ref_write_sheet(drawn->schedule[k], drawn->planned.counts[k].charged, drawn->job.disks,
                        buffer[k], room[k]);
}

unsigned ref_plan(const uint8_t *ticket, size_t n, size_t stop, uint8_t *p_min, size_t ns,
                  uint8_t *p_con, size_t np, struct ref_planned *out)
{
    uint8_t *const buffer[2] = {p_min, p_con};
    const size_t room[2] = {ns, np};
    struct drawn drawn;
    unsigned number = draw_up(ticket, n, stop, room, &drawn);

    memset(out, 0, sizeof *out);
    if (number != 0)
        return number;
    write_sheets(&drawn, buffer, room);
    *out = drawn.planned;
    return 0;
}

/* ---- The page ---- */

/* A number, "right aligned" in so many columns. */
static void put_number(uint8_t *to, unsigned columns, unsigned value)
{
    do {
        to[--columns] = (uint8_t)('0' + value % 10);
        value /= 10;
    } while (value > 0);
    while (columns > 0)
        to[--columns] = ' ';
}

/* "3, right aligned, or ---" */
static void put_block(uint8_t *to, uint16_t block)
{
    if (block == REF_NONE)
        memcpy(to, "---", 3);
    else
        put_number(to, 3, block);
}

/* "round (4, right aligned), space, disk (1), space, fetched block ..., space, discarded block the
 * same way, space, and the letter of the rule that gave the action" */
static void put_line(uint8_t *line, unsigned round, unsigned d, struct ref_action a, char letter)
{
    memset(line, ' ', REF_LINE);
    put_number(line, 4, round);
    put_number(line + 5, 1, d);
    put_block(line + 7, a.fetch);
    put_block(line + 11, a.discard);
    line[15] = (uint8_t)letter;
    line[16] = '\n';
}

/* "Five legend lines of 16 columns close the page, in this order, filled with spaces and each ended
 * by a line feed" */
static void put_legend(uint8_t *line)
{
    static const char *const legend[REF_LEGEND] = {
        "E empty slot", "M min-block out", "S used sooner", "W waits", "N none left"
    };

    for (unsigned k = 0; k < REF_LEGEND; k++, line += REF_LINE) {
        memset(line, ' ', REF_LINE);
        memcpy(line, legend[k], strlen(legend[k]));
        line[REF_LINE - 1] = '\n';
    }
}

/* "For the plan handed back, one line per round and disk" */
static void write_page(const struct ref_job *job, enum ref_rule rule, uint8_t *page)
{
    struct ref_action actions[REF_DISKS];
    char letters[REF_DISKS];
    unsigned round = 0;
    struct run r;

    for (begin(job, &r); r.next_read < job->stop;) {
        play_round(job, rule, &r, actions, letters);
        round++;
        for (unsigned d = 0; d < job->disks; d++, page += REF_LINE)
            put_line(page, round, d, actions[d], letters[d]);
    }
    put_legend(page);
}

/* "19, the page does not fit, tested after 18" */
unsigned ref_page(const uint8_t *ticket, size_t n, size_t stop, uint8_t *p_min, size_t ns,
                  uint8_t *p_con, size_t np, uint8_t *page, size_t ng, struct ref_paged *out)
{
    uint8_t *const buffer[2] = {p_min, p_con};
    const size_t room[2] = {ns, np};
    struct drawn drawn;
    unsigned number = draw_up(ticket, n, stop, room, &drawn);
    enum ref_rule rule;
    size_t length;

    memset(out, 0, sizeof *out);
    if (number != 0)
        return number;
    rule = (enum ref_rule)drawn.planned.mark;
    length = ((size_t)drawn.planned.counts[rule].charged * drawn.job.disks + REF_LEGEND) * REF_LINE;
    if (length > ng)
        return 19;
    write_sheets(&drawn, buffer, room);
    write_page(&drawn.job, rule, page);
    out->planned = drawn.planned;
    out->length = length;
    return 0;
}

/* ---- The least slot count ---- */

/* "the least slot count for that disk, from 1 to 64 and not below the blocks it carries in, with which
 * some sheet finishes within those rounds, the other disks unchanged": as no sheet is charged fewer
 * rounds than P-MIN's, that one decides for each count. Leaves the job with this count, and P-MIN's
 * schedule for it; gives 0 for none. */
static unsigned least_slots(struct ref_job *job, unsigned d, size_t wanted,
                            struct ref_action *schedule, struct ref_counts *counts)
{
    unsigned carried = carried_on(job, d);

    for (unsigned s = 1; s <= REF_SLOTS; s++) {
        if (s < carried)
            continue;
        job->slots[d] = s;
        ref_run(job, REF_P_MIN, schedule, counts);
        if (counts->charged <= wanted)
            return s;
    }
    return 0;
}

/* "27, the disk is not in the ticket, tested after the stop, and 17 where that sheet's buffer is too
 * small"; the answer none "writes no byte" */
unsigned ref_slots(const uint8_t *ticket, size_t n, size_t stop, size_t disk, size_t wanted,
                   uint8_t *sheet, size_t room, struct ref_slotted *out)
{
    struct ref_action schedule[REF_ROUNDS * REF_DISKS];
    struct ref_counts counts;
    struct ref_job job;
    unsigned number = ref_read_ticket(ticket, n, stop, &job), slots;
    size_t length;

    memset(out, 0, sizeof *out);
    if (number != 0)
        return number;
    if (disk >= job.disks)
        return 27;
    slots = least_slots(&job, (unsigned)disk, wanted, schedule, &counts);
    if (slots == 0)
        return 0;
    length = ref_write_sheet(schedule, counts.charged, job.disks, sheet, room);
    if (length > room)
        return 17;
    out->slots = slots;
    out->length = length;
    return 0;
}

/* ---- The check ---- */

/* Reads one action and tests it: 9 before a field's value, then 11 to 14, and "20, a discard though a
 * slot is empty, tested once the discard bit is read as 1 and before the discarded block's field". */
static unsigned check_action(struct reader *r, const struct ref_job *job,
                             const struct buffers *s, unsigned d, struct ref_action *a)
{
    unsigned v;

    *a = (struct ref_action){REF_NONE, REF_NONE};
    if (!field(r, 1, &v))
        return 9;
    if (v == 0)
        return 0;
    if (!field(r, 9, &v))
        return 9;
    if (v >= job->blocks || job->disk[v] != d)
        return 11;
    if (s->resident[v])
        return 12;
    a->fetch = (uint16_t)v;
    if (!field(r, 1, &v))
        return 9;
    if (v == 0)
        return s->held[d] < job->slots[d] ? 0 : 13;
    if (s->held[d] < job->slots[d])
        return 20;
    if (!field(r, 9, &v))
        return 9;
    if (v >= job->blocks || job->disk[v] != d || !s->resident[v])
        return 14;
    a->discard = (uint16_t)v;
    return 0;
}

/* Plays all rounds that are written in a sheet. It is charged "up to the round in which the last
 * reference is consumed ..., 0 where nothing had to be fetched. Fetches are still counted to the
 * end". */
static unsigned check_rounds(struct reader *r, const struct ref_job *job, unsigned written,
                             struct ref_counts *counts)
{
    struct buffers s;
    unsigned next_read = start(job, &s);

    for (unsigned round = 1; round <= written; round++) {
        bool left = next_read < job->stop;

        for (unsigned d = 0; d < job->disks; d++) {
            struct ref_action a;
            unsigned number = check_action(r, job, &s, d, &a);

            if (number != 0)
                return number;
            act(&s, d, a);
            counts->fetches[d] += a.fetch != REF_NONE;
        }
        next_read = consume(job, &s, next_read);
        if (left && next_read == job->stop)
            counts->charged = (uint16_t)round;
    }
    if (next_read < job->stop)
        return 15;
    return closes(r) ? 0 : 16;
}

/* The counts are a sheet's only if it passes. */
static unsigned check_sheet(const struct ref_job *job, const uint8_t *sheet, size_t m,
                            struct ref_counts *counts)
{
    struct reader r = {sheet, m, 0};
    unsigned written;

    memset(counts, 0, sizeof *counts);
    if (!field(&r, 12, &written))
        return 9;
    if (written > REF_ROUNDS)
        return 10;
    return check_rounds(&r, job, written, counts);
}

unsigned ref_check(const uint8_t *ticket, size_t n, size_t stop, const uint8_t *sheet, size_t m,
                   struct ref_counts *out)
{
    struct ref_counts counts;
    struct ref_job job;
    unsigned number = ref_read_ticket(ticket, n, stop, &job);

    memset(out, 0, sizeof *out);
    if (number == 0)
        number = check_sheet(&job, sheet, m, &counts);
    if (number == 0)
        *out = counts;
    return number;
}

/* "both are checked, the first before the second, and a failure gives the check's number" */
unsigned ref_choose(const uint8_t *ticket, size_t n, size_t stop, const uint8_t *first, size_t m1,
                    const uint8_t *second, size_t m2, struct ref_chosen *out)
{
    const uint8_t *sheet[2] = {first, second};
    const size_t len[2] = {m1, m2};
    struct ref_counts counts[2];
    struct ref_job job;
    unsigned number = ref_read_ticket(ticket, n, stop, &job);

    memset(out, 0, sizeof *out);
    for (unsigned k = 0; number == 0 && k < 2; k++)
        number = check_sheet(&job, sheet[k], len[k], &counts[k]);
    if (number != 0)
        return number;
    out->which = choice(counts);
    out->length = (uint16_t)len[out->which];
    return 0;
}

/* ---- The numbers a call from C writes ---- */

/* "the rounds and eight fetch counts"; "a sheet's rounds are from now on" the charged ones */
void ref_checked_numbers(const struct ref_counts *counts, uint16_t *numbers)
{
    numbers[0] = counts->charged;
    memcpy(numbers + 1, counts->fetches, sizeof counts->fetches);
}

/* The mark (0 P-MIN, 1 P-CON), the length of the part, then for P-MIN and for P-CON the rounds and
 * eight fetch counts. */
void ref_planned_numbers(const struct ref_planned *planned, uint16_t *numbers)
{
    numbers[0] = planned->mark;
    numbers[1] = planned->length;
    ref_checked_numbers(&planned->counts[REF_P_MIN], numbers + 2);
    ref_checked_numbers(&planned->counts[REF_P_CON], numbers + 2 + REF_CHECKED_NUMBERS);
}

/* "0 (first) or 1 (second) and that sheet's length" */
void ref_chosen_numbers(const struct ref_chosen *chosen, uint16_t *numbers)
{
    numbers[0] = chosen->which;
    numbers[1] = chosen->length;
}

/* "as far as that slice reaches, in 16 bits each and most significant byte first" */
void ref_fill_counts(const uint16_t *numbers, size_t how_many, uint8_t *counts, size_t len)
{
    for (size_t k = 0; k < len && k < 2 * how_many; k++)
        counts[k] = (uint8_t)(k % 2 == 0 ? numbers[k / 2] >> 8 : numbers[k / 2]);
}
