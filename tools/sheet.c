/* sheet.c - a sheet shown as a table of rounds, in the manner of Figure 1 of document 000, for a
 * whole job or up to a stop; above the rounds the blocks carried in, below them the rounds that are
 * charged, and the fetches of all rounds. */
#include "job.h"

#include <stdio.h>
#include <stdlib.h>
#include <string.h>

enum { NONE = MAX_BLOCKS, LONGEST_NAME = 15 };

/* What blocks are called: their numbers, or the names given. */
static char name[MAX_BLOCKS][LONGEST_NAME + 1];

/* What one disk does in one round. */
struct action {
    unsigned fetch, discard;   /* NONE: no fetch, nothing discarded */
};

/* The state of the buffers and what has happened so far. */
struct play {
    const struct job *job;
    bool resident[MAX_BLOCKS];
    unsigned held[MAX_DISKS];
    unsigned fetches[MAX_DISKS];
    unsigned stop;             /* how many references count */
    unsigned next_read;
    unsigned charged;          /* the last round in which a reference was consumed, 0 if none was in a round */
    int width;                 /* of a disk's column */
};

/* ---- Reading a sheet ---- */

/* Where a field is. */
struct place {
    unsigned round, disk;
};

static bool ends_early(struct place at, struct refusal *refusal)
{
    return refuse(refusal, 9, "the sheet ends inside round %u, disk %u", at.round, at.disk);
}

static bool read_fetch(struct fields *f, const struct play *play, struct place at,
                       unsigned *block, struct refusal *refusal)
{
    const struct job *job = play->job;

    if (!take(f, 9, block))
        return ends_early(at, refusal);
    if (*block >= job->blocks)
        return refuse(refusal, 11, "round %u, disk %u fetches block %u, and the last block is %u",
                      at.round, at.disk, *block, job->blocks - 1);
    if (job->disk_of[*block] != at.disk)
        return refuse(refusal, 11, "round %u, disk %u fetches block %s, which lies on disk %u",
                      at.round, at.disk, name[*block], job->disk_of[*block]);
    if (play->resident[*block])
        return refuse(refusal, 12, "round %u, disk %u fetches block %s, which is in its buffer",
                      at.round, at.disk, name[*block]);
    return true;
}

static bool read_discard(struct fields *f, const struct play *play, struct place at,
                         struct action *action, struct refusal *refusal)
{
    unsigned bit;

    if (!take(f, 1, &bit))
        return ends_early(at, refusal);
    if (bit == 0 && play->held[at.disk] == play->job->slots[at.disk])
        return refuse(refusal, 13, "round %u, disk %u fetches block %s and discards nothing, "
                      "though every slot is taken", at.round, at.disk, name[action->fetch]);
    if (bit == 0)
        return true;
    if (play->held[at.disk] < play->job->slots[at.disk])
        return refuse(refusal, 20, "round %u, disk %u fetches block %s and discards one, "
                      "though a slot is empty", at.round, at.disk, name[action->fetch]);
    if (!take(f, 9, &action->discard))
        return ends_early(at, refusal);
    if (!play->resident[action->discard] || play->job->disk_of[action->discard] != at.disk)
        return refuse(refusal, 14, "round %u, disk %u discards block %s, which is not in its "
                      "buffer", at.round, at.disk, name[action->discard]);
    return true;
}

static bool read_action(struct fields *f, const struct play *play, struct place at,
                        struct action *action, struct refusal *refusal)
{
    unsigned bit;

    *action = (struct action){NONE, NONE};
    if (!take(f, 1, &bit))
        return ends_early(at, refusal);
    if (bit == 0)
        return true;
    return read_fetch(f, play, at, &action->fetch, refusal)
        && read_discard(f, play, at, action, refusal);
}

/* ---- Playing and showing ---- */

static void enter(struct play *play, unsigned block)
{
    play->resident[block] = true;
    play->held[play->job->disk_of[block]]++;
}

/* The discarded block leaves, then the fetched one enters. */
static void act(struct play *play, unsigned d, struct action action)
{
    char cell[2 * LONGEST_NAME + 2];

    if (action.discard != NONE) {
        play->resident[action.discard] = false;
        play->held[d]--;
    }
    if (action.fetch != NONE) {
        enter(play, action.fetch);
        play->fetches[d]++;
    }
    snprintf(cell, sizeof cell, "%s/%s", action.fetch == NONE ? "-" : name[action.fetch],
             action.discard == NONE ? "-" : name[action.discard]);
    printf("  %-*s", play->width, cell);
}

/* References are consumed up to the first block that is not resident, or to the stop. The last round
 * that consumes one is the last that is charged; round 0 is before round 1. */
static void consume(struct play *play, unsigned round)
{
    const struct job *job = play->job;
    const char *before = "  ";
    unsigned first = play->next_read;

    while (play->next_read < play->stop && play->resident[job->reference[play->next_read]]) {
        printf("%s%s", before, name[job->reference[play->next_read++]]);
        before = ", ";
    }
    puts(play->next_read == first ? "  -" : "");
    if (play->next_read > first)
        play->charged = round;
}

static void print_header(const struct play *play)
{
    char cell[LONGEST_NAME + 1];

    fputs("round", stdout);
    for (unsigned d = 0; d < play->job->disks; d++) {
        snprintf(cell, sizeof cell, "disk %u", d);
        printf("  %-*s", play->width, cell);
    }
    puts("  read");
}

/* The next block that a disk carries in, from b on; NONE if there is none. */
static unsigned next_carried(const struct job *job, unsigned d, unsigned b)
{
    while (b < job->blocks && !(job->carried[b] && job->disk_of[b] == d))
        b++;
    return b < job->blocks ? b : NONE;
}

/* One row of carried blocks: of each disk the first from next on, which moves past it. The last row
 * does not end its line. */
static void print_carried(const struct play *play, unsigned *next, bool last)
{
    const struct job *job = play->job;

    fputs("   in", stdout);
    for (unsigned d = 0; d < job->disks; d++) {
        unsigned b = next_carried(job, d, next[d]);

        printf("  %-*s", last || d + 1 < job->disks ? play->width : 0, b == NONE ? "-" : name[b]);
        next[d] = b + 1;
    }
    if (!last)
        putchar('\n');
}

/* What is carried in, if anything is: a row for the first block of each disk, one for the second,
 * and so on. What is read before round 1 ends the last row. */
static void carry_in(struct play *play)
{
    const struct job *job = play->job;
    unsigned next[MAX_DISKS] = {0}, rows = 0;

    for (unsigned b = 0; b < job->blocks; b++)
        if (job->carried[b])
            enter(play, b);
    for (unsigned d = 0; d < job->disks; d++)
        if (play->held[d] > rows)
            rows = play->held[d];
    if (rows == 0)
        return;
    for (unsigned row = 1; row <= rows; row++)
        print_carried(play, next, row == rows);
    consume(play, 0);
}

/* One row; it breaks off with '?' at an action that is refused. */
static bool play_round(struct fields *f, struct play *play, unsigned round,
                       struct refusal *refusal)
{
    printf("%5u", round);
    for (unsigned d = 0; d < play->job->disks; d++) {
        struct place at = {round, d};
        struct action action;

        if (!read_action(f, play, at, &action, refusal)) {
            puts("  ?");
            return false;
        }
        act(play, d, action);
    }
    consume(play, round);
    return true;
}

/* The rounds charged, and those on the sheet too where these are more. */
static void print_totals(const struct play *play, unsigned rounds)
{
    printf("\nrounds %u\n", play->charged);
    if (play->charged < rounds)
        printf("rounds on the sheet %u, not charged %u\n", rounds, rounds - play->charged);
    for (unsigned d = 0; d < play->job->disks; d++)
        printf("disk %u fetches %u\n", d, play->fetches[d]);
    if (play->stop < play->job->references)
        printf("stop %u of %u references\n", play->stop, play->job->references);
}

/* Number 15, if a reference that counts is left. */
static bool all_consumed(const struct play *play, struct refusal *refusal)
{
    const struct job *job = play->job;

    if (play->next_read == play->stop)
        return true;
    return refuse(refusal, 15, "%u of %u references%s are left after the last round, "
                  "block %s is next", play->stop - play->next_read, play->stop,
                  play->stop < job->references ? " before the stop" : "",
                  name[job->reference[play->next_read]]);
}

/* The whole sheet; false if it is refused. */
static bool show(struct fields *f, struct play *play, struct refusal *refusal)
{
    unsigned rounds;

    if (!take(f, 12, &rounds))
        return refuse(refusal, 9, "the sheet ends inside the number of rounds");
    if (rounds > MAX_ROUNDS)
        return refuse(refusal, 10, "at most %d rounds stand on a sheet, not %u", MAX_ROUNDS,
                      rounds);
    print_header(play);
    carry_in(play);
    for (unsigned round = 1; round <= rounds; round++)
        if (!play_round(f, play, round, refusal))
            return false;
    if (!all_consumed(play, refusal) || !closes(f, 16, refusal))
        return false;
    print_totals(play, rounds);
    return true;
}

/* ---- Names ---- */

static void number_blocks(void)
{
    for (unsigned b = 0; b < MAX_BLOCKS; b++)
        snprintf(name[b], sizeof name[b], "%u", b);
}

/* A name for every block, in block order, with blanks or line ends between. */
static void read_names(const char *path, unsigned blocks)
{
    FILE *from = fopen(path, "r");
    char word[LONGEST_NAME + 1];
    unsigned found = 0;

    if (from == NULL) {
        perror(path);
        exit(BAD_USAGE);
    }
    for (; fscanf(from, "%15s", word) == 1; found++)
        if (found < blocks)
            strcpy(name[found], word);
    fclose(from);
    if (found != blocks) {
        fprintf(stderr, "%s: names %u, blocks %u; a name has at most %d characters\n", path,
                found, blocks, LONGEST_NAME);
        exit(BAD_INPUT);
    }
}

/* Room for "disk 0" and for every action of this job. */
static int column_width(unsigned blocks)
{
    size_t longest = 0;

    for (unsigned b = 0; b < blocks; b++)
        if (strlen(name[b]) > longest)
            longest = strlen(name[b]);
    return longest < 3 ? 6 : (int)(2 * longest + 1);
}

/* ---- The stop ---- */

static bool is_number(const char *word)
{
    return word[0] != '\0' && word[strspn(word, "0123456789")] == '\0';
}

/* The value of digits, cut off where it is above the references of any job. */
static unsigned value_of(const char *digits)
{
    unsigned value = 0;

    for (; *digits != '\0'; digits++)
        if (value <= MAX_REFERENCES)
            value = 10 * value + (unsigned)(*digits - '0');
    return value;
}

/* The stop that was given in digits, or else the whole job's; false if it is refused. */
static bool set_stop(struct play *play, const char *digits, struct refusal *refusal)
{
    unsigned references = play->job->references;

    play->stop = digits == NULL ? references : value_of(digits);
    if (play->stop > references)
        return refuse(refusal, 21, "the number of references is %u, and the stop is %s",
                      references, digits);
    return true;
}

/* ---- The program ---- */

/* What the program is called with; names and stop are NULL if they are left out. */
struct arguments {
    const char *names, *stop, *ticket, *sheet;
};

static _Noreturn void usage(void)
{
    fputs("usage: sheet [-n names] [-s stop] ticket sheet\n"
          "  shows a sheet for a ticket as a table of rounds; names has one for each block;\n"
          "  stop is how many references count, from the first on; without it all do;\n"
          "  below the table, rounds are those charged: up to the last reference that counts\n",
          stderr);
    exit(BAD_USAGE);
}

/* Shows the sheet, or says why it, its ticket or the stop is refused. */
static int show_files(const struct arguments *given)
{
    static uint8_t ticket_bytes[LONGEST_TICKET + 1], sheet_bytes[LONGEST_SHEET + 1];
    static struct job job;
    size_t length = read_bytes(given->ticket, ticket_bytes, sizeof ticket_bytes);
    struct fields f = {sheet_bytes, read_bytes(given->sheet, sheet_bytes, sizeof sheet_bytes), 0};
    struct play play = {.job = &job};
    struct refusal refusal;
    bool good = read_ticket(ticket_bytes, length, &job, &refusal)
        && set_stop(&play, given->stop, &refusal);

    number_blocks();
    if (good && given->names != NULL)
        read_names(given->names, job.blocks);
    if (good) {
        play.width = column_width(job.blocks);
        good = show(&f, &play, &refusal);
    }
    if (!good)
        printf("refused %u: %s\n", refusal.number, refusal.why);
    finish_output();
    return good ? GOOD : BAD_INPUT;
}

/* Where the value of an option goes; NULL if the word is none. */
static const char **value_place(struct arguments *given, const char *word)
{
    if (strcmp(word, "-n") == 0)
        return &given->names;
    return strcmp(word, "-s") == 0 ? &given->stop : NULL;
}

int main(int argc, char **argv)
{
    struct arguments given = {NULL, NULL, NULL, NULL};
    const char **value;

    while (argc > 2 && (value = value_place(&given, argv[1])) != NULL) {
        *value = argv[2];
        argc -= 2;
        argv += 2;
    }
    if (argc != 3 || (argv[1][0] == '-' && (argv[1][1] != '\0' || strcmp(argv[2], "-") == 0)))
        usage();
    if (given.stop != NULL && !is_number(given.stop)) {
        fprintf(stderr, "the stop is a number, not '%s'\n", given.stop);
        usage();
    }
    given.ticket = argv[1];
    given.sheet = argv[2];
    return show_files(&given);
}
