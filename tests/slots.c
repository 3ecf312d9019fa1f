/* slots.c - the programs `cases` and `slots` against the reference, on slot counts.
 *
 * usage: slots CASES SLOTS [SEED [COUNT [FIRST]]]
 * Draws COUNT jobs from number FIRST on (default 0). CASES gets lines `slots` of the vectors' form, six
 * for each job, six of each of three jobs at the limits, and one for each count from 64 to 1; SLOTS, whose
 * stop is N, gets the tickets of the first jobs and of these, with disks and rounds as arguments,
 * arguments of every form, inputs that come in two parts, and inputs that are longer than a ticket. Ends
 * at the first answer that is not the reference's. Every job's draws depend on the seed and its own number
 * only, so "SEED 1 FIRST" replays one job, and "SEED 0" what is tried without a job. Exit 0 only if all
 * agree and, in a run of jobs from 0 on, every number and every count, and every kind of answer, of stop,
 * of disk, of wanted rounds and of room was met. */
#include "draw.h"
#include "reference/answer.h"
#include "running.h"

#include <inttypes.h>
#include <stdlib.h>
#include <string.h>

enum { LINES = 6, NUMBERS = 28 };
enum { PROGRAM_JOBS = 150 };   /* the program `slots` gets the tickets of so many jobs */
enum { MOST_INPUT = REF_TICKET + 1 };          /* it reads no more bytes, */
enum { LONGER = 100000 };      /* and gets so many past a ticket */
enum { MOST_DIGITS = 4096 };   /* of an argument */
enum { MOST_OUTPUT = 100 };

/* What was met. Answers: none; a count less than the ticket's own, the same, more; of 1, of 64, and of so
 * many as 2 or more carried blocks. */
enum answers { NO_COUNT, FEWER, SAME, MORE, ONE, MOST, CARRIED, ANSWERS };
enum stops { STOP_0, STOP_BETWEEN, STOP_N, STOP_ABOVE, STOPS };
/* Disks of calls that are not refused before: 0, the last of several, D; 8 or more; of these the largest
 * number, and one whose last 16 or 32 bits alone are a disk's. */
enum disks { DISK_0, DISK_LAST, DISK_NEXT, DISK_ABOVE, DISK_LARGEST, DISK_BITS, DISKS };
/* Wanted rounds: as many as the sheet has, more; 0 with a count, 0 without; one less than with 64 slots;
 * more than N; the largest number; one whose last 16 or 32 bits alone are too few. */
enum wants { ENOUGH, MORE_THAN, NONE_ENOUGH, NONE_TOO_FEW, ONE_TOO_FEW, ABOVE_N, LARGEST, BITS, WANTS };
/* Rooms where a count is found: of just the sheet, one byte less, none, any other less, more; and none
 * where no count is found. */
enum rooms { EXACT, ONE_LESS, NO_ROOM, LESS, AMPLE, NONE_WITHOUT, ROOMS };
/* What the program `slots` prints. */
enum prints { PRINTS_COUNT, PRINTS_NONE, PRINTS_REFUSED, PRINTS_USAGE, PRINTS };

static const char *const answer_name[ANSWERS] = {"none", "below the ticket's own", "equal", "above",
                                                 "of 1", "of 64", "of 2 or more carried blocks"};
static const char *const stop_name[STOPS] = {"0", "in between", "N", "above N"};
static const char *const disk_name[DISKS] = {"0", "the last", "D", "8 or more", "the largest",
                                             "a disk in 16 or 32 bits"};
static const char *const want_name[WANTS] = {"just enough", "more", "0 and enough", "0 and too few",
                                             "one too few", "above N", "the largest",
                                             "too few in 16 or 32 bits"};
static const char *const room_name[ROOMS] = {"exact", "one less", "none", "less", "ample",
                                             "none where there is no count"};
static const char *const print_name[PRINTS] = {"a count", "none", "refused", "usage"};

static struct {
    unsigned long met[2][NUMBERS];             /* numbers, by cases and by slots */
    unsigned long counts[REF_SLOTS + 1];       /* the slot counts that cases gives */
    unsigned long answers[ANSWERS], stops[STOPS], disks[DISKS], wants[WANTS], rooms[ROOMS];
    unsigned long prints[PRINTS];
} run;

/* ---- Jobs ---- */

struct bytes {
    const uint8_t *at;
    size_t len;
};

/* A slot count asked for. */
struct asked {
    struct bytes ticket;
    size_t stop, disk, wanted, room;
};

/* What the reference gives for it, with any room. */
struct given {
    unsigned number, slots, rounds;
    size_t length;
};

static struct {
    uint8_t ticket[REF_TICKET], worse[REF_TICKET + SPARE];
    struct ref_job job;
    struct asked asked[LINES];
} drawn;

static struct given give(const struct asked *a)
{
    static uint8_t sheet[REF_SHEET];
    struct ref_slotted slotted;
    struct given given = {0, 0, 0, 0};

    given.number = ref_slots(a->ticket.at, a->ticket.len, a->stop, a->disk, a->wanted, sheet,
                             REF_SHEET, &slotted);
    given.slots = slotted.slots;
    given.length = slotted.length;
    if (given.slots > 0)
        given.rounds = (unsigned)(sheet[0] << 4 | sheet[1] >> 4);
    return given;
}

/* The fewest rounds of the job that was drawn, up to its stop, with so many slots on a disk. */
static unsigned fewest(unsigned d, unsigned slots)
{
    static struct ref_action schedule[REF_ROUNDS * REF_DISKS];
    struct ref_job job = drawn.job;
    struct ref_counts counts;

    job.slots[d] = slots;
    ref_run(&job, REF_P_MIN, schedule, &counts);
    return counts.charged;
}

/* Rounds for a disk: the fewest with its own slots, with 64 or with a few, one less or one more; none;
 * any number up to N; more; the largest; or one whose last 16 or 32 bits are too few. */
static size_t draw_wanted(struct chance *c, unsigned d)
{
    unsigned how = below(c, 16), carried = carried_on(&drawn.job, d), low = carried > 1 ? carried : 1;
    unsigned few = between(c, low, low + 4 < REF_SLOTS ? low + 4 : REF_SLOTS);
    unsigned slots = how < 4 ? drawn.job.slots[d] : how < 7 ? REF_SLOTS : few;
    unsigned rounds = fewest(d, slots);
    size_t high = between(c, 1, UINT16_MAX);

    switch (how) {
    case 10: return 0;
    case 11: return between(c, 0, drawn.job.references);
    case 12: return drawn.job.references + (size_t)high;
    case 13: return SIZE_MAX;
    case 14: return high << 16 | (rounds > 0 ? rounds - 1 : 0);
    case 15: return high << 32 | (rounds > 0 ? rounds - 1 : 0);
    default: return how % 3 == 0 ? rounds : how % 3 == 1 ? rounds + 1 : rounds - (rounds > 0);
    }
}

/* A disk that is not in the ticket: the next number, up to 15, the largest, or one whose last 8, 16 or 32
 * bits are a disk's. */
static size_t draw_disk_outside(struct chance *c)
{
    unsigned disks = drawn.job.disks, d = below(c, disks);
    size_t high = between(c, 1, UINT16_MAX);

    switch (below(c, 8)) {
    case 0:
    case 1: return disks;
    case 2: return between(c, disks, 15);
    case 3: return 8;
    case 4: return SIZE_MAX;
    case 5: return high << 8 | d;
    case 6: return high << 16 | d;
    default: return high << 32 | d;
    }
}

/* A room for a sheet of this length, or for none: exact, one byte less, none, any less, or ample. */
static size_t draw_room(struct chance *c, size_t exact)
{
    unsigned how = below(c, 8);
    size_t less = below(c, (unsigned)exact), more = exact + below(c, 50);

    if (how < 2)
        return exact;
    if (how < 4)
        return exact - (exact > 0);
    return how == 4 ? 0 : how == 5 ? less : how == 6 ? more : exact + REF_SHEET;
}

/* A job's lines: exact room; another room; another disk and other rounds; a disk that is not in the
 * ticket; a stop above N; and the ticket damaged; the last two with a disk, and the last with a stop, that
 * may be so too. */
static void draw_lines(uint64_t number)
{
    struct chance c = chance_for(runs.seed, number);
    struct ref_job *job = &drawn.job;
    struct bytes good = {drawn.ticket, 0}, worse = {drawn.worse, 0};
    struct asked *a = drawn.asked;
    size_t above, exact = 0;

    draw_job(&c, job);
    good.len = ref_write_ticket(job, drawn.ticket, sizeof drawn.ticket);
    memcpy(drawn.worse, drawn.ticket, good.len);
    worse.len = damage_ticket(&c, job, drawn.worse, good.len);
    job->stop = (unsigned)draw_stop(&c, job->references);
    above = draw_stop_above(&c, job->references);
    for (unsigned k = 0; k < LINES; k++) {
        a[k] = k == 0 ? (struct asked){good, job->stop, below(&c, job->disks), 0, 0} : a[0];
        if (k == 2)
            a[k].disk = below(&c, job->disks);
        if (k == 0 || k == 2)
            a[k].wanted = draw_wanted(&c, (unsigned)a[k].disk);
        if (k == 3 || (k > 3 && one_in(&c, 2)))
            a[k].disk = draw_disk_outside(&c);
        if (k == 5)
            a[k].ticket = worse;
        if (k == 4 || (k == 5 && one_in(&c, 2)))
            a[k].stop = above;
        exact = k == 0 || k == 2 ? give(&a[k]).length : exact;
        a[k].room = k == 0 ? exact : draw_room(&c, exact);
    }
}

/* 64 blocks on one disk, read twice: 64 rounds with 64 slots, 65 with 63. */
static void draw_twice(struct ref_job *job)
{
    memset(job, 0, sizeof *job);
    job->disks = job->slots[0] = 1;
    job->blocks = REF_SLOTS;
    job->references = job->stop = 2 * REF_SLOTS;
    for (unsigned i = 0; i < job->references; i++)
        job->reference[i] = (uint16_t)(i % REF_SLOTS);
}

enum limit { TWICE, LONGEST_TICKET, LONGEST_PLAN, LIMITS };

/* The lines of a job at a limit: 64 blocks read twice; the longest ticket, all of which is read before
 * round 1; and 2,048 rounds with one slot on the last disk. Just enough rounds, one less, one more, exact
 * room and one byte less; a stop above N; and a disk that is not there. */
static void draw_limit_lines(enum limit limit)
{
    struct chance c = chance_for(runs.seed, 0);
    struct ref_job *job = &drawn.job;
    struct bytes good = {drawn.ticket, 0};
    unsigned d, rounds;

    if (limit == TWICE)
        draw_twice(job);
    else if (limit == LONGEST_TICKET)
        draw_longest_ticket(&c, job);
    else
        draw_longest(&c, job);
    d = job->disks - 1;
    good.len = ref_write_ticket(job, drawn.ticket, sizeof drawn.ticket);
    rounds = fewest(d, limit == TWICE ? REF_SLOTS : job->slots[d]);
    must(rounds == (limit == TWICE ? REF_SLOTS : limit == LONGEST_PLAN ? REF_ROUNDS : 0),
         "the rounds of a job at a limit");
    for (unsigned k = 0; k < LINES; k++) {
        struct asked *a = &drawn.asked[k];

        *a = (struct asked){good, job->stop + (k == 4), d + (k == 5), rounds, 0};
        a->wanted = k == 1 ? rounds - (rounds > 0) : k == 2 ? rounds + 1u : rounds;
        a->room = give(a).length;
        a->room -= k == 3;
    }
}

/* The line for 64 blocks read twice, with so many rounds more than 64 and exact room: 0 to 64 more give
 * every count from 64 down to 1. */
static struct asked ask_twice(unsigned more)
{
    struct asked a;

    draw_limit_lines(TWICE);
    a = drawn.asked[0];
    a.wanted += more;
    a.room = give(&a).length;
    return a;
}

/* ---- The program `cases` ---- */

static char *put_call(char *to, const struct asked *a)
{
    to += sprintf(to, "slots %s", a->ticket.len == 0 ? "-" : "");
    to = put_hex(to, a->ticket.at, a->ticket.len);
    return to + sprintf(to, " %zu %zu %zu %zu", a->stop, a->disk, a->wanted, a->room);
}

/* Does the same for the lines of each job, then for those of the jobs at the limits and of each count. */
static void each_job(void (*with)(const struct asked *, FILE *), FILE *file)
{
    for (uint64_t k = 0; k < runs.count; k++) {
        runs.draw = (int64_t)(runs.first + k);
        draw_lines(runs.first + k);
        for (unsigned line = 0; line < LINES; line++)
            with(&drawn.asked[line], file);
    }
    runs.draw = NO_DRAW;
    for (unsigned k = 0; k < LIMITS && runs.first == 0; k++) {
        draw_limit_lines((enum limit)k);
        for (unsigned line = 0; line < LINES; line++)
            with(&drawn.asked[line], file);
    }
    for (unsigned more = 0; more <= REF_SLOTS && runs.first == 0; more++) {
        struct asked a = ask_twice(more);

        with(&a, file);
    }
}

static void write_line(const struct asked *a, FILE *file)
{
    static char call[ANSWER_LINE];

    put_call(call, a);
    fprintf(file, "%s\n", call);
}

static void write_lines(FILE *file)
{
    each_job(write_line, file);
}

static void count_stop(const struct asked *a)
{
    size_t references = drawn.job.references;

    run.stops[a->stop > references ? STOP_ABOVE : a->stop == references ? STOP_N
              : a->stop == 0 ? STOP_0 : STOP_BETWEEN]++;
}

static void count_disk(const struct asked *a)
{
    size_t disks = drawn.job.disks;

    run.disks[DISK_0] += a->disk == 0;
    run.disks[DISK_LAST] += a->disk > 0 && a->disk + 1 == disks;
    run.disks[DISK_NEXT] += a->disk == disks;
    run.disks[DISK_ABOVE] += a->disk >= REF_DISKS;
    run.disks[DISK_LARGEST] += a->disk == SIZE_MAX;
    run.disks[DISK_BITS] += a->disk >= REF_DISKS && a->disk < SIZE_MAX &&
                            ((uint16_t)a->disk < disks || (uint32_t)a->disk < disks);
}

/* With what the reference gives for any room. */
static void count_wanted(const struct asked *a, struct given g)
{
    bool found = g.slots > 0;

    run.wants[ENOUGH] += found && g.rounds == a->wanted;
    run.wants[MORE_THAN] += found && g.rounds < a->wanted;
    run.wants[NONE_ENOUGH] += found && a->wanted == 0;
    run.wants[NONE_TOO_FEW] += !found && a->wanted == 0;
    run.wants[ONE_TOO_FEW] += !found && fewest((unsigned)a->disk, REF_SLOTS) == a->wanted + 1;
    run.wants[ABOVE_N] += a->wanted > drawn.job.references;
    run.wants[LARGEST] += a->wanted == SIZE_MAX;
    run.wants[BITS] += a->wanted > REF_ROUNDS && g.rounds > 0 &&
                       ((uint16_t)a->wanted < g.rounds || (uint32_t)a->wanted < g.rounds);
}

static void count_answer(const struct asked *a, struct given g)
{
    unsigned d = (unsigned)a->disk, own = drawn.job.slots[d];

    run.answers[NO_COUNT] += g.slots == 0;
    run.answers[FEWER] += g.slots > 0 && g.slots < own;
    run.answers[SAME] += g.slots == own;
    run.answers[MORE] += g.slots > own;
    run.answers[ONE] += g.slots == 1;
    run.answers[MOST] += g.slots == REF_SLOTS;
    run.answers[CARRIED] += g.slots > 1 && g.slots == carried_on(&drawn.job, d);
    run.counts[g.slots]++;
    if (g.slots == 0)
        run.rooms[NONE_WITHOUT] += a->room == 0;
    else
        run.rooms[a->room == g.length ? EXACT : a->room > g.length ? AMPLE : a->room == 0 ? NO_ROOM
                  : a->room + 1 == g.length ? ONE_LESS : LESS]++;
}

/* Counts the answer's number; and of the ticket as it is, all else. */
static void count(const struct asked *a, const char *text)
{
    unsigned long number = strtoul(text, NULL, 10);
    struct given g;

    run.met[0][number]++;
    if (a->ticket.at != drawn.ticket)
        return;
    count_stop(a);
    if (number == 21)
        return;
    count_disk(a);
    if (number == 27)
        return;
    g = give(a);
    count_wanted(a, g);
    count_answer(a, g);
}

static void compare_line(const struct asked *a, FILE *file)
{
    static char call[ANSWER_LINE];

    put_call(call, a);
    count(a, same_answer(file, call, print_words));
}

static void compare_lines(FILE *file)
{
    each_job(compare_line, file);
}

/* ---- The program `slots` ---- */

static const char usage[] = "usage: slots DISK ROUNDS < TICKET\n";

/* Digits alone, one or more and not too many: the number, the largest for any that is greater. */
static bool read_number(const char *text, size_t *number)
{
    size_t length = strlen(text);

    *number = 0;
    for (size_t k = 0; k < length; k++) {
        size_t digit = (size_t)(text[k] - '0');

        if (text[k] < '0' || text[k] > '9')
            return false;
        *number = *number > SIZE_MAX / 10 || 10 * *number > SIZE_MAX - digit ? SIZE_MAX
                                                                              : 10 * *number + digit;
    }
    return length > 0 && length <= MOST_DIGITS;
}

/* What it should print for arguments, which end in a null pointer, and an input. */
static void want_text(const char *const *argument, struct bytes input, char *text)
{
    struct asked a = {input, ref_references(input.at, input.len), 0, 0, 0};
    unsigned arguments = 0;
    struct given g;

    while (argument[arguments] != NULL)
        arguments++;
    if (arguments != 2 || !read_number(argument[0], &a.disk) ||
        !read_number(argument[1], &a.wanted)) {
        strcpy(text, usage);
        run.prints[PRINTS_USAGE]++;
        return;
    }
    g = give(&a);
    run.met[1][g.number]++;
    run.prints[g.number != 0 ? PRINTS_REFUSED : g.slots == 0 ? PRINTS_NONE : PRINTS_COUNT]++;
    if (g.number != 0)
        sprintf(text, "refused %u\n", g.number);
    else if (g.slots == 0)
        strcpy(text, "none\n");
    else
        sprintf(text, "slots %u\n", g.slots);
}

/* It reads no more than one byte past the longest ticket, and nothing where it prints the usage. */
static bool reads_enough(const char *want)
{
    return input_taken() <= (strcmp(want, usage) == 0 ? 0 : MOST_INPUT);
}

/* Arguments, which end in a null pointer, and an input, in one of two ways. */
static void try_slots(output *through, const char *const *argument, struct bytes input)
{
    static uint8_t have[MOST_OUTPUT];
    const char *command[8] = {runs.program};
    char want[MOST_OUTPUT];
    size_t n;

    for (unsigned k = 0; argument[k] != NULL; k++)
        command[k + 1] = argument[k];
    want_text(argument, input, want);
    n = through(command, "slots", input.at, input.len, have, sizeof have);
    if (n == strlen(want) && memcmp(have, want, n) == 0 && reads_enough(want))
        return;
    printf("DISAGREE: slots prints other than the reference, or reads %zu bytes\n", input_taken());
    print_text("slots", have, n);
    print_text("reference", (const uint8_t *)want, strlen(want));
    for (unsigned k = 0; argument[k] != NULL; k++)
        print_text("argument", (const uint8_t *)argument[k], strlen(argument[k]));
    printf("  input of %zu bytes ", input.len);
    for (size_t k = 0; k < input.len && k < REF_TICKET + SPARE; k++)
        printf("%02x", input.at[k]);
    printf("\n");
    fail();
}

/* A disk and rounds as numbers, with some zeros in front of each. */
static void try_numbers(struct bytes input, size_t disk, size_t wanted, unsigned zeros)
{
    char text[2][64];
    const char *const argument[] = {text[0], text[1], NULL};

    sprintf(text[0], "%.*s%zu", (int)(zeros / 4), "000", disk);
    sprintf(text[1], "%.*s%zu", (int)(zeros % 4), "000", wanted);
    try_slots(output_of, argument, input);
}

/* A ticket that comes in two parts, with a time between them. */
static void try_in_two(struct bytes ticket)
{
    static const char *const argument[] = {"0", "64", NULL};

    try_slots(output_in_two, argument, ticket);
}

/* A ticket followed by more bytes, all alike. */
static void try_longer(struct bytes ticket, size_t more, uint8_t fill_with)
{
    static uint8_t input[REF_TICKET + LONGER];

    memcpy(input, ticket.at, ticket.len);
    memset(input + ticket.len, fill_with, more);
    try_numbers((struct bytes){input, ticket.len + more}, 7, 0, 0);
}

/* Numbers past 64 bits, and with many digits; arguments that are no numbers, too many or too few. The
 * ticket has one disk. */
static void try_arguments(struct bytes ticket)
{
    static char zeros[MOST_DIGITS + 2], nines[MOST_DIGITS + 2], long_64[MOST_DIGITS + 1];
    static const char *const list[][6] = {
        {"0", "64"}, {"00", "064"}, {"0", "65"}, {"0", "63"}, {"0", "0"}, {"0", "128"}, {"1", "64"},
        {"18446744073709551615", "64"}, {"18446744073709551616", "64"}, {"18446744073709551617", "64"},
        {"184467440737095516160", "64"}, {"4294967296", "64"}, {"10", "64"},
        {"340282366920938463463374607431768211456", "64"},
        {"0", "18446744073709551615"}, {"0", "18446744073709551616"}, {"0", "18446744073709551617"},
        {"0", "18446744073709551680"}, {"0", "184467440737095516160"}, {"0", "4294967296"},
        {"0", "36893488147419103232"}, {"0", "340282366920938463463374607431768211456"},
        {zeros + 1, "64"}, {"0", zeros + 1}, {"0", long_64}, {nines + 1, "64"}, {"0", nines + 1},
        {zeros, "64"}, {"0", zeros}, {nines, "64"}, {"0", nines},
        {NULL}, {"0"}, {"0", "64", "0"}, {"0", "64", "", ""}, {"", "64"}, {"0", ""}, {"", ""}, {""},
        {"-1", "64"}, {"+0", "64"}, {"-0", "64"}, {"0", "-64"}, {"0", "+64"}, {"0", "-"}, {"0", "+"},
        {" 0", "64"}, {"0 ", "64"}, {"0", " 64"}, {"0", "64 "}, {"0", "6 4"}, {"0", "64\n"}, {"0\n", "64"},
        {"0", "\t64"}, {"0x0", "64"}, {"0", "0x40"}, {"0", "64.0"}, {"0", "1e3"}, {"0", "64a"},
        {"a", "64"}, {"/", "64"}, {":", "64"}, {"0", "/"}, {"0", ":"}, {"0", "6/"}, {"0", "6:"},
        {"0", "/6"}, {"0", ":6"}, {"\xb0", "64"}, {"0", "6\xb4"}, {"0", "\x01"}, {"0,", "64"}, {"--help"},
        {"0", "--", "64"}, {"--"}, {"--", "64"}, {"0", "--"}, {"--", "0", "64"}, {"0", "64", "--"},
        {"0", "64\r"}, {"0\r", "64"}, {"0", "0X40"}, {"0X0", "64"}, {"0", "64k"}, {"0", "64K"},
        {"0", "64", "0", "64"}, {"0", "64", "0", "64", "0"}
    };

    memset(zeros, '0', MOST_DIGITS + 1);
    memset(nines, '9', MOST_DIGITS + 1);
    memcpy(long_64, zeros, MOST_DIGITS);
    memcpy(long_64 + MOST_DIGITS - 2, "64", 2);
    for (size_t k = 0; k < sizeof list / sizeof list[0]; k++)
        try_slots(output_of, list[k], ticket);
}

static void try_program(void)
{
    for (uint64_t k = 0; k < runs.count && runs.first + k < PROGRAM_JOBS; k++) {
        const struct asked *a = drawn.asked;

        runs.draw = (int64_t)(runs.first + k);
        draw_lines(runs.first + k);
        try_numbers(a[0].ticket, a[0].disk, a[0].wanted, (unsigned)(k % 16));
        try_numbers(a[3].ticket, a[3].disk, a[3].wanted, 0);
        try_numbers(a[5].ticket, a[5].disk, a[5].wanted, 0);
    }
    runs.draw = NO_DRAW;
    if (runs.first != 0)
        return;
    for (unsigned k = 0; k < LIMITS; k++) {
        draw_limit_lines((enum limit)k);
        for (unsigned line = 0; line < LINES; line++)
            try_numbers(drawn.asked[line].ticket, drawn.asked[line].disk, drawn.asked[line].wanted, 0);
    }
    draw_limit_lines(LONGEST_TICKET);
    try_numbers((struct bytes){drawn.ticket, 0}, 0, 0, 0);
    for (unsigned k = 0; k < 2; k++) {
        try_longer(drawn.asked[0].ticket, 1, k == 0 ? 0 : 0xff);
        try_longer(drawn.asked[0].ticket, LONGER, k == 0 ? 0 : 0xff);
        try_longer((struct bytes){drawn.ticket, REF_TICKET - 1}, 1, k == 0 ? 0 : 0xff);
        try_longer((struct bytes){drawn.ticket, 1}, LONGER, k == 0 ? 0 : 0xff);
    }
    try_in_two(drawn.asked[0].ticket);
    for (unsigned more = 0; more <= REF_SLOTS; more++) {
        struct asked a = ask_twice(more);

        try_numbers(a.ticket, a.disk, a.wanted, 0);
    }
    try_in_two(drawn.asked[0].ticket);
    try_arguments(drawn.asked[0].ticket);
}

/* ---- All of it ---- */

/* Prints how often each kind was met; false if one never was. */
static bool kinds_met(const char *what, const char *const *name, const unsigned long *met, unsigned kinds)
{
    bool all = true;

    printf("  %s:", what);
    for (unsigned k = 0; k < kinds; k++) {
        printf("%s %s %lu", k == 0 ? "" : ",", name[k], met[k]);
        all = all && met[k] > 0;
    }
    printf("\n");
    return all;
}

/* Prints which slot counts were never met; false if there is one. */
static bool counts_met(void)
{
    bool all = true;

    for (unsigned s = 1; s <= REF_SLOTS; s++)
        if (run.counts[s] == 0) {
            printf("  no slot count of %u\n", s);
            all = false;
        }
    return all;
}

/* Prints what was met; false if something was not. */
static bool all_met(void)
{
    bool all = true;

    for (unsigned by = 0; by < 2; by++) {
        printf("  %s:", by == 0 ? "cases" : "slots");
        for (unsigned k = 0; k < NUMBERS; k++)
            if (k <= 8 || k >= 25 || (by == 0 && (k == 17 || k == 21))) {
                printf(" %u:%lu", k, run.met[by][k]);
                all = all && run.met[by][k] > 0;
            }
        printf("\n");
    }
    all = kinds_met("slot counts", answer_name, run.answers, ANSWERS) && all;
    all = counts_met() && all;
    all = kinds_met("stops", stop_name, run.stops, STOPS) && all;
    all = kinds_met("disks", disk_name, run.disks, DISKS) && all;
    all = kinds_met("wanted rounds", want_name, run.wants, WANTS) && all;
    all = kinds_met("rooms", room_name, run.rooms, ROOMS) && all;
    return kinds_met("slots prints", print_name, run.prints, PRINTS) && all;
}

int main(int argc, char **argv)
{
    begin_running("slots", argc, argv);
    try_lines(write_lines, compare_lines);
    try_program();
    return end_running("jobs", all_met,
                       "a number, a slot count, or a kind of slot count, of stop, of disk, of wanted rounds, "
                       "of room or of what is printed");
}
