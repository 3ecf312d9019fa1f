/* pages.c - the programs `cases` and `page` against the reference, on pages.
 *
 * usage: pages CASES PAGE [SEED [COUNT [FIRST]]]
 * Draws COUNT jobs from number FIRST on (default 0). CASES gets lines `page` of the vectors' form,
 * four for each job, four of the longest page and four of the longest ticket; PAGE, whose stop is N,
 * gets the tickets of the first jobs, these two, the longest also in two parts, and inputs that are
 * longer than a ticket. Ends at the first answer that is not the reference's. Every job's draws depend on
 * the seed and its own number only, so "SEED 1 FIRST" replays one job, and "SEED 0" what is tried without
 * a job. Exit 0 only if all agree and, in a run of jobs from 0 on, every number, kind of stop and of job,
 * letter and mark was met. */
#include "draw.h"
#include "reference/answer.h"
#include "running.h"

#include <inttypes.h>
#include <stdlib.h>
#include <string.h>

enum { LINES = 4, NUMBERS = 27, LETTERS = 5 };
enum { PROGRAM_JOBS = 150 };   /* the program `page` gets the tickets of so many jobs */
enum { LONGER = 100000 };      /* and so many bytes past a ticket */

enum kind { NONE, BETWEEN, WHOLE, ABOVE, KINDS };      /* stops: 0, in between, N, above N */
enum longest { OF_PAGES, OF_TICKETS };

/* Jobs with a page, by what they carry in: nothing; blocks of which none, some or all that count are
 * read before round 1. */
enum carried { EMPTY, UNREAD, IN_PART, IN_WHOLE, CARRIED };

static const char letters[LETTERS + 1] = "EMSWN";
static const char *const kind_name[KINDS] = {"0", "in between", "N", "above N"};
static const char *const carried_name[CARRIED] = {"nothing", "blocks that are not next",
                                                  "blocks read before round 1 in part", "to the stop"};

static struct {
    unsigned long met[2][NUMBERS];             /* numbers, by cases and by page */
    unsigned long stops[KINDS];                /* of cases, where the answer is 0 or 21 */
    unsigned long letter[LETTERS], mark[2], carried[CARRIED];  /* on the pages of cases */
} run;

/* ---- Reports ---- */

/* A line of a page, as far as it goes. */
static void print_line(const char *who, const uint8_t *line, size_t len)
{
    printf("  %-9s \"", who);
    for (size_t k = 0; k < len && k < REF_LINE; k++)
        printf(line[k] >= ' ' && line[k] < 127 ? "%c" : "\\x%02x", line[k]);
    printf("\"\n");
}

/* The same from hexadecimal text. */
static void print_hex_line(const char *who, const char *text)
{
    uint8_t line[REF_LINE];
    unsigned byte;
    size_t n = 0;

    while (n < REF_LINE && sscanf(text + 2 * n, "%2x", &byte) == 1)
        line[n++] = (uint8_t)byte;
    print_line(who, line, n);
}

/* Where two answers differ: a line of the page, which is the last word; or the words from there. */
static void print_answers(const char *have, const char *want)
{
    size_t at = 0, word;

    while (have[at] != '\0' && have[at] == want[at])
        at++;
    for (word = at; word > 0 && want[word - 1] != ' '; word--)
        ;
    if (strlen(want + word) >= 2 * REF_LINE && strchr(want + word, ' ') == NULL) {
        word += (at - word) / (2 * REF_LINE) * (2 * REF_LINE);
        print_hex_line("cases", have + word);
        print_hex_line("reference", want + word);
    } else {
        printf("  %-9s %.80s\n  %-9s %.80s\n", "cases", have + word, "reference", want + word);
    }
}

/* ---- Jobs ---- */

struct bytes {
    const uint8_t *at;
    size_t len;
};

/* A page asked for: a ticket, a stop, and rooms for both sheets and the page. */
struct asked {
    struct bytes ticket;
    size_t stop, room[3];
};

static struct {
    uint8_t ticket[REF_TICKET], worse[REF_TICKET + SPARE], sheet[2][REF_SHEET], page[REF_PAGE];
    struct ref_job job;
    struct ref_paged paged;    /* of the ticket as it is, up to the first line's stop */
    struct asked asked[LINES];
} drawn;

/* Rooms of which one or more are short by a byte or more, or all ample. */
static void draw_rooms(struct chance *c, const size_t *exact, size_t *room)
{
    unsigned how = below(c, 10), which = below(c, 3);

    memcpy(room, exact, 3 * sizeof room[0]);
    if (how < 4) {
        room[which]--;
    } else if (how < 6) {
        room[which] = below(c, (unsigned)exact[which]);
    } else if (how < 8) {      /* all but the first ones are short */
        for (unsigned k = which; k < 3; k++)
            room[k] -= between(c, 1, (unsigned)exact[k]);
    } else {
        for (unsigned k = 0; k < 3; k++)
            room[k] += how == 8 ? below(c, 50) : REF_PAGE;
    }
}

/* Plans the ticket up to a stop, for the rooms; the number must be 0. */
static void plan_drawn(size_t n, size_t stop, size_t *exact)
{
    struct ref_paged *p = &drawn.paged;

    if (ref_page(drawn.ticket, n, stop, drawn.sheet[0], REF_SHEET, drawn.sheet[1], REF_SHEET,
                 drawn.page, REF_PAGE, p) != 0)
        exit(2);
    exact[0] = p->planned.sheet_length[0];
    exact[1] = p->planned.sheet_length[1];
    exact[2] = p->length;
}

/* A job's lines: exact rooms, other rooms, a stop above N, and the ticket damaged, with a stop that
 * may be above N. */
static void draw_lines(uint64_t number)
{
    struct chance c = chance_for(runs.seed, number);
    struct ref_job *job = &drawn.job;
    struct bytes good = {drawn.ticket, 0}, worse = {drawn.worse, 0};
    size_t exact[3], stop, above;

    draw_job(&c, job);
    good.len = ref_write_ticket(job, drawn.ticket, sizeof drawn.ticket);
    stop = draw_stop(&c, job->references);
    above = draw_stop_above(&c, job->references);
    plan_drawn(good.len, stop, exact);
    memcpy(drawn.worse, drawn.ticket, good.len);
    worse.len = damage_ticket(&c, job, drawn.worse, good.len);
    memcpy(drawn.asked[0].room, exact, sizeof exact);
    for (unsigned k = 0; k < LINES; k++) {
        drawn.asked[k].ticket = k == 3 ? worse : good;
        drawn.asked[k].stop = k == 2 || (k == 3 && one_in(&c, 2)) ? above : stop;
        if (k > 0)
            draw_rooms(&c, exact, drawn.asked[k].room);
    }
}

/* The lines of the longest page or of the longest ticket: exact rooms; 19; 18; 21. */
static void draw_longest_lines(enum longest longest)
{
    struct chance c = chance_for(runs.seed, 0);
    struct ref_job *job = &drawn.job;
    size_t exact[3], n;

    if (longest == OF_PAGES)
        draw_longest(&c, job);
    else
        draw_longest_ticket(&c, job);
    n = ref_write_ticket(job, drawn.ticket, sizeof drawn.ticket);
    plan_drawn(n, job->stop, exact);
    if (longest == OF_PAGES ? exact[2] != REF_PAGE : n != REF_TICKET)
        exit(2);
    for (unsigned k = 0; k < LINES; k++) {
        drawn.asked[k].ticket = (struct bytes){drawn.ticket, n};
        drawn.asked[k].stop = job->stop + (k == 3);
        drawn.asked[k].room[0] = exact[0];
        drawn.asked[k].room[1] = exact[1] - (k > 1);
        drawn.asked[k].room[2] = exact[2] - (k > 0);
    }
}

/* ---- The program `cases` ---- */

static char *put_call(char *to, const struct asked *a)
{
    to += sprintf(to, "page %s", a->ticket.len == 0 ? "-" : "");
    to = put_hex(to, a->ticket.at, a->ticket.len);
    return to + sprintf(to, " %zu %zu %zu %zu", a->stop, a->room[0], a->room[1], a->room[2]);
}

/* Does the same for the lines of each job, and then for those of the longest page and ticket. */
static void each_job(void (*with)(const struct asked *, FILE *), FILE *file)
{
    for (uint64_t k = 0; k < runs.count; k++) {
        runs.draw = (int64_t)(runs.first + k);
        draw_lines(runs.first + k);
        for (unsigned line = 0; line < LINES; line++)
            with(&drawn.asked[line], file);
    }
    runs.draw = NO_DRAW;
    if (runs.first != 0)
        return;
    for (unsigned k = 0; k < 2; k++) {
        draw_longest_lines(k == 0 ? OF_PAGES : OF_TICKETS);
        for (unsigned line = 0; line < LINES; line++)
            with(&drawn.asked[line], file);
    }
}

static void write_line(const struct asked *a, FILE *file)
{
    static char call[ANSWER_LINE];

    put_call(call, a);
    fprintf(file, "%s\n", call);
}

static void write_lines(FILE *file)
{
    each_job(write_line, file);
}

static enum kind kind_of(const struct asked *a)
{
    unsigned references = ref_references(a->ticket.at, a->ticket.len);

    if (a->stop >= references)
        return a->stop == references ? WHOLE : ABOVE;
    return a->stop == 0 ? NONE : BETWEEN;
}

/* What the job that was drawn carries in, up to its stop. */
static enum carried carried_of(size_t stop)
{
    const struct ref_job *job = &drawn.job;
    bool any = false;
    size_t next_read = 0;

    for (unsigned b = 0; b < job->blocks; b++)
        any = any || job->carried[b];
    while (next_read < stop && job->carried[job->reference[next_read]])
        next_read++;
    return !any ? EMPTY : next_read == 0 ? UNREAD : next_read < stop ? IN_PART : IN_WHOLE;
}

/* Counts the answer's number and the stop; and with exact rooms, the page's mark and letters, and what
 * the job carries in. */
static void count(const struct asked *a, const char *text)
{
    unsigned long number = strtoul(text, NULL, 10);

    run.met[0][number]++;
    if (number == 0 || number == 21)
        run.stops[kind_of(a)]++;
    if (number != 0 || a != &drawn.asked[0])
        return;
    run.mark[drawn.paged.planned.mark]++;
    run.carried[carried_of(a->stop)]++;
    for (size_t at = REF_LINE - 2; at < drawn.paged.length - REF_LEGEND * REF_LINE; at += REF_LINE)
        run.letter[strchr(letters, drawn.page[at]) - letters]++;
}

static void compare_line(const struct asked *a, FILE *file)
{
    static char call[ANSWER_LINE];

    put_call(call, a);
    count(a, same_answer(file, call, print_answers));
}

static void compare_lines(FILE *file)
{
    each_job(compare_line, file);
}

/* ---- The program `page` ---- */

/* What it should print: the page up to N, or the number of the refusal. Gives the length. */
static size_t want_text(struct bytes ticket, uint8_t *text)
{
    static uint8_t sheet[2][REF_SHEET];
    struct ref_paged paged;
    unsigned number = ref_page(ticket.at, ticket.len, ref_references(ticket.at, ticket.len),
                               sheet[0], REF_SHEET, sheet[1], REF_SHEET, text, REF_PAGE, &paged);

    run.met[1][number]++;
    return number == 0 ? paged.length : (size_t)sprintf((char *)text, "refused %u\n", number);
}

/* A ticket as the input, in one of two ways. */
static void try_page_by(output *through, struct bytes ticket)
{
    static uint8_t want[REF_PAGE], have[REF_PAGE + REF_LINE];
    const char *const command[] = {runs.program, NULL};
    size_t m = want_text(ticket, want), at = 0;
    size_t n = through(command, "page", ticket.at, ticket.len, have, sizeof have);

    if (n == m && memcmp(have, want, n) == 0)
        return;
    while (at < n && at < m && have[at] == want[at])
        at++;
    printf("DISAGREE: page prints %zu bytes, the reference has %zu; byte %zu differs\n", n, m, at);
    at -= at % REF_LINE;
    print_line("page", have + at, n - at);
    print_line("reference", want + at, m - at);
    printf("  ticket of %zu bytes ", ticket.len);
    for (size_t k = 0; k < ticket.len && k < REF_TICKET + SPARE; k++)
        printf("%02x", ticket.at[k]);
    printf("\n");
    fail();
}

static void try_page(struct bytes ticket)
{
    try_page_by(output_of, ticket);
}

/* A ticket followed by more bytes, all alike. */
static void try_longer(struct bytes ticket, size_t more, uint8_t fill_with)
{
    static uint8_t input[REF_TICKET + LONGER];

    memcpy(input, ticket.at, ticket.len);
    memset(input + ticket.len, fill_with, more);
    try_page((struct bytes){input, ticket.len + more});
}

static void try_program(void)
{
    for (uint64_t k = 0; k < runs.count && runs.first + k < PROGRAM_JOBS; k++) {
        runs.draw = (int64_t)(runs.first + k);
        draw_lines(runs.first + k);
        try_page(drawn.asked[0].ticket);
        try_page(drawn.asked[3].ticket);
    }
    runs.draw = NO_DRAW;
    if (runs.first != 0)
        return;
    draw_longest_lines(OF_PAGES);
    try_page(drawn.asked[0].ticket);
    draw_longest_lines(OF_TICKETS);
    try_page(drawn.asked[0].ticket);
    try_page_by(output_in_two, drawn.asked[0].ticket);
    try_page((struct bytes){drawn.ticket, 0});
    for (unsigned k = 0; k < 2; k++) {
        try_longer(drawn.asked[0].ticket, 1, k == 0 ? 0 : 0xff);
        try_longer(drawn.asked[0].ticket, LONGER, k == 0 ? 0 : 0xff);
        try_longer((struct bytes){drawn.ticket, REF_TICKET - 1}, 1, k == 0 ? 0 : 0xff);
        try_longer((struct bytes){drawn.ticket, 1}, LONGER, k == 0 ? 0 : 0xff);
    }
}

/* ---- All of it ---- */

/* Prints what was met; false if something was not. */
static bool all_met(void)
{
    bool all = run.mark[0] > 0 && run.mark[1] > 0;

    for (unsigned by = 0; by < 2; by++) {
        printf("  %s:", by == 0 ? "cases" : "page");
        for (unsigned k = 0; k < NUMBERS; k++)
            if (k <= 8 || k >= 25 || (by == 0 && ((k >= 17 && k <= 19) || k == 21))) {
                printf(" %u:%lu", k, run.met[by][k]);
                all = all && run.met[by][k] > 0;
            }
        printf("\n");
    }
    printf("  stops:");
    for (unsigned k = 0; k < KINDS; k++) {
        printf("%s %s %lu", k == 0 ? "" : ",", kind_name[k], run.stops[k]);
        all = all && run.stops[k] > 0;
    }
    printf("\n  carried in:");
    for (unsigned k = 0; k < CARRIED; k++) {
        printf("%s %s %lu", k == 0 ? "" : ",", carried_name[k], run.carried[k]);
        all = all && run.carried[k] > 0;
    }
    printf("\n  letters:");
    for (unsigned k = 0; k < LETTERS; k++) {
        printf(" %c:%lu", letters[k], run.letter[k]);
        all = all && run.letter[k] > 0;
    }
    printf("; pages of the short plan %lu, of the sparing plan %lu\n", run.mark[REF_P_MIN],
           run.mark[REF_P_CON]);
    return all;
}

int main(int argc, char **argv)
{
    begin_running("pages", argc, argv);
    try_lines(write_lines, compare_lines);
    try_program();
    return end_running("jobs", all_met, "a number, a kind of stop or of carried blocks, a letter or a mark");
}
