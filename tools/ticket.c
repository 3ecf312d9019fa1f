/* ticket.c - a job written as text made into a ticket, and back; README.md has the text format. */
#include "job.h"
#include "note.h"

#include <stdarg.h>
#include <stdio.h>
#include <stdlib.h>
#include <string.h>

enum {
    NOWHERE = MAX_DISKS,       /* the disk of a block not placed yet */
    WORD_ROOM = 24,
    COLUMNS = 79
};

/* ---- Words of a text ---- */

struct text {
    FILE *from;
    int next;                  /* the character not taken yet */
    unsigned line;             /* counted from 1 */
    unsigned placing_line;     /* the last line that placed blocks */
    bool reading;              /* a read or passes line has been met */
    char word[WORD_ROOM];
};

/* Ends the program; number 0 if none of the papers' fits. */
static _Noreturn void fail(unsigned line, unsigned number, const char *why, ...)
{
    va_list args;

    fprintf(stderr, "line %u: ", line);
    if (number != 0)
        fprintf(stderr, "refused %u: ", number);
    va_start(args, why);
    vfprintf(stderr, why, args);
    va_end(args);
    fputc('\n', stderr);
    exit(BAD_INPUT);
}

static bool is_blank(int c)
{
    return c == ' ' || c == '\t' || c == '\r';
}

static bool ends_line(int c)
{
    return c == '\n' || c == EOF;
}

/* Goes on to the next character that is no blank and in no comment. */
static void skip_blanks(struct text *t)
{
    while (is_blank(t->next))
        t->next = getc(t->from);
    if (t->next == '#')
        while (!ends_line(t->next))
            t->next = getc(t->from);
}

/* Takes the next word of this line; false if there is none. */
static bool next_word(struct text *t)
{
    size_t n = 0;

    skip_blanks(t);
    while (!is_blank(t->next) && !ends_line(t->next) && t->next != '#') {
        if (n == WORD_ROOM - 1)
            fail(t->line, 0, "a word has more than %d characters", WORD_ROOM - 1);
        t->word[n++] = t->next < ' ' || t->next > '~' ? '?' : (char)t->next;
        t->next = getc(t->from);
    }
    t->word[n] = '\0';
    return n > 0;
}

/* The value of the digits at s, cut off where it is too large for anything; moves s past them. */
static unsigned digits(const char **s)
{
    unsigned value = 0;

    for (; **s >= '0' && **s <= '9'; ++*s)
        if (value < 100000)
            value = 10 * value + (unsigned)(**s - '0');
    return value;
}

/* Ends the program for a word that is not what is due; why has a place for the word. */
static _Noreturn void not_due(const struct text *t, const char *why)
{
    static const char *const starts[] = {"disk", "carried", "read", "passes"};

    for (unsigned k = 0; k < sizeof starts / sizeof starts[0]; k++)
        if (strcmp(t->word, starts[k]) == 0)
            why = "'%s' begins a line of its own";
    fail(t->line, 0, why, t->word);
}

/* The word as one number. */
static unsigned number(const struct text *t)
{
    const char *s = t->word;
    unsigned value = digits(&s);

    if (s == t->word || *s != '\0')
        not_due(t, "'%s' is not a number");
    return value;
}

/* The word as a number, or as a range like 0-3. */
static void range(const struct text *t, unsigned *first, unsigned *last)
{
    const char *s = t->word, *second;

    *first = *last = digits(&s);
    if (s != t->word && *s == '-') {
        second = ++s;
        *last = digits(&s);
        if (s == second)
            s = t->word;
    }
    if (s == t->word || *s != '\0')
        not_due(t, "'%s' is neither a number nor a range");
    if (*first > *last)
        fail(t->line, 0, "the range %s runs backwards", t->word);
}

/* ---- Text to job ---- */

static void place(const struct text *t, struct job *job, unsigned b)
{
    if (b >= MAX_BLOCKS)
        fail(t->line, 4, "a job has 1 to %d blocks, and '%s' is past block %d", MAX_BLOCKS,
             t->word, MAX_BLOCKS - 1);
    if (job->disk_of[b] != NOWHERE)
        fail(t->line, 0, "block %u is already on disk %u", b, job->disk_of[b]);
    job->disk_of[b] = job->disks - 1;
    if (b >= job->blocks)
        job->blocks = b + 1;
}

/* The numbers after "blocks", for the last disk. */
static void blocks(struct text *t, struct job *job)
{
    unsigned first, last;

    if (job->disks == 0)
        fail(t->line, 0, "blocks are placed before the first disk");
    if (carried_on(job, job->disks - 1) > 0)
        fail(t->line, 0, "'blocks' is too late, after those that the disk carries in");
    t->placing_line = t->line;
    while (next_word(t)) {
        range(t, &first, &last);
        for (unsigned b = first; b <= last; b++)
            place(t, job, b);
    }
}

/* One more block that the last disk carries in, from the word. */
static void carry(const struct text *t, struct job *job, unsigned b)
{
    unsigned d = job->disks - 1;

    if (carried_on(job, d) == job->slots[d])
        fail(t->line, 25, "disk %u has %u slot%s, and carries in more blocks with '%s'", d,
             job->slots[d], job->slots[d] == 1 ? "" : "s", t->word);
    if (b >= MAX_BLOCKS)
        fail(t->line, 26, "disk %u carries in '%s', which is past block %d", d, t->word,
             MAX_BLOCKS - 1);
    if (b >= job->blocks || job->disk_of[b] != d)
        fail(t->line, 26, "disk %u carries in block %u, which is not among its blocks above", d, b);
    if (job->carried[b])
        fail(t->line, 26, "disk %u carries in block %u twice", d, b);
    job->carried[b] = true;
}

/* The numbers after "carried", for the last disk, whose blocks have all been placed. */
static void carried(struct text *t, struct job *job)
{
    unsigned first, last;

    if (job->disks == 0)
        fail(t->line, 0, "blocks are carried in before the first disk");
    while (next_word(t)) {
        range(t, &first, &last);
        for (unsigned b = first; b <= last; b++)
            carry(t, job, b);
    }
}

/* What follows "disk". */
static void disk(struct text *t, struct job *job)
{
    unsigned slots;

    if (!next_word(t))
        fail(t->line, 0, "the number of the disk is missing");
    if (job->disks == MAX_DISKS)
        fail(t->line, 2, "a job has 1 to %d disks, and this is one more", MAX_DISKS);
    if (number(t) != job->disks)
        fail(t->line, 0, "disk %u is due, not '%s'", job->disks, t->word);
    if (!next_word(t) || strcmp(t->word, "slots") != 0)
        fail(t->line, 0, "the word 'slots' is missing");
    if (!next_word(t))
        fail(t->line, 0, "the number of slots is missing");
    slots = number(t);
    if (slots == 0 || slots > MAX_SLOTS)
        fail(t->line, 3, "a disk has 1 to %d slots, not '%s'", MAX_SLOTS, t->word);
    job->slots[job->disks++] = slots;
    t->placing_line = t->line;
    if (!next_word(t))
        return;
    if (strcmp(t->word, "blocks") != 0)
        not_due(t, "the word 'blocks' is due, not '%s'");
    blocks(t, job);
}

/* All disks have been given: whether every block has its place. */
static void end_placing(const struct text *t, const struct job *job)
{
    if (job->disks == 0)
        fail(t->line, 2, "a job has 1 to %d disks, and this one has none", MAX_DISKS);
    if (job->blocks == 0)
        fail(t->placing_line, 4, "a job has 1 to %d blocks, and this one has none", MAX_BLOCKS);
    for (unsigned b = 0; b < job->blocks; b++)
        if (job->disk_of[b] == NOWHERE)
            fail(t->placing_line, 0, "block %u is on no disk, and the last block is %u", b,
                 job->blocks - 1);
}

/* One more reference, to the block in the word. */
static void add_reference(const struct text *t, struct job *job, unsigned b)
{
    if (job->references == MAX_REFERENCES)
        fail(t->line, 6, "a job has at most %d references", MAX_REFERENCES);
    if (b >= job->blocks)
        fail(t->line, 7, "a read of block '%s', and the last block is %u", t->word,
             job->blocks - 1);
    job->reference[job->references++] = b;
}

/* The numbers after "read". */
static void references(struct text *t, struct job *job)
{
    while (next_word(t)) {
        unsigned b = number(t);

        add_reference(t, job, b);
    }
}

/* The rest of the line, without blanks at its ends and without a comment; gives its length. */
static size_t rest_of_line(struct text *t, char **rest)
{
    size_t n = 0, room = 0;

    *rest = NULL;
    for (skip_blanks(t); !ends_line(t->next) && t->next != '#'; t->next = getc(t->from)) {
        if (n == room) {
            room = 2 * room + 256;
            *rest = realloc(*rest, room);
            if (*rest == NULL) {
                perror("a note");
                exit(BAD_USAGE);
            }
        }
        (*rest)[n++] = (char)t->next;
    }
    skip_blanks(t);
    while (n > 0 && is_blank((*rest)[n - 1]))
        n--;
    return n;
}

/* The note after "passes". It is read by itself, and then its references are added. */
static void passes(struct text *t, struct job *job)
{
    static struct note note;
    struct refusal refusal;
    char *rest;
    size_t length = rest_of_line(t, &rest);
    bool good = read_note(rest, length, &note, &refusal);

    free(rest);
    if (!good)
        fail(t->line, refusal.number, "%s", refusal.why);
    for (unsigned i = 0; i < note.references; i++) {
        snprintf(t->word, sizeof t->word, "%u", note.reference[i]);
        add_reference(t, job, note.reference[i]);
    }
}

/* A line, of which the first word has been taken. */
static void statement(struct text *t, struct job *job)
{
    bool is_disk = strcmp(t->word, "disk") == 0, is_blocks = strcmp(t->word, "blocks") == 0;
    bool is_read = strcmp(t->word, "read") == 0, is_passes = strcmp(t->word, "passes") == 0;
    bool is_carried = strcmp(t->word, "carried") == 0;

    if (is_read || is_passes) {
        if (!t->reading)
            end_placing(t, job);
        t->reading = true;
        if (is_read)
            references(t, job);
        else
            passes(t, job);
        return;
    }
    if (!is_disk && !is_blocks && !is_carried)
        fail(t->line, 0, "a line starts with disk, blocks, carried, read or passes, not '%s'",
             t->word);
    if (t->reading)
        fail(t->line, 0, "'%s' is too late, after the first read or passes", t->word);
    if (is_disk)
        disk(t, job);
    else if (is_blocks)
        blocks(t, job);
    else
        carried(t, job);
}

static void read_text(FILE *from, const char *path, struct job *job)
{
    struct text t = {.from = from, .next = getc(from), .line = 1};

    job->disks = job->blocks = job->references = 0;
    for (unsigned b = 0; b < MAX_BLOCKS; b++) {
        job->disk_of[b] = NOWHERE;
        job->carried[b] = false;
    }
    while (t.next != EOF) {
        if (next_word(&t))
            statement(&t, job);
        if (t.next == '\n') {
            t.next = getc(from);
            t.line += t.next != EOF;
        }
    }
    if (ferror(from)) {
        perror(path);
        exit(BAD_USAGE);
    }
    if (!t.reading)
        end_placing(&t, job);
}

/* ---- Job to ticket ---- */

struct ticket {
    uint8_t bytes[LONGEST_TICKET];
    size_t at;                 /* in bits */
};

static void put(struct ticket *t, unsigned width, unsigned value)
{
    for (; width > 0; width--, t->at++)
        t->bytes[t->at / 8] |= (uint8_t)((value >> (width - 1) & 1u) << (7 - t->at % 8));
}

static void print_ticket(const struct job *job)
{
    static struct ticket t;

    put(&t, 4, job->disks);
    for (unsigned d = 0; d < job->disks; d++)
        put(&t, 7, job->slots[d]);
    put(&t, 10, job->blocks);
    for (unsigned b = 0; b < job->blocks; b++)
        put(&t, 3, job->disk_of[b]);
    put(&t, 12, job->references);
    for (unsigned i = 0; i < job->references; i++)
        put(&t, 9, job->reference[i]);
    for (unsigned d = 0; d < job->disks; d++) {
        put(&t, 7, carried_on(job, d));
        for (unsigned b = 0; b < job->blocks; b++)
            if (job->carried[b] && job->disk_of[b] == d)
                put(&t, 9, b);
    }
    fwrite(t.bytes, 1, (t.at + 7) / 8, stdout);
}

/* ---- Job to text ---- */

/* Prints a word in a row of words; one that would pass the last column starts a new line. */
static void print_word(const char *start, int *column, const char *word)
{
    if (*column + 1 + (int)strlen(word) > COLUMNS)
        *column = printf("\n%s", start) - 1;
    *column += printf(" %s", word);
}

/* The first block past those from b on that are one word: three or more in the list, or b alone. */
static unsigned word_end(const bool *listed, unsigned b)
{
    unsigned end = b + 1;

    while (end < MAX_BLOCKS && listed[b] && listed[end])
        end++;
    return end - b < 3 ? b + 1 : end;
}

/* Prints a list of blocks after the first words of its line; start has those of a further line. */
static void print_blocks(const bool *listed, const char *start, int column)
{
    char word[WORD_ROOM];

    for (unsigned b = 0, end; b < MAX_BLOCKS; b = end) {
        end = word_end(listed, b);
        if (!listed[b])
            continue;
        if (end == b + 1)
            snprintf(word, sizeof word, "%u", b);
        else
            snprintf(word, sizeof word, "%u-%u", b, end - 1);
        print_word(start, &column, word);
    }
    putchar('\n');
}

static void print_disk(const struct job *job, unsigned d)
{
    bool placed[MAX_BLOCKS] = {false}, held[MAX_BLOCKS] = {false};

    for (unsigned b = 0; b < job->blocks; b++) {
        placed[b] = job->disk_of[b] == d;
        held[b] = placed[b] && job->carried[b];
    }
    print_blocks(placed, "  blocks", printf("disk %u slots %u blocks", d, job->slots[d]));
    if (carried_on(job, d) > 0)
        print_blocks(held, "  carried", printf("  carried"));
}

static void print_text(const struct job *job)
{
    char word[WORD_ROOM];
    int column = (int)strlen("read");

    for (unsigned d = 0; d < job->disks; d++)
        print_disk(job, d);
    if (job->references == 0)
        return;
    fputs("read", stdout);
    for (unsigned i = 0; i < job->references; i++) {
        snprintf(word, sizeof word, "%u", job->reference[i]);
        print_word("read", &column, word);
    }
    putchar('\n');
}

/* ---- The program ---- */

static _Noreturn void usage(void)
{
    fputs("usage: ticket [-d] [from [to]]\n"
          "  makes a ticket of a job written as text; -d makes the text of a ticket\n", stderr);
    exit(BAD_USAGE);
}

/* The job from a text, or from a ticket if back. Ends the program if it is no good. */
static void read_job(const char *path, bool back, struct job *job)
{
    uint8_t bytes[LONGEST_TICKET + 1];
    struct refusal refusal;
    bool standard = path == NULL || strcmp(path, "-") == 0;
    FILE *from;

    if (back) {
        if (read_ticket(bytes, read_bytes(path, bytes, sizeof bytes), job, &refusal))
            return;
        fprintf(stderr, "refused %u: %s\n", refusal.number, refusal.why);
        exit(BAD_INPUT);
    }
    from = standard ? stdin : fopen(path, "rb");
    if (from == NULL) {
        perror(path);
        exit(BAD_USAGE);
    }
    read_text(from, standard ? "standard input" : path, job);
}

int main(int argc, char **argv)
{
    bool back = argc > 1 && strcmp(argv[1], "-d") == 0;
    const char *from = NULL, *to = NULL;
    static struct job job;

    argc -= back;
    argv += back;
    if (argc > 3 || (argc > 1 && argv[1][0] == '-' && argv[1][1] != '\0'))
        usage();
    if (argc > 1)
        from = argv[1];
    if (argc > 2)
        to = argv[2];
    read_job(from, back, &job);
    if (to != NULL && freopen(to, "wb", stdout) == NULL) {
        perror(to);
        return BAD_USAGE;
    }
    if (back)
        print_text(&job);
    else
        print_ticket(&job);
    finish_output();
    return GOOD;
}
