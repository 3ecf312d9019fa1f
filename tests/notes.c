/* notes.c - the programs `cases` and `passes`, and the tool's reader of notes, against the reference.
 *
 * usage: notes CASES PASSES [SEED [COUNT [FIRST]]]
 * Draws COUNT notes from number FIRST on (default 0). CASES gets lines `note` of the vectors' form,
 * four for each note: as it is, with two rooms, and damaged in two ways; and four of a long text. The
 * reader of tools/note.c gets the same; PASSES gets those of the first notes, and longer texts. Ends
 * at the first answer that is not the reference's. Every note's draws depend on the seed and its own
 * number only, so "SEED 1 FIRST" replays one note, and "SEED 0" what is tried without a note. Exit 0
 * only if all agree and, in a run of notes from 0 on, every number, room and kind of damage was met,
 * and the limits of parentheses and references. */
#include "../tools/note.h"
#include "reference/answer.h"
#include "reference/chance.h"
#include "reference/reference.h"
#include "running.h"

#include <inttypes.h>
#include <stdarg.h>
#include <stdlib.h>
#include <string.h>

enum { LINES = 4, NUMBERS = 25 };
enum { MOST_TEXT = 60000 };    /* characters of a line's note */
enum { LONG = 800 };           /* references of the long text, of 57,597 characters */
enum { MOST_ROOM = 4096 };     /* entries of a line's room */
enum { PROGRAM_NOTES = 150 };  /* the program `passes` gets the texts of so many notes */
enum { MOST_INPUT = 1048576 }; /* it reads so many bytes */
enum { LONGER = 1000000 };     /* and gets so many more */

enum damage {
    CHANGED, DROPPED, INSERTED, DOUBLED, SWAPPED, CUT, BYTE, BYTES, BLANK, DIGIT, LIMIT, COUNT,
    PARENTHESES, DAMAGES
};

static const char *const damage_name[DAMAGES] = {
    "changed", "dropped", "inserted", "doubled", "swapped", "cut", "a byte", "bytes", "a blank",
    "a digit", "a limit", "a count", "parentheses"
};

enum room { EXACT, ONE_LESS, NONE, LESS, AMPLE, ROOMS };

static const char *const room_name[ROOMS] = {"exact", "one less", "none", "less", "ample"};

enum by { BY_CASES, BY_PASSES, BY_TOOL, READERS };

static const char *const reader_name[READERS] = {"cases", "passes", "tool"};

static struct {
    unsigned long met[READERS][NUMBERS];
    unsigned long damaged[DAMAGES], rooms[ROOMS];      /* that gives 22; of a sound note */
    unsigned long deepest, bars, full, too_many;       /* sixteen open; 2048 references, and more */
    unsigned long both;                                /* 22 where 23 falls on the same character */
} run;

/* ---- Notes drawn by chance ---- */

struct bytes {
    uint8_t at[MOST_TEXT + 1];
    size_t len;
};

enum { POWERS = 0 };

/* How a note is drawn. */
struct style {
    unsigned sides, items;     /* the most in each note */
    unsigned depth;            /* parentheses open at most */
    unsigned inside;           /* one part in so many is a note in parentheses */
    unsigned counted;          /* one item in so many has a count, */
    unsigned most_count;       /* at most this, or of POWERS a power of two */
    unsigned blocks;           /* blocks are below this */
    unsigned left;             /* parts that may still be put */
};

static void put_format(struct bytes *text, const char *format, ...)
{
    va_list args;

    va_start(args, format);
    text->len += (size_t)vsnprintf((char *)text->at + text->len, sizeof text->at - text->len, format,
                                   args);
    va_end(args);
    if (text->len > MOST_TEXT)
        exit(2);
}

static void draw_note(struct chance *c, struct style *s, unsigned depth, struct bytes *text);

static void draw_item(struct chance *c, struct style *s, unsigned depth, struct bytes *text)
{
    static const unsigned limits[] = {0, 9, 10, 99, 100, 511};
    bool inside = depth < s->depth && s->left > 0 && one_in(c, s->inside);

    s->left -= s->left > 0;
    if (inside) {
        put_format(text, "(");
        draw_note(c, s, depth + 1, text);
        put_format(text, ")");
    } else if (one_in(c, 10)) {
        put_format(text, "%u", limits[below(c, 6)]);
    } else {
        put_format(text, "%u", below(c, s->blocks));
    }
    if (one_in(c, s->counted))
        put_format(text, "*%u", s->most_count == POWERS ? 1u << below(c, 12)
                                                        : between(c, 1, s->most_count));
}

static void draw_note(struct chance *c, struct style *s, unsigned depth, struct bytes *text)
{
    unsigned sides = between(c, 1, s->sides);

    for (unsigned k = 0; k < sides && (k == 0 || s->left > 0); k++) {
        unsigned items = between(c, 1, s->items);

        if (k > 0)
            put_format(text, " | ");
        for (unsigned i = 0; i < items && (i == 0 || s->left > 0); i++) {
            if (i > 0)
                put_format(text, " ");
            draw_item(c, s, depth, text);
        }
    }
}

/* Any sound note: most are short. */
static void draw_text(struct chance *c, struct bytes *text)
{
    unsigned how = below(c, 200);
    struct style s = {3, 4, 3, 3, 3, 5, 10, 20};       /* short */

    if (how < 1)
        s = (struct style){1, 2200, 1, 50, 50, 3, 10, 2200};           /* many items */
    else if (how < 2)
        s = (struct style){2200, 1, 1, 50, 50, 3, 10, 2200};           /* many sides */
    else if (how < 20)
        s = (struct style){12, 12, 2, 5, 4, 30, 512, 60};              /* longer */
    else if (how < 40)
        s = (struct style){2, 2, 16, 1, 3, 2, 512, 40};                /* deep */
    else if (how < 60)
        s = (struct style){2, 2, between(c, 4, 15), 1, 3, 2, 512, 40}; /* less deep */
    else if (how < 80)
        s = (struct style){2, 2, 16, 2, 2, 2048, 512, 20};             /* large counts */
    else if (how < 90)
        s = (struct style){1, 1, 16, 1, 1, POWERS, 512, 17};           /* counts all the way */
    else if (how < 100)
        s = (struct style){1, 1, 0, 1, 2, 2048, 512, 1};               /* one item */
    text->len = 0;
    draw_note(c, &s, 0, text);
}

/* A note with one side or item more, so that it has 2047 to 2049 references. */
static void draw_full(struct chance *c, struct bytes *text)
{
    static struct ref_noted noted;
    unsigned all = 2047 + between(c, 1, 4) / 2;        /* every second time 2048 */
    unsigned block = below(c, 10);

    ref_read_note(text->at, text->len, REF_PARENTHESES, &noted);
    if (noted.count < all)
        put_format(text, "%s%u*%u", one_in(c, 2) ? " | " : " ", block, all - (unsigned)noted.count);
}

/* ---- Damage ---- */

static uint8_t draw_character(struct chance *c)
{
    return (uint8_t)"0123456789()*| "[below(c, 15)];
}

/* Makes room for so many bytes at a place; false if there is none. */
static bool insert_room(struct bytes *text, size_t at, size_t how_many)
{
    if (text->len + how_many > MOST_TEXT)
        return false;
    memmove(text->at + at + how_many, text->at + at, text->len - at);
    text->len += how_many;
    return true;
}

/* Puts so many of a byte in at a place. */
static void insert(struct bytes *text, size_t at, uint8_t byte, size_t how_many)
{
    if (insert_room(text, at, how_many))
        memset(text->at + at, byte, how_many);
}

static void drop(struct bytes *text, size_t at)
{
    memmove(text->at + at, text->at + at + 1, text->len - at - 1);
    text->len--;
}

/* A place of the text where one of these characters stands, if chance finds one. */
static size_t place_of(struct chance *c, const struct bytes *text, const char *characters)
{
    size_t at = 0;

    for (unsigned k = 0; k < 20; k++) {
        at = below(c, (unsigned)text->len);
        if (strchr(characters, text->at[at]) != NULL)
            break;
    }
    return at;
}

/* The place after the first character in the innermost parentheses. */
static size_t innermost(const struct bytes *text)
{
    unsigned open = 0, most = 0;
    size_t at = 0;

    for (size_t k = 0; k < text->len; k++) {
        open += text->at[k] == '(';
        open -= text->at[k] == ')' && open > 0;
        if (open > most) {
            most = open;
            at = k + 1;
        }
    }
    return at < text->len ? at + 1 : at;
}

static void damage(struct chance *c, enum damage how, struct bytes *text)
{
    static const char *const limits[] = {"511", "512", "0", "00", "01", "1*2048", "1*2049", "1*0"};
    size_t at = below(c, (unsigned)text->len), after = below(c, (unsigned)text->len + 1);
    uint8_t byte;

    switch (how) {
    case CHANGED:
        text->at[at] = draw_character(c);
        break;
    case DROPPED:
        drop(text, at);
        break;
    case INSERTED:
        insert(text, after, draw_character(c), 1);
        break;
    case DOUBLED:
        insert(text, at, text->at[at], 1);
        break;
    case SWAPPED:              /* with the one before it */
        byte = text->at[at - (at > 0)];
        text->at[at - (at > 0)] = text->at[at];
        text->at[at] = byte;
        break;
    case CUT:
        text->len = at;
        break;
    case BYTE:
        text->at[at] = (uint8_t)below(c, 256);
        break;
    case BYTES:
        text->len = between(c, 1, 30);
        fill(c, text->at, text->len);
        break;
    case BLANK:                /* for a space, or first, last or anywhere */
        byte = (uint8_t)" \t\n\r"[below(c, 4)];
        if (one_in(c, 2))
            text->at[place_of(c, text, " ")] = byte;
        else
            insert(text, one_in(c, 3) ? 0 : one_in(c, 2) ? text->len : after, byte, 1);
        break;
    case DIGIT:
        at = place_of(c, text, "0123456789");
        insert(text, at, (uint8_t)('0' + below(c, 10)), 1);
        break;
    case LIMIT:                /* an item more, at a limit or past it */
        put_format(text, " %s", limits[below(c, sizeof limits / sizeof limits[0])]);
        break;
    case COUNT:                /* after an item, which may have one */
        at = place_of(c, text, "0123456789)") + 1;
        byte = (uint8_t)('0' + below(c, 10));
        if (insert_room(text, at, 2)) {
            text->at[at] = '*';
            text->at[at + 1] = byte;
        }
        break;
    default:                   /* where one may open, mostly, or not */
        at = place_of(c, text, "0123456789(");
        if (one_in(c, 2))
            insert(text, at, '(', between(c, 1, 20));
        else
            insert(text, innermost(text), '(', 1);
    }
}

/* ---- The lines of a note ---- */

/* A note asked for: a text and a room; and what is counted if it is refused. */
struct asked {
    struct bytes text;
    size_t room;
    enum room kind;
    enum damage damage;        /* DAMAGES for none */
};

static struct asked asked[LINES];

static void draw_room(struct chance *c, struct asked *a)
{
    static struct ref_noted noted;
    size_t count;

    ref_read_note(a->text.at, a->text.len, REF_PARENTHESES, &noted);
    count = noted.number == 0 && noted.count <= REF_REFERENCES ? noted.count : below(c, 3000);
    switch (a->kind) {
    case EXACT:    a->room = count; break;
    case ONE_LESS: a->room = count - (count > 0); break;
    case NONE:     a->room = 0; break;
    case LESS:     a->room = below(c, (unsigned)count); break;
    default:       a->room = count + 1 + below(c, MOST_ROOM - (unsigned)count);
    }
}

/* As it is, with exact and other rooms; damaged once, and once more or otherwise. */
static void draw_lines(uint64_t number)
{
    struct chance c = chance_for(runs.seed, number);

    draw_text(&c, &asked[0].text);
    if (asked[0].text.len < 1000 && one_in(&c, 15))
        draw_full(&c, &asked[0].text);
    for (unsigned k = 0; k < LINES; k++) {
        asked[k].text = asked[0].text;
        asked[k].kind = k == 0 ? EXACT : (enum room)below(&c, ROOMS);
        asked[k].damage = k < 2 ? DAMAGES : (enum damage)below(&c, DAMAGES);
        if (k > 1)
            damage(&c, asked[k].damage, &asked[k].text);
        if (k > 2 && asked[k].text.len > 0 && one_in(&c, 3))
            damage(&c, asked[k].damage, &asked[k].text);
        draw_room(&c, &asked[k]);
    }
}

/* A block in sixteen parentheses, with all counts 1: the longest text of a reference. */
static void put_longest_item(struct bytes *text, unsigned block)
{
    for (unsigned k = 0; k < REF_PARENTHESES; k++)
        put_format(text, "(");
    put_format(text, "%u*1", block);
    for (unsigned k = 0; k < REF_PARENTHESES; k++)
        put_format(text, ")*1");
}

/* The lines of a long text, of LONG references: exact room; one entry less; its last character left
 * out; its last count above 2048. */
static void draw_long_lines(void)
{
    struct bytes *text = &asked[0].text;

    text->len = 0;
    for (unsigned k = 0; k < LONG; k++) {
        put_format(text, k == 0 ? "" : " | ");
        put_longest_item(text, 511 - k % 412);
    }
    for (unsigned k = 0; k < LINES; k++) {
        asked[k].text = *text;
        asked[k].kind = k == 1 ? ONE_LESS : EXACT;
        asked[k].damage = k < 2 ? DAMAGES : k == 2 ? CUT : DIGIT;
        asked[k].room = LONG - (k == 1);
    }
    asked[2].text.len--;
    put_format(&asked[3].text, "2049");
}

/* ---- The program `cases` and the tool's reader ---- */

/* Does the same for the lines of each note, and then for those of the long text. */
static void each_note(void (*with)(const struct asked *, FILE *), FILE *file)
{
    for (uint64_t k = 0; k < runs.count; k++) {
        runs.draw = (int64_t)(runs.first + k);
        draw_lines(runs.first + k);
        for (unsigned line = 0; line < LINES; line++)
            with(&asked[line], file);
    }
    runs.draw = NO_DRAW;
    if (runs.first != 0)
        return;
    draw_long_lines();
    for (unsigned line = 0; line < LINES; line++)
        with(&asked[line], file);
}

static void put_call(char *to, const struct asked *a)
{
    to += sprintf(to, "note %s", a->text.len == 0 ? "-" : "");
    to = put_hex(to, a->text.at, a->text.len);
    sprintf(to, " %zu", a->room);
}

static void write_line(const struct asked *a, FILE *file)
{
    static char call[ANSWER_LINE];

    put_call(call, a);
    fprintf(file, "%s\n", call);
}

static void write_lines(FILE *file)
{
    each_note(write_line, file);
}

/* The tool has room for all that a job may have, and says where it refuses a text. */
static void try_tool(const struct bytes *text, const struct ref_noted *want)
{
    unsigned number = want->number == 0 && want->count > REF_REFERENCES ? 24 : want->number;
    static struct note note;
    struct refusal refusal = {0, ""};
    bool taken = read_note((const char *)text->at, text->len, &note, &refusal), same;

    run.met[BY_TOOL][number]++;
    same = taken == (number == 0) && (taken || refusal.number == number);
    same = same && (want->number == 0 || note.at == want->place);
    same = same && (!taken || note.references == want->count);
    for (size_t k = 0; same && taken && k < want->count; k++)
        same = note.reference[k] == want->reference[k];
    if (same)
        return;
    printf("DISAGREE: the tool reads a note otherwise\n");
    printf("  tool      %u, at %zu: %s\n", refusal.number, note.at, refusal.why);
    printf("  reference %u, at %zu\n", number, want->place);
    print_text("note", text->at, text->len);
    fail();
}

/* Counts what the line meets. */
static void count(const struct asked *a, const struct ref_noted *noted, unsigned long number)
{
    unsigned open = 0, most = 0;

    run.met[BY_CASES][number]++;
    if (a->damage < DAMAGES)
        run.damaged[a->damage] += number == 22;
    else
        run.rooms[a->kind]++;
    for (size_t k = 0; k < noted->place; k++) {
        open += a->text.at[k] == '(';
        open -= a->text.at[k] == ')';
        most = open > most ? open : most;
        run.bars += number == 0 && a->text.at[k] == '|';
    }
    run.deepest += number == 0 && most == REF_PARENTHESES;
    run.both += number == 22 && noted->place < a->text.len && a->text.at[noted->place] == '('
                && open == REF_PARENTHESES;
    run.full += number == 0 && noted->count == REF_REFERENCES;
    run.too_many += number == 24 && noted->count > REF_REFERENCES && a->room > REF_REFERENCES;
}

static const struct asked *tried;      /* whose answer is compared */

static void print_answers(const char *have, const char *want)
{
    print_words(have, want);
    print_text("note", tried->text.at, tried->text.len);
}

static void compare_line(const struct asked *a, FILE *file)
{
    static char call[ANSWER_LINE];
    static struct ref_noted noted;

    put_call(call, a);
    tried = a;
    ref_read_note(a->text.at, a->text.len, REF_PARENTHESES, &noted);
    count(a, &noted, strtoul(same_answer(file, call, print_answers), NULL, 10));
    try_tool(&a->text, &noted);
}

static void compare_lines(FILE *file)
{
    each_note(compare_line, file);
}

/* ---- The program `passes` ---- */

enum { MOST_OUTPUT = 4 * REF_REFERENCES + 1 };         /* three digits, and a space or a line feed */

/* What it should print: "one line feed at its end is not part of it". Gives the length. */
static size_t want_output(const uint8_t *input, size_t len, char *text)
{
    static uint16_t reference[REF_REFERENCES];
    size_t count, n = 0;
    unsigned number;

    len -= len > 0 && input[len - 1] == '\n';
    number = ref_note(input, len, reference, REF_REFERENCES, &count);
    run.met[BY_PASSES][number]++;
    if (number != 0)
        return (size_t)sprintf(text, "refused %u\n", number);
    for (size_t k = 0; k < count; k++)
        n += (size_t)sprintf(text + n, "%u%s", reference[k], k + 1 < count ? " " : "\n");
    return n;
}

static void try_passes(const uint8_t *input, size_t len)
{
    static char want[MOST_OUTPUT + 1];
    static uint8_t have[MOST_OUTPUT + 100];
    const char *const command[] = {runs.program, NULL};
    size_t m = want_output(input, len, want), at = 0;
    size_t n = output_of(command, "passes", input, len, have, sizeof have);

    if (n == m && memcmp(have, want, n) == 0)
        return;
    while (at < n && at < m && have[at] == (uint8_t)want[at])
        at++;
    printf("DISAGREE: passes prints %zu bytes, the reference has %zu; byte %zu differs\n", n, m, at);
    print_text("passes", have + at, n - at);
    print_text("reference", (const uint8_t *)want + at, m - at);
    print_text("input", input, len);
    fail();
}

/* A text with so many line feeds after it. */
static void try_with(const uint8_t *text, size_t len, unsigned line_feeds)
{
    static uint8_t input[MOST_INPUT + LONGER + 2];

    memcpy(input, text, len);
    memset(input + len, '\n', line_feeds);
    try_passes(input, len + line_feeds);
}

/* A text, and then so many of a byte. */
static void try_longer(const char *text, uint8_t byte, size_t more)
{
    static uint8_t input[100 + MOST_INPUT + LONGER];

    memcpy(input, text, strlen(text));
    memset(input + strlen(text), byte, more);
    try_passes(input, strlen(text) + more);
}

/* The same text again and again, with a sign between, so many times. */
static size_t repeated(uint8_t *to, const char *text, const char *between_them, unsigned times)
{
    size_t n = 0;

    for (unsigned k = 0; k < times; k++)
        n += (size_t)sprintf((char *)to + n, "%s%s", k == 0 ? "" : between_them, text);
    return n;
}

/* The longest text of 2,048 references, 147,453 characters; and a space, and an item, more. */
static void try_longest(void)
{
    static uint8_t text[MOST_INPUT];
    static struct bytes item;
    size_t n;

    item.len = 0;
    put_longest_item(&item, 511);
    n = repeated(text, (const char *)item.at, " | ", REF_REFERENCES);
    if (n != 147453)
        exit(2);
    try_with(text, n, 0);
    try_with(text, n, 1);
    try_with(text, n, 2);
    memcpy(text + n, " 1", 2);
    try_with(text, n + 1, 1);
    try_with(text, n + 2, 1);
}

/* All that it reads, and more. */
static void try_long(void)
{
    static uint8_t text[MOST_INPUT + 1];

    try_with(text, repeated(text, "1", " ", MOST_INPUT / 2), 1);
    text[MOST_INPUT - 2] = 'x';
    try_with(text, MOST_INPUT - 1, 1);
    text[repeated(text, "1", " ", MOST_INPUT / 2)] = 'x';
    try_with(text, MOST_INPUT, 0);
    try_with(text, repeated(text, "1", " | ", MOST_INPUT / 4), 1);
    try_with(text, repeated(text, "(1 | 2*2048 | 3)*2048", " ", MOST_INPUT / 22), 1);
    try_longer("x", ' ', MOST_INPUT + LONGER);
    try_longer("1 ", ' ', MOST_INPUT + LONGER);
    try_longer("1 2*3 | 4*", '0', MOST_INPUT + LONGER);
    try_longer("1 2*3 | ", '(', MOST_INPUT + LONGER);
    try_longer("1*2048 1*2048 1", '1', MOST_INPUT + LONGER);
    try_longer("1\n", '\n', MOST_INPUT + LONGER);
}

static void try_program(void)
{
    for (uint64_t k = 0; k < runs.count && runs.first + k < PROGRAM_NOTES; k++) {
        runs.draw = (int64_t)(runs.first + k);
        draw_lines(runs.first + k);
        try_with(asked[0].text.at, asked[0].text.len, (unsigned)(runs.first + k) % 2);
        try_with(asked[2].text.at, asked[2].text.len, 1);
        try_with(asked[3].text.at, asked[3].text.len, (unsigned)(runs.first + k) % 3);
    }
    runs.draw = NO_DRAW;
    if (runs.first != 0)
        return;
    for (unsigned k = 0; k < 3; k++)
        try_with((const uint8_t *)"", 0, k);
    try_longest();
    try_long();
}

/* ---- All of it ---- */

/* Prints what was met; false if something was not. */
static bool all_met(void)
{
    static const unsigned numbers[] = {0, 22, 23, 24};
    bool all = run.deepest > 0 && run.bars > 0 && run.full > 0 && run.too_many > 0 && run.both > 0;

    for (unsigned by = 0; by < READERS; by++) {
        printf("  %s:", reader_name[by]);
        for (unsigned k = 0; k < 4; k++) {
            printf(" %u:%lu", numbers[k], run.met[by][numbers[k]]);
            all = all && run.met[by][numbers[k]] > 0;
        }
        printf("\n");
    }
    printf("  rooms:");
    for (unsigned k = 0; k < ROOMS; k++) {
        printf("%s %s %lu", k == 0 ? "" : ",", room_name[k], run.rooms[k]);
        all = all && run.rooms[k] > 0;
    }
    printf("\n  damage that gives 22:");
    for (unsigned k = 0; k < DAMAGES; k++) {
        printf("%s %s %lu", k == 0 ? "" : ",", damage_name[k], run.damaged[k]);
        all = all && run.damaged[k] > 0;
    }
    printf("\n  notes with sixteen parentheses open %lu, bars %lu, 2048 references %lu\n",
           run.deepest, run.bars, run.full);
    printf("  24 though the room is ample %lu, 22 where 23 falls on the same character %lu\n",
           run.too_many, run.both);
    return all;
}

int main(int argc, char **argv)
{
    begin_running("notes", argc, argv);
    try_lines(write_lines, compare_lines);
    try_program();
    return end_running("notes", all_met, "a number, a room, a kind of damage or a limit");
}
