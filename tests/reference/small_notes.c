/* small_notes.c - every short text over a few characters, against the reader of notes.
 *
 * usage: small_notes
 * All notes of up to so many characters are built from their parts, and so are all texts that begin
 * a note, however it goes on; nothing of note.c is used for that. Then every text goes through the
 * reader, also with fewer parentheses allowed. Exit 0 only if it takes exactly the texts of the
 * notes, no two of which are written alike, each with its references; refuses every other at the
 * first character with which it no longer begins a note, at the end, or at the parenthesis that is
 * one too many, whichever comes first; and each of these was met. */
#include "reference.h"

#include <stdbool.h>
#include <stdio.h>
#include <stdlib.h>
#include <string.h>

enum { LONGEST = 11, DIGITS = 4, NOWHERE = LONGEST + 2 };
enum { BYTES_AFTER = 4 };      /* all other bytes are tried after texts of up to so many characters */
enum { ENTRY = 0xa5a5 };       /* a lent entry */

/* All texts of up to `all` characters over the alphabet, and those of up to `longest` characters of
 * which all but the last begin a note. */
struct search {
    const char *alphabet;
    unsigned all, longest;
};

static const struct search searches[] = {
    {"12()| ", 6, LONGEST},    /* three sides, and sides of unequal length */
    {"0248* ", 6, 8},          /* counts of 2048 and 2080, 2048 references and one more */
    {"0125()*| ", 5, 8}        /* blocks of 511 and 512, and all else */
};

static const unsigned allowed[] = {REF_PARENTHESES, 2, 1, 0};      /* parentheses open at once */

enum { SEARCHES = sizeof searches / sizeof searches[0] };
enum { ALLOWED = sizeof allowed / sizeof allowed[0] };

static const struct search *now;

/* ---- Texts as numbers ---- */

/* A text's characters, by their places in the alphabet, are the digits of its number. The length is
 * known beside it. */
typedef uint64_t text_number;

static text_number joined(text_number left, text_number right, unsigned right_length)
{
    for (unsigned k = 0; k < right_length; k++)
        left *= strlen(now->alphabet);
    return left + right;
}

/* False if a character is not in the alphabet. */
static bool number_of(const char *text, unsigned length, text_number *number)
{
    *number = 0;
    for (unsigned k = 0; k < length; k++) {
        const char *at = strchr(now->alphabet, text[k]);

        if (at == NULL)
            return false;
        *number = joined(*number, (text_number)(at - now->alphabet), 1);
    }
    return true;
}

/* Texts of one length, in a list that grows. */
struct texts {
    unsigned count, room;
    struct {
        text_number text;
        unsigned of;           /* a value, or a note's place */
    } *at;
};

static void put(struct texts *t, text_number text, unsigned of)
{
    if (t->count == t->room) {
        t->room = 2 * t->room + 64;
        t->at = realloc(t->at, t->room * sizeof t->at[0]);
        if (t->at == NULL)
            exit(2);
    }
    t->at[t->count].text = text;
    t->at[t->count++].of = of;
}

static bool has(const struct texts *t, text_number text)
{
    for (unsigned k = 0; k < t->count; k++)
        if (t->at[k].text == text)
            return true;
    return false;
}

/* ---- Decimal numbers ---- */

/* The numbers of a range, by their lengths, and all that begins one of them. */
struct numbers {
    struct texts whole[DIGITS + 1], begun[DIGITS + 1];
};

static struct numbers blocks, counts;

static void list_numbers(struct numbers *n, unsigned least, unsigned most)
{
    char text[12];
    text_number number;

    memset(n, 0, sizeof *n);
    for (unsigned value = least; value <= most; value++) {
        unsigned length = (unsigned)sprintf(text, "%u", value);

        if (number_of(text, length, &number))
            put(&n->whole[length], number, value);
        for (unsigned k = 0; k <= length; k++)
            if (number_of(text, k, &number) && !has(&n->begun[k], number))
                put(&n->begun[k], number, 0);
    }
}

/* ---- Notes built from their parts ---- */

enum kind { BLOCK, INSIDE, REPEATED, IN_ORDER, MIXED };

struct note {
    enum kind kind;
    unsigned value;            /* the block, or the count */
    unsigned left, right;      /* what it is made of: places among all notes */
};

/* What stands in a list of a length: parts first, then the other items, the other sides, the other
 * notes. So each level is the list up to its own end. */
enum level { PART, ITEM, SIDE, NOTE, LEVELS };

static struct {
    struct note *note;
    unsigned count, room;
    struct texts whole[LONGEST + 1], begun[LONGEST + 1];
    unsigned whole_end[LONGEST + 1][LEVELS], begun_end[LONGEST + 1][LEVELS];
} all;

static unsigned new_note(struct note note)
{
    if (all.count == all.room) {
        all.room = 2 * all.room + 64;
        all.note = realloc(all.note, all.room * sizeof all.note[0]);
        if (all.note == NULL)
            exit(2);
    }
    all.note[all.count] = note;
    return all.count++;
}

/* Puts a text of so many characters, made of what stands at these places; the last may be a count. */
typedef void putting(unsigned length, text_number text, unsigned left, unsigned right);

/* Puts "(", each text of a length up to an end, and what closes it, unless a sign is not in the
 * alphabet. */
static void put_inside(unsigned length, const struct texts *inner, unsigned end, const char *close,
                       putting *with)
{
    text_number first, last;
    unsigned signs = (unsigned)strlen(close);

    if (!number_of("(", 1, &first) || !number_of(close, signs, &last))
        return;
    for (unsigned k = 0; k < end; k++)
        with(1 + length + signs, joined(joined(first, inner->at[k].text, length), last, signs),
             inner->at[k].of, 0);
}

/* Puts each text of a length and a level, then this sign, then each of another list up to its end. */
static void put_pairs(unsigned length, enum level level, const char *between,
                      const struct texts *right, unsigned right_end, unsigned right_length,
                      putting *with)
{
    const struct texts *left = &all.whole[length];
    unsigned signs = (unsigned)strlen(between);
    text_number middle;

    if (!number_of(between, signs, &middle))
        return;
    for (unsigned l = 0; l < all.whole_end[length][level]; l++)
        for (unsigned r = 0; r < right_end; r++)
            with(length + signs + right_length,
                 joined(joined(left->at[l].text, middle, signs), right->at[r].text, right_length),
                 left->at[l].of, right->at[r].of);
}

static void put_note_inside(unsigned length, text_number text, unsigned inner, unsigned none)
{
    put(&all.whole[length], text, new_note((struct note){INSIDE, none, inner, 0}));
}

static void put_repeated(unsigned length, text_number text, unsigned left, unsigned count)
{
    put(&all.whole[length], text, new_note((struct note){REPEATED, count, left, 0}));
}

static void put_in_order(unsigned length, text_number text, unsigned left, unsigned right)
{
    put(&all.whole[length], text, new_note((struct note){IN_ORDER, 0, left, right}));
}

static void put_mixed(unsigned length, text_number text, unsigned left, unsigned right)
{
    put(&all.whole[length], text, new_note((struct note){MIXED, 0, left, right}));
}

static void put_begun(unsigned length, text_number text, unsigned left, unsigned right)
{
    (void)left;
    (void)right;
    put(&all.begun[length], text, 0);
}

/* The notes of n characters, from shorter ones. */
static void build_notes(unsigned n)
{
    struct texts *to = &all.whole[n];

    for (unsigned k = 0; n <= DIGITS && k < blocks.whole[n].count; k++)
        put(to, blocks.whole[n].at[k].text,
            new_note((struct note){BLOCK, blocks.whole[n].at[k].of, 0, 0}));
    if (n > 2)
        put_inside(n - 2, &all.whole[n - 2], all.whole_end[n - 2][NOTE], ")", put_note_inside);
    all.whole_end[n][PART] = to->count;
    for (unsigned k = 1; k <= DIGITS && k + 1 < n; k++)
        put_pairs(n - 1 - k, PART, "*", &counts.whole[k], counts.whole[k].count, k, put_repeated);
    all.whole_end[n][ITEM] = to->count;
    for (unsigned k = 1; k + 1 < n; k++)
        put_pairs(n - 1 - k, SIDE, " ", &all.whole[k], all.whole_end[k][ITEM], k, put_in_order);
    all.whole_end[n][SIDE] = to->count;
    for (unsigned k = 1; k + 3 < n; k++)
        put_pairs(n - 3 - k, NOTE, " | ", &all.whole[k], all.whole_end[k][SIDE], k, put_mixed);
    all.whole_end[n][NOTE] = to->count;
}

/* The texts of n characters that begin a note: all that may come after them is left open. */
static void build_begun(unsigned n)
{
    struct texts *to = &all.begun[n];

    for (unsigned k = 0; n <= DIGITS && k < blocks.begun[n].count; k++)
        put(to, blocks.begun[n].at[k].text, 0);
    if (n > 0)
        put_inside(n - 1, &all.begun[n - 1], all.begun_end[n - 1][NOTE], "", put_begun);
    if (n > 2)
        put_inside(n - 2, &all.whole[n - 2], all.whole_end[n - 2][NOTE], ")", put_begun);
    all.begun_end[n][PART] = to->count;
    for (unsigned k = 0; k <= DIGITS && k + 1 < n; k++)
        put_pairs(n - 1 - k, PART, "*", &counts.begun[k], counts.begun[k].count, k, put_begun);
    all.begun_end[n][ITEM] = to->count;
    for (unsigned k = 0; k + 1 < n; k++)
        put_pairs(n - 1 - k, SIDE, " ", &all.begun[k], all.begun_end[k][ITEM], k, put_begun);
    all.begun_end[n][SIDE] = to->count;
    if (n > 1)
        put_pairs(n - 1, NOTE, " ", &all.begun[0], 1, 0, put_begun);
    if (n > 2)
        put_pairs(n - 2, NOTE, " |", &all.begun[0], 1, 0, put_begun);
    for (unsigned k = 0; k + 3 < n; k++)
        put_pairs(n - 3 - k, NOTE, " | ", &all.begun[k], all.begun_end[k][SIDE], k, put_begun);
    all.begun_end[n][NOTE] = to->count;
}

/* ---- What a note means ---- */

static uint64_t size(unsigned x)
{
    const struct note *note = &all.note[x];

    switch (note->kind) {
    case BLOCK:    return 1;
    case INSIDE:   return size(note->left);
    case REPEATED: return note->value * size(note->left);
    default:       return size(note->left) + size(note->right);
    }
}

/* The reference at place k, from 0. */
static unsigned reference(unsigned x, uint64_t k)
{
    const struct note *note = &all.note[x];
    uint64_t left, right, both;

    if (note->kind == BLOCK)
        return note->value;
    left = size(note->left);
    if (note->kind == INSIDE || note->kind == REPEATED)
        return reference(note->left, k % left);
    if (note->kind == IN_ORDER)
        return k < left ? reference(note->left, k) : reference(note->right, k - left);
    right = size(note->right);
    both = left < right ? left : right;
    if (k < 2 * both)
        return reference(k % 2 == 0 ? note->left : note->right, k / 2);
    return reference(left > right ? note->left : note->right, k - both);
}

/* ---- The texts ---- */

enum met {
    TAKEN, INNER, AT_END, ON_ONE, DEEP, TOO_MANY, THREE_SIDES, LEFT_LONGER, RIGHT_LONGER, KINDS
};

static const char *const met_name[KINDS] = {
    "taken", "22 at a character", "22 at the end", "22 where 23 falls on the same character", "23",
    "24", "notes of three sides", "left sides longer", "right sides longer"
};

static unsigned long met[KINDS], tried, notes, beginnings;
static unsigned next_whole[LONGEST + 1], next_begun[LONGEST + 1];      /* in the lists, sorted */

static void fail(const char *what, const char *text, unsigned length)
{
    printf("%s: \"", what);
    for (unsigned k = 0; k < length; k++)
        printf(text[k] >= ' ' && text[k] <= '~' ? "%c" : "\\x%02x", (unsigned char)text[k]);
    printf("\"\n");
    exit(1);
}

/* Where the parenthesis opens that is one too many, if the text were a note. */
static unsigned too_deep(const char *text, unsigned length, unsigned most)
{
    unsigned open = 0;

    for (unsigned k = 0; k < length; k++) {
        if (text[k] == '(' && open++ == most)
            return k;
        if (text[k] == ')')
            open--;
    }
    return NOWHERE;
}

/* The references of a note, with just the room that it needs and with one entry less. */
static void try_meaning(const char *text, unsigned length, unsigned x)
{
    static uint16_t lent[REF_REFERENCES + 1];
    uint64_t want = size(x), looked_at = want < REF_REFERENCES ? want + 1 : REF_REFERENCES + 1;
    size_t count;

    for (unsigned k = 0; k < looked_at; k++)
        lent[k] = ENTRY;
    if (ref_note((const uint8_t *)text, length, lent, want - 1, &count) != 24 || count != 0)
        fail("NOT REFUSED WITH 24", text, length);
    for (unsigned k = 0; k < looked_at; k++)
        if (lent[k] != ENTRY)
            fail("WRITTEN THOUGH REFUSED", text, length);
    if (want > REF_REFERENCES) {
        if (ref_note((const uint8_t *)text, length, lent, want, &count) != 24)
            fail("NOT REFUSED WITH 24", text, length);
        met[TOO_MANY]++;
        return;
    }
    if (ref_note((const uint8_t *)text, length, lent, want, &count) != 0 || count != want)
        fail("ANOTHER COUNT", text, length);
    for (unsigned k = 0; k < want; k++)
        if (lent[k] != reference(x, k))
            fail("ANOTHER REFERENCE", text, length);
    if (lent[want] != ENTRY)
        fail("WRITTEN PAST THE COUNT", text, length);
}

static void count_sides(unsigned x)
{
    const struct note *note = &all.note[x];

    if (note->kind != MIXED)
        return;
    met[THREE_SIDES] += all.note[note->left].kind == MIXED;
    met[LEFT_LONGER] += size(note->left) > size(note->right);
    met[RIGHT_LONGER] += size(note->left) < size(note->right);
}

/* A text that is a note, or refused with 22 at the place, NOWHERE for a note; with each number of
 * parentheses allowed, if there are any. */
static void try_text(const char *text, unsigned length, unsigned place)
{
    static struct ref_noted noted;
    unsigned ways = strchr(now->alphabet, '(') != NULL ? ALLOWED : 1;

    for (unsigned k = 0; k < ways; k++) {
        unsigned deep = too_deep(text, length, allowed[k]);
        unsigned number = deep < place ? 23 : place != NOWHERE ? 22 : 0;

        ref_read_note((const uint8_t *)text, length, allowed[k], &noted);
        if (noted.number != number)
            fail("ANOTHER NUMBER", text, length);
        if (number != 0 && noted.place != (deep < place ? deep : place))
            fail("AT ANOTHER PLACE", text, length);
        met[number == 0 ? TAKEN : number == 23 ? DEEP : place == length ? AT_END : INNER]++;
        met[ON_ONE] += deep == place && number != 0;
        tried++;
    }
}

/* All bytes that are no characters of notes, after a text that begins one. */
static void try_bytes(char *text, unsigned length)
{
    for (unsigned byte = 0; byte < 256; byte++) {
        if (byte != 0 && strchr("0123456789()*| ", (int)byte) != NULL)
            continue;
        text[length] = (char)byte;
        try_text(text, length + 1, length);
    }
}

/* Every text that goes on from here, in the order of its number; `place` is where it ceased to begin
 * a note, or NOWHERE. */
static void each_text(char *text, unsigned length, text_number number, unsigned place)
{
    const struct texts *whole = &all.whole[length];
    unsigned at = next_whole[length];

    if (at < whole->count && whole->at[at].text == number) {
        next_whole[length]++;
        if (place != NOWHERE)
            fail("A NOTE THAT IS NOT BEGUN", text, length);
        try_text(text, length, NOWHERE);
        try_meaning(text, length, whole->at[at].of);
        count_sides(whole->at[at].of);
    } else {
        try_text(text, length, place != NOWHERE ? place : length);
    }
    if (place == NOWHERE && length <= BYTES_AFTER)
        try_bytes(text, length);
    if (length == now->longest || (place != NOWHERE && length >= now->all))
        return;
    for (unsigned k = 0; now->alphabet[k] != '\0'; k++) {
        text_number longer = joined(number, k, 1);
        const struct texts *begun = &all.begun[length + 1];
        unsigned b = next_begun[length + 1];
        bool begins = b < begun->count && begun->at[b].text == longer;

        text[length] = now->alphabet[k];
        next_begun[length + 1] += begins;
        each_text(text, length + 1, longer, place != NOWHERE ? place : begins ? NOWHERE : length);
    }
}

/* ---- All of it ---- */

static int by_text(const void *one, const void *other)
{
    text_number a = *(const text_number *)one, b = *(const text_number *)other;

    return (a > b) - (a < b);
}

static void sort(struct texts *t)
{
    if (t->count > 0)
        qsort(t->at, t->count, sizeof t->at[0], by_text);
}

/* A text may begin a note in two ways: it stands once. */
static void leave_out_doubles(struct texts *t)
{
    unsigned kept = 0;

    for (unsigned k = 0; k < t->count; k++)
        if (k == 0 || t->at[k].text != t->at[kept - 1].text)
            t->at[kept++] = t->at[k];
    t->count = kept;
}

static void search(const struct search *s)
{
    char text[LONGEST + 2];

    now = s;
    memset(&all, 0, sizeof all);
    memset(next_whole, 0, sizeof next_whole);
    memset(next_begun, 0, sizeof next_begun);
    list_numbers(&blocks, 0, REF_BLOCKS - 1);
    list_numbers(&counts, 1, REF_REFERENCES);
    for (unsigned n = 0; n <= s->longest; n++) {
        build_notes(n);
        build_begun(n);
    }
    for (unsigned n = 0; n <= s->longest; n++) {
        sort(&all.whole[n]);
        sort(&all.begun[n]);
        leave_out_doubles(&all.begun[n]);
        for (unsigned k = 1; k < all.whole[n].count; k++)
            if (all.whole[n].at[k].text == all.whole[n].at[k - 1].text)
                fail("TWO NOTES ARE WRITTEN ALIKE", "", 0);
    }
    next_begun[0]++;
    each_text(text, 0, 0, NOWHERE);
    for (unsigned n = 0; n <= s->longest; n++) {
        notes += all.whole[n].count;
        beginnings += all.begun[n].count;
        if (next_whole[n] != all.whole[n].count || next_begun[n] != all.begun[n].count)
            fail("A NOTE WAS NOT TRIED", "", 0);
    }
}

int main(void)
{
    bool each = true;

    for (unsigned k = 0; k < SEARCHES; k++)
        search(&searches[k]);
    printf("%lu notes built, no two written alike, and %lu beginnings; %lu readings are right:\n ",
           notes, beginnings, tried);
    for (unsigned k = 0; k < KINDS; k++) {
        printf("%s %s %lu", k == 0 ? "" : k == THREE_SIDES ? "\n " : ",", met_name[k], met[k]);
        each = each && met[k] > 0;
    }
    printf("\n");
    if (!each)
        printf("FAIL: something was never met\n");
    return each ? 0 : 1;
}
