/* note.c - request L6, sentence by sentence; words between quotation marks are its own.
 *
 *   note:   side, or note " | " side
 *   side:   item, or side " " item
 *   item:   part, or part "*" count
 *   part:   block, or "(" note ")"
 * Every character that is taken can go on to a note: one that cannot is left, and met there. */
#include "reference.h"

#include <stdbool.h>
#include <string.h>

enum { END = -1 };             /* what stands after the last character */
enum { TOO_MANY = REF_REFERENCES + 1 };

/* ---- References ---- */

/* References in order. Where they are too many, that is all that is known: whatever is made of them
 * has no fewer. */
struct string {
    size_t count;              /* at most TOO_MANY */
    uint16_t reference[REF_REFERENCES];
};

/* "read in order" */
static void append(struct string *s, const struct string *more)
{
    if (s->count + more->count > REF_REFERENCES) {
        s->count = TOO_MANY;
        return;
    }
    memcpy(s->reference + s->count, more->reference, more->count * sizeof s->reference[0]);
    s->count += more->count;
}

static void repeat(struct string *s, unsigned times)
{
    struct string once = *s;

    for (unsigned k = 1; k < times && s->count < TOO_MANY; k++)
        append(s, &once);
}

/* "take one reference from the left and one from the right in turn, and when one side is used up,
 * the rest of the other" */
static void mix(struct string *left, const struct string *right)
{
    struct string mixed = {0, {0}};
    size_t l = 0, r = 0;

    if (left->count + right->count > REF_REFERENCES) {
        left->count = TOO_MANY;
        return;
    }
    while (l < left->count || r < right->count) {
        if (l < left->count)
            mixed.reference[mixed.count++] = left->reference[l++];
        if (r < right->count)
            mixed.reference[mixed.count++] = right->reference[r++];
    }
    *left = mixed;
}

/* ---- Characters ---- */

struct text {
    const uint8_t *at;
    size_t len, next;          /* the next character is not taken yet */
    unsigned open, most;       /* parentheses, and how many may be open */
    unsigned number;           /* of the refusal */
};

/* The next character, or one after it. */
static int character(const struct text *t, size_t after)
{
    return t->next + after < t->len ? t->at[t->next + after] : END;
}

/* Refuses the text at its next character; false, for the caller to give back. */
static bool refuse(struct text *t, unsigned number)
{
    t->number = number;
    return false;
}

/* The next character must be this one. */
static bool take(struct text *t, char c)
{
    if (character(t, 0) != c)
        return refuse(t, 22);
    t->next++;
    return true;
}

static bool is_digit(int c)
{
    return c >= '0' && c <= '9';
}

/* "Decimal numbers have no leading zeros, except 0 itself." */
static bool read_number(struct text *t, unsigned least, unsigned most, unsigned *value)
{
    bool first = true;

    *value = 0;
    if (!is_digit(character(t, 0)))
        return refuse(t, 22);
    while (is_digit(character(t, 0))) {
        unsigned longer = 10 * *value + (unsigned)(character(t, 0) - '0');

        if (longer < least || longer > most || (!first && *value == 0))
            return refuse(t, 22);
        *value = longer;
        first = false;
        t->next++;
    }
    return true;
}

/* ---- Notes ---- */

static bool read_note(struct text *t, struct string *out);

/* "a block number 0 to 511 or a note in parentheses"; "23, more than 16 parentheses open" */
static bool read_part(struct text *t, struct string *out)
{
    unsigned block;

    if (character(t, 0) == '(') {
        if (t->open == t->most)
            return refuse(t, 23);
        t->open++;
        t->next++;
        if (!read_note(t, out) || !take(t, ')'))
            return false;
        t->open--;
        return true;
    }
    if (!read_number(t, 0, REF_BLOCKS - 1, &block))
        return false;
    out->count = 1;
    out->reference[0] = (uint16_t)block;
    return true;
}

/* "and may be followed by `*` and a count 1 to 2048" */
static bool read_item(struct text *t, struct string *out)
{
    unsigned times;

    if (!read_part(t, out))
        return false;
    if (character(t, 0) != '*')
        return true;
    t->next++;
    if (!read_number(t, 1, REF_REFERENCES, &times))
        return false;
    repeat(out, times);
    return true;
}

/* "Items stand one space apart." The space before a `|` is left: it is none of a side. */
static bool read_side(struct text *t, struct string *out)
{
    struct string item;

    if (!read_item(t, out))
        return false;
    while (character(t, 0) == ' ' && character(t, 1) != '|') {
        t->next++;
        if (!read_item(t, &item))
            return false;
        append(out, &item);
    }
    return true;
}

/* "Loosest is ` | `, one space on each side"; "several group to the left" */
static bool read_note(struct text *t, struct string *out)
{
    struct string right;

    if (!read_side(t, out))
        return false;
    while (character(t, 0) == ' ') {
        if (!take(t, ' ') || !take(t, '|') || !take(t, ' ') || !read_side(t, &right))
            return false;
        mix(out, &right);
    }
    return true;
}

void ref_read_note(const uint8_t *text, size_t n, unsigned parentheses, struct ref_noted *out)
{
    struct text t = {text, n, 0, 0, parentheses, 0};
    struct string all;

    if (read_note(&t, &all) && t.next < n)
        refuse(&t, 22);
    out->number = t.number;
    out->place = t.next;
    out->count = t.number == 0 ? all.count : 0;
    if (out->count <= REF_REFERENCES)
        memcpy(out->reference, all.reference, out->count * sizeof all.reference[0]);
}

/* "then 24, more than 2048 references or than the lent buffer holds" */
unsigned ref_note(const uint8_t *text, size_t n, uint16_t *references, size_t room, size_t *count)
{
    struct ref_noted noted;

    *count = 0;
    ref_read_note(text, n, REF_PARENTHESES, &noted);
    if (noted.number != 0)
        return noted.number;
    if (noted.count > REF_REFERENCES || noted.count > room)
        return 24;
    memcpy(references, noted.reference, noted.count * sizeof references[0]);
    *count = noted.count;
    return 0;
}
