/* note.c - a note of request L6, for the tool `ticket`.
 *
 * One pass over the text, with a list of the references so far and the notes that are open, one for
 * each parenthesis. The references of an open note are the last ones of the list. */
#include "note.h"

#include <stdarg.h>
#include <stdio.h>
#include <string.h>

enum { MAX_OPEN = 16, MAX_COUNT = 2048 };

struct open {
    unsigned start;            /* where the note's references begin */
    unsigned side;             /* where those of the side begin that is being read */
};

struct reading {
    const char *text;
    size_t length;
    struct note *note;         /* its `at` is the character not taken yet */
    struct refusal *refusal;
    struct open open[1 + MAX_OPEN];    /* the whole note, and one for each parenthesis */
    unsigned depth;            /* parentheses open */
    unsigned part;             /* where the references of the last block or parenthesis begin */
    bool too_many;             /* references: the list is then left as it is */
};

/* ---- References ---- */

static void add(struct reading *r, unsigned block)
{
    if (r->note->references == MAX_REFERENCES)
        r->too_many = true;
    else
        r->note->reference[r->note->references++] = block;
}

/* The last part once more for each count above 1. */
static void repeat(struct reading *r, unsigned count)
{
    unsigned more = (r->note->references - r->part) * (count - 1);

    for (unsigned k = 0; k < more && !r->too_many; k++)
        add(r, r->note->reference[r->part + k]);
}

/* The references of the side that ends, in turn with those of the sides before it. */
static void end_side(struct reading *r)
{
    struct open *open = &r->open[r->depth];
    unsigned *all = r->note->reference, mixed[MAX_REFERENCES];
    unsigned left = open->side - open->start, right = r->note->references - open->side;
    unsigned pairs = left < right ? left : right;

    if (r->too_many)
        return;
    for (unsigned k = 0; k < pairs; k++) {
        mixed[2 * k] = all[open->start + k];
        mixed[2 * k + 1] = all[open->side + k];
    }
    memcpy(mixed + 2 * pairs, all + open->start + pairs, (left - pairs) * sizeof all[0]);
    memcpy(mixed + pairs + left, all + open->side + pairs, (right - pairs) * sizeof all[0]);
    memcpy(all + open->start, mixed, (left + right) * sizeof all[0]);
    open->side = r->note->references;
}

/* ---- Characters ---- */

static bool next_is(const struct reading *r, char c)
{
    return r->note->at < r->length && r->text[r->note->at] == c;
}

static bool digit_next(const struct reading *r)
{
    return r->note->at < r->length && r->text[r->note->at] >= '0' && r->text[r->note->at] <= '9';
}

/* Refuses the text at its next character, or at its end; false, for the caller to give back. */
static bool refuse_here(const struct reading *r, unsigned number, const char *why, ...)
{
    char reason[80];
    va_list args;

    va_start(args, why);
    vsnprintf(reason, sizeof reason, why, args);
    va_end(args);
    if (r->note->at == r->length)
        return refuse(r->refusal, number, "%s, at the end of the note", reason);
    return refuse(r->refusal, number, "%s, at character %zu of the note", reason, r->note->at + 1);
}

/* Refuses the text where something else is due: what that is, is said. */
static bool due(const struct reading *r, const char *what)
{
    char c = r->note->at < r->length ? r->text[r->note->at] : ' ';

    if (r->note->at == r->length)
        return refuse_here(r, 22, "%s", what);
    return refuse_here(r, 22, "%s, not '%c'", what, c < ' ' || c > '~' ? '?' : c);
}

/* Takes the digits of a number; the first one is next. */
static bool take_number(struct reading *r, const char *what, unsigned least, unsigned most,
                        unsigned *value)
{
    size_t start = r->note->at;

    for (*value = 0; digit_next(r); r->note->at++) {
        unsigned longer = 10 * *value + (unsigned)(r->text[r->note->at] - '0');

        if (r->note->at > start && *value == 0)
            return refuse_here(r, 22, "%s has no zeros in front", what);
        if (longer < least || longer > most)
            return refuse_here(r, 22, "%s is %u to %u, not %u", what, least, most, longer);
        *value = longer;
    }
    return true;
}

/* ---- Notes ---- */

static const char item_due[] = "a block or '(' is due";

/* All parentheses that open here, and the block after them; what is due is for the refusal. */
static bool take_block(struct reading *r, const char *what)
{
    unsigned block;

    for (; next_is(r, '('); r->note->at++, what = item_due) {
        if (r->depth == MAX_OPEN)
            return refuse_here(r, 23, "more than %d parentheses are open", MAX_OPEN);
        r->open[++r->depth] = (struct open){r->note->references, r->note->references};
    }
    if (!digit_next(r))
        return due(r, what);
    if (!take_number(r, "a block", 0, MAX_BLOCKS - 1, &block))
        return false;
    r->part = r->note->references;
    add(r, block);
    return true;
}

/* The count of the last part, if there is one. */
static bool take_count(struct reading *r)
{
    unsigned count;

    if (!next_is(r, '*'))
        return true;
    r->note->at++;
    if (!digit_next(r))
        return due(r, "a count is due");
    if (!take_number(r, "a count", 1, MAX_COUNT, &count))
        return false;
    repeat(r, count);
    if (next_is(r, '*'))
        return refuse_here(r, 22, "an item has one count");
    return true;
}

/* All parentheses that close after a part, each with its count. */
static bool take_closing(struct reading *r)
{
    while (next_is(r, ')') && r->depth > 0) {
        end_side(r);
        r->part = r->open[r->depth--].start;
        r->note->at++;
        if (!take_count(r))
            return false;
    }
    return true;
}

/* The text has ended after an item. */
static bool end_note(struct reading *r)
{
    if (r->depth > 0)
        return due(r, "a ')' is due");
    end_side(r);
    if (r->too_many)
        return refuse(r->refusal, 24, "the note has more than %d references", MAX_REFERENCES);
    return true;
}

bool read_note(const char *text, size_t length, struct note *note, struct refusal *refusal)
{
    struct reading r = {text, length, note, refusal, {{0, 0}}, 0, 0, false};
    const char *what = item_due;

    note->references = 0;
    note->at = 0;
    while (take_block(&r, what) && take_count(&r) && take_closing(&r)) {
        if (note->at == length)
            return end_note(&r);
        if (next_is(&r, ')'))
            return refuse_here(&r, 22, "no parenthesis is open");
        if (!next_is(&r, ' '))
            return due(&r, "a space is due after an item");
        note->at++;
        what = "a block, '(' or '|' is due";
        if (!next_is(&r, '|'))
            continue;
        end_side(&r);
        note->at++;
        if (!next_is(&r, ' '))
            return due(&r, "a space is due after '|'");
        note->at++;
        what = item_due;
    }
    return false;
}
