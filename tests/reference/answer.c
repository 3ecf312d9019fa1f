/* answer.c - the reference's answer to the call of a vector, as text. */
#include "answer.h"
#include "reference.h"

#include <stdio.h>
#include <stdlib.h>
#include <string.h>

enum { FILL = 0xa5, GUARD = 8 };
enum { ENTRY = 0xa5a5, MOST_ROOM = 4096 };     /* of a note: an entry, and the most that are lent */

struct bytes {
    uint8_t *at;
    size_t len;
};

static unsigned digit(char c)
{
    const char *digits = "0123456789abcdef", *at = strchr(digits, c);

    if (c == '\0' || at == NULL)
        exit(2);
    return (unsigned)(at - digits);
}

/* "Byte strings are hexadecimal, - the empty one." */
static struct bytes from_hex(const char *text)
{
    size_t len = strcmp(text, "-") == 0 ? 0 : strlen(text) / 2;
    struct bytes b = {malloc(len + 1), len};

    if (b.at == NULL)
        exit(2);
    for (size_t k = 0; k < len; k++)
        b.at[k] = (uint8_t)(digit(text[2 * k]) << 4 | digit(text[2 * k + 1]));
    return b;
}

char *put_hex(char *to, const uint8_t *bytes, size_t len)
{
    const char *digits = "0123456789abcdef";

    for (size_t k = 0; k < len; k++) {
        *to++ = digits[bytes[k] >> 4];
        *to++ = digits[bytes[k] & 15];
    }
    *to = '\0';
    return to;
}

/* A buffer, lent and filled. */
struct lent {
    uint8_t *at;
    size_t room;
};

/* Room bytes and a guard after them. */
static struct lent lend(size_t room)
{
    struct lent s = {malloc(room + GUARD), room};

    if (s.at == NULL)
        exit(2);
    memset(s.at, FILL, room + GUARD);
    return s;
}

/* 1 if a byte from start on is no longer the fill. */
static int touched(const uint8_t *buffer, size_t start, size_t room)
{
    for (size_t k = start; k < room; k++)
        if (buffer[k] != FILL)
            return 1;
    return 0;
}

/* Takes a buffer back; says if a byte past the length written, or of the guard, changed. */
static char *take_back(char *to, struct lent s, size_t written)
{
    if (touched(s.at, written, s.room + GUARD))
        to += sprintf(to, " and bytes past %zu of a buffer of %zu changed", written, s.room);
    free(s.at);
    return to;
}

/* The numbers, each read back from the bytes that a call from C writes. A slice that is too short
 * for them gets the first of these bytes, and nothing past its end changes. */
static char *put_numbers(char *to, const uint16_t *numbers, size_t how_many)
{
    uint8_t bytes[2 * REF_PLANNED_NUMBERS], part[sizeof bytes];

    ref_fill_counts(numbers, how_many, bytes, 2 * how_many);
    for (size_t k = 0; k < how_many; k++)
        to += sprintf(to, "%s%u", k == 0 ? "" : " ", bytes[2 * k] << 8 | bytes[2 * k + 1]);
    for (size_t len = 0; len < 2 * how_many; len++) {
        memset(part, FILL, sizeof part);
        ref_fill_counts(numbers, how_many, part, len);
        if (memcmp(part, bytes, len) != 0 || touched(part, len, sizeof part))
            to += sprintf(to, " and other bytes in a slice of %zu", len);
    }
    return to;
}

/* All that planning gives. */
static char *put_planned(char *to, const struct ref_planned *p, const uint8_t *p_min,
                         const uint8_t *p_con)
{
    uint16_t numbers[REF_PLANNED_NUMBERS];

    ref_planned_numbers(p, numbers);
    to = put_numbers(to + sprintf(to, " "), numbers, 2);
    to = put_numbers(to + sprintf(to, " | "), numbers + 2, REF_CHECKED_NUMBERS);
    to = put_numbers(to + sprintf(to, " | "), numbers + 2 + REF_CHECKED_NUMBERS,
                     REF_CHECKED_NUMBERS);
    to = put_hex(to + sprintf(to, " | "), p_min, p->sheet_length[REF_P_MIN]);
    return put_hex(to + sprintf(to, " | "), p_con, p->sheet_length[REF_P_CON]);
}

/* A ticket and a stop; of a call for a note, its text and its room. */
struct part {
    struct bytes ticket;
    size_t stop;
};

static void answer_plan(struct part part, size_t ns, size_t np, char *to)
{
    struct lent p_min = lend(ns), p_con = lend(np);
    struct ref_planned p;
    unsigned number = ref_plan(part.ticket.at, part.ticket.len, part.stop, p_min.at, ns, p_con.at,
                               np, &p);

    to += sprintf(to, "%u", number);
    if (number == 0)
        to = put_planned(to, &p, p_min.at, p_con.at);
    to = take_back(to, p_min, p.sheet_length[REF_P_MIN]);
    take_back(to, p_con, p.sheet_length[REF_P_CON]);
}

static void answer_page(struct part part, size_t ns, size_t np, size_t ng, char *to)
{
    struct lent p_min = lend(ns), p_con = lend(np), page = lend(ng);
    struct ref_paged p;
    unsigned number = ref_page(part.ticket.at, part.ticket.len, part.stop, p_min.at, ns, p_con.at,
                               np, page.at, ng, &p);

    to += sprintf(to, "%u", number);
    if (number == 0) {
        to = put_planned(to, &p.planned, p_min.at, p_con.at);
        to = put_hex(to + sprintf(to, " | %zu ", p.length), page.at, p.length);
    }
    to = take_back(to, p_min, p.planned.sheet_length[REF_P_MIN]);
    to = take_back(to, p_con, p.planned.sheet_length[REF_P_CON]);
    take_back(to, page, p.length);
}

static void answer_check(struct part part, struct bytes sheet, char *to)
{
    uint16_t numbers[REF_CHECKED_NUMBERS];
    struct ref_counts counts;
    unsigned number = ref_check(part.ticket.at, part.ticket.len, part.stop, sheet.at, sheet.len,
                                &counts);

    to += sprintf(to, "%u", number);
    if (number == 0) {
        ref_checked_numbers(&counts, numbers);
        put_numbers(to + sprintf(to, " "), numbers, REF_CHECKED_NUMBERS);
    }
}

static void answer_choose(struct part part, struct bytes first, struct bytes second, char *to)
{
    uint16_t numbers[REF_CHOSEN_NUMBERS];
    struct ref_chosen chosen;
    unsigned number = ref_choose(part.ticket.at, part.ticket.len, part.stop, first.at, first.len,
                                 second.at, second.len, &chosen);

    to += sprintf(to, "%u", number);
    if (number == 0) {
        ref_chosen_numbers(&chosen, numbers);
        put_numbers(to + sprintf(to, " "), numbers, REF_CHOSEN_NUMBERS);
    }
}

static void answer_slots(struct part part, size_t disk, size_t wanted, size_t room, char *to)
{
    struct lent sheet = lend(room);
    struct ref_slotted slotted;
    unsigned number = ref_slots(part.ticket.at, part.ticket.len, part.stop, disk, wanted, sheet.at,
                                room, &slotted);

    to += sprintf(to, "%u", number);
    if (number == 0 && slotted.slots == 0)
        to += sprintf(to, " none");
    else if (number == 0)
        to = put_hex(to + sprintf(to, " %u %zu ", slotted.slots, slotted.length), sheet.at,
                     slotted.length);
    take_back(to, sheet, slotted.length);
}

/* Entries past the count, and those of the guard, must not change. */
static void answer_note(struct bytes text, size_t room, char *to)
{
    static uint16_t lent[MOST_ROOM + GUARD];
    size_t count;
    unsigned number;

    room = room < MOST_ROOM ? room : MOST_ROOM;
    for (size_t k = 0; k < MOST_ROOM + GUARD; k++)
        lent[k] = ENTRY;
    number = ref_note(text.at, text.len, lent, room, &count);
    to += sprintf(to, "%u", number);
    if (number == 0)
        to += sprintf(to, " %zu", count);
    for (size_t k = 0; k < count; k++)
        to += sprintf(to, " %u", lent[k]);
    for (size_t k = count; k < MOST_ROOM + GUARD; k++)
        if (lent[k] != ENTRY) {
            sprintf(to, " and entries past %zu of a slice of %zu changed", count, room);
            return;
        }
}

/* A stop, a disk, wanted rounds or a room: a decimal number of at most 64 bits. */
static size_t number_of(const char *word)
{
    char *end;
    unsigned long long number = strtoull(word, &end, 10);

    if (*end != '\0' || number > SIZE_MAX)
        exit(2);
    return (size_t)number;
}

/* Answers a call by its words, the first of which is its name. */
static bool answer_words(char **word, unsigned words, char *to)
{
    struct part part = {from_hex(word[1]), number_of(word[2])};
    struct bytes sheet, other;
    bool known = true;

    if (strcmp(word[0], "plan") == 0 && words == 5) {
        answer_plan(part, number_of(word[3]), number_of(word[4]), to);
    } else if (strcmp(word[0], "page") == 0 && words == 6) {
        answer_page(part, number_of(word[3]), number_of(word[4]), number_of(word[5]), to);
    } else if (strcmp(word[0], "check") == 0 && words == 4) {
        sheet = from_hex(word[3]);
        answer_check(part, sheet, to);
        free(sheet.at);
    } else if (strcmp(word[0], "choose") == 0 && words == 5) {
        sheet = from_hex(word[3]);
        other = from_hex(word[4]);
        answer_choose(part, sheet, other, to);
        free(sheet.at);
        free(other.at);
    } else if (strcmp(word[0], "slots") == 0 && words == 6) {
        answer_slots(part, number_of(word[3]), number_of(word[4]), number_of(word[5]), to);
    } else if (strcmp(word[0], "note") == 0 && words == 3) {
        answer_note(part.ticket, part.stop, to);
    } else {
        known = false;
    }
    free(part.ticket.at);
    return known;
}

bool answer(char *call, char *to)
{
    enum { MOST = 7 };         /* one more than any call has */
    unsigned words = 0;
    char *word[MOST];

    for (char *w = strtok(call, " "); w != NULL && words < MOST; w = strtok(NULL, " "))
        word[words++] = w;
    return words >= 3 && answer_words(word, words, to);
}
