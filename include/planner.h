/* planner.h - plans for parallel disks that no schedule beats
 *
 * A job lists the blocks it will read, in order. Up to eight disks, each with a few buffer slots of its own, fetch them: in one round every disk
 * may fetch one block, discarding another exactly if its slots are full; then the job is read on until a block is missing. Blocks may be carried in
 * from the last job: they are in the buffers from the start, and before round 1 the job is read as far as they allow.
 *
 *   planner_plan    makes two plans of a job: the short one (P-MIN), which takes the fewest rounds, and the sparing one (P-CON), which takes the
 *                   fewest fetches on every disk; and says which one to run: the sparing one exactly when both take equally many rounds.
 *   planner_check   passes a sheet exactly if it is a valid schedule of the ticket up to the stop, whoever drew it up.
 *   planner_choose  checks two sheets for a ticket, whoever drew them up, and hands back the second if it takes no more rounds than the first,
 *                   otherwise the first.
 *   planner_why     gives the sentence for the number of a refusal. It is plain C, in this header, and not proved.
 *   planner_references
 *                   reads the number of references from a ticket, the stop for the whole job. It is plain C as well.
 *
 * A ticket is a job as bytes, a sheet a schedule as bytes. A stop is the number of references that count, from the first on: none at or past it is
 * read, and a block that is read only from there on is as one that is never read again. A stop that is the ticket's number of references is the whole
 * job; any value may be given, and one above that number is refused.
 *
 * A ticket is, without gaps and most significant bit first: the number of disks, 1 to 8, in 4 bits; the slots of each disk, 1 to 64, in 7; the
 * number of blocks, 1 to 512, in 10; the disk of each block in 3; the number of references, 0 to 2048, in 12; the block of each reference in 9; and
 * for each disk in order the number of blocks that it carries in, at most its slots, in 7, and then these blocks in 9 each, all of that disk and
 * each above the one before. A disk that carries in none has the number 0 there. Zero bits fill the last byte. A sheet is the number of rounds
 * written, in 12 bits, and for each round and each disk in order the bit 0, or 1, the fetched block in 9 bits, and 0, or 1 and the discarded block
 * in 9 bits.
 *
 * Every sheet for a ticket, planned, checked or chosen, starts from its carried blocks. A carried block is no fetch; it has its slot, as a fetched
 * one, until it is discarded.
 *
 * A sheet's rounds, for a ticket and a stop, are those that are charged: up to the round in which the last reference before the stop is read, 0 if
 * nothing had to be fetched. The rounds written, which the sheet's first 12 bits say, may be more, idle or not; its fetches are counted in
 * all of them, to the end. Of either plan all rounds are charged.
 *
 * No sheet that planner_check passes for a ticket and a stop takes fewer rounds than the short plan for them, or on any disk fewer fetches than the
 * sparing plan, whatever it does after its last read. This, the bound below, each result and every byte written are proved of the source; the
 * compiler is trusted.
 *
 * With D disks the sparing plan takes at most D times the rounds of the short plan, and with one disk equally many; the worst jobs known come near
 * that: with 2 disks 1,203 rounds where the short plan takes 603, with 8 disks 668 where it takes 87.
 *
 * Rules for planner_plan, planner_check and planner_choose:
 *   - Each slice is a pointer and a length in bytes, a ticket of planner_references too. A pointer may be null only with the length 0.
 *   - Slices that a call writes must not overlap each other or any other slice of the call. Slices that it only reads may be the same memory.
 *   - The calls keep nothing, allocate nothing, and may be made from several threads at once. A planning call takes some 119 KB of stack,
 *     a check or a choice some 13 KB, and a first call some 3 KB more in the dynamic linker (measured; docs/LOOK-BACK.md has the
 *     figures).
 *   - A call returns 0, or the number of its refusal (enum planner_number). A refused call changes no lent byte.
 */
#ifndef PLANNER_H
#define PLANNER_H

#include <stddef.h>
#include <stdint.h>

#ifdef __cplusplus
extern "C" {
#endif

/* Sizes in bytes. */
#define PLANNER_LONGEST_TICKET 3090   /* no accepted ticket is longer */
#define PLANNER_LONGEST_SHEET 40962   /* no sheet that passes is longer: a buffer of this size holds any plan */
#define PLANNER_PLAN_COUNTS 40        /* what planner_plan writes to `counts` */
#define PLANNER_CHECK_COUNTS 18       /* what planner_check writes to `counts` */
#define PLANNER_CHOOSE_COUNTS 4       /* what planner_choose writes to `counts` */

/* Why a call is refused; planner_why has the sentence for each. Fields are read in order, and the first condition that is met counts. */
enum planner_number {
    PLANNER_OK = 0,
    /* the ticket, in every call */
    PLANNER_TICKET_ENDS = 1,
    PLANNER_TICKET_DISKS = 2,
    PLANNER_TICKET_SLOTS = 3,
    PLANNER_TICKET_BLOCKS = 4,
    PLANNER_TICKET_BLOCK_DISK = 5,
    PLANNER_TICKET_REFERENCES = 6,
    PLANNER_TICKET_REFERENCE = 7,
    PLANNER_CARRIED_COUNT = 25,
    PLANNER_CARRIED_BLOCK = 26,
    PLANNER_TICKET_CLOSING = 8,
    /* the stop, in every call, after the ticket */
    PLANNER_STOP = 21,
    /* the sheet, in planner_check; either sheet, in planner_choose */
    PLANNER_SHEET_ENDS = 9,
    PLANNER_SHEET_ROUNDS = 10,
    PLANNER_SHEET_FETCHED = 11,
    PLANNER_SHEET_RESIDENT = 12,
    PLANNER_SHEET_FULL = 13,
    PLANNER_SHEET_DISCARDED = 14,
    PLANNER_SHEET_UNFINISHED = 15,
    PLANNER_SHEET_CLOSING = 16,
    PLANNER_SHEET_SLOT_EMPTY = 20,
    /* the rooms, in planner_plan */
    PLANNER_SHORT_ROOM = 17,
    PLANNER_SPARING_ROOM = 18,
    /* the page, in the planning call with a page. That call is for Rattle callers alone: no call of this header returns this number. */
    PLANNER_PAGE_ROOM = 19,
    /* the note, in the call that makes references of a note. It is for Rattle callers alone as well: no call of this header returns these numbers. */
    PLANNER_NOTE_MALFORMED = 22,
    PLANNER_NOTE_PARENTHESES = 23,
    PLANNER_NOTE_REFERENCES = 24,
    /* the disk, after the stop and before 17, in the call that finds the least slot count of a disk. It is for Rattle callers alone as well: no call
     * of this header returns this number. */
    PLANNER_SLOTS_DISK = 27
};

/* The sentence for a number, to be printed after it: at most 80 characters, without a full stop. It is not to be changed or freed. */
static inline const char *planner_why(uint32_t number)
{
    switch (number) {
    case PLANNER_OK:                return "the call is not refused";
    case PLANNER_TICKET_ENDS:       return "the ticket ends inside a field that is due";
    case PLANNER_TICKET_DISKS:      return "the job has no disks, or more than 8";
    case PLANNER_TICKET_SLOTS:      return "a disk has no slots, or more than 64";
    case PLANNER_TICKET_BLOCKS:     return "the job has no blocks, or more than 512";
    case PLANNER_TICKET_BLOCK_DISK: return "a block lies on a disk that the job has not";
    case PLANNER_TICKET_REFERENCES: return "the job has more than 2048 references";
    case PLANNER_TICKET_REFERENCE:  return "a reference is to a block that the job has not";
    case PLANNER_CARRIED_COUNT:     return "a disk carries in more blocks than it has slots";
    case PLANNER_CARRIED_BLOCK:     return "a carried block is not above the one before, not of the job, or on another disk";
    case PLANNER_TICKET_CLOSING:    return "the ticket's closing bits are not all zero, or a byte follows them";
    case PLANNER_STOP:              return "the stop is above the ticket's number of references";
    case PLANNER_SHEET_ENDS:        return "the sheet ends inside a field that is due";
    case PLANNER_SHEET_ROUNDS:      return "more than 2048 rounds are written in the sheet";
    case PLANNER_SHEET_FETCHED:     return "a disk fetches a block that is not one of its own";
    case PLANNER_SHEET_RESIDENT:    return "a disk fetches a block that is already in its buffer";
    case PLANNER_SHEET_FULL:        return "a disk fetches a block and discards nothing, though every slot is taken";
    case PLANNER_SHEET_DISCARDED:   return "a disk discards a block that is not in its buffer";
    case PLANNER_SHEET_UNFINISHED:  return "references are left after the last round";
    case PLANNER_SHEET_CLOSING:     return "the sheet's closing bits are not all zero, or a byte follows them";
    case PLANNER_SHEET_SLOT_EMPTY:  return "a disk discards a block though one of its slots is empty";
    case PLANNER_SHORT_ROOM:        return "the short sheet has more bytes than its buffer";
    case PLANNER_SPARING_ROOM:      return "the sparing sheet has more bytes than its buffer";
    case PLANNER_PAGE_ROOM:         return "the page has more bytes than its buffer";
    case PLANNER_NOTE_MALFORMED:    return "the note is malformed";
    case PLANNER_NOTE_PARENTHESES:  return "the note has more than 16 parentheses open";
    case PLANNER_NOTE_REFERENCES:   return "the note gives more references than 2048, or than its slice has entries";
    case PLANNER_SLOTS_DISK:        return "the disk whose slots are asked for is not in the ticket";
    default:                        return "no call returns this number";
    }
}

/* A field of a ticket: the `width` bits from the bit `at` on, most significant first, or 0 if the bytes end before its end. */
static inline size_t planner_field(const uint8_t *ticket, size_t ticket_length, size_t at, size_t width)
{
    size_t value = 0;
    for (size_t bit = at; bit < at + width; bit++) {
        if (bit / 8 >= ticket_length)
            return 0;
        value = value << 1 | ((size_t)ticket[bit / 8] >> (7 - bit % 8) & 1);
    }
    return value;
}

/* The number of references that a ticket says, which is the stop for the whole job; of any bytes, and 0 if they end before that field's end. Nothing
 * is tested here: a call refuses a bad ticket with the ticket's own number, whatever the stop. */
static inline size_t planner_references(const uint8_t *ticket, size_t ticket_length)
{
    size_t disks = planner_field(ticket, ticket_length, 0, 4);
    size_t blocks = planner_field(ticket, ticket_length, 4 + 7 * disks, 10);
    return planner_field(ticket, ticket_length, 14 + 7 * disks + 3 * blocks, 12);
}

/* Plans a ticket up to a stop.
 *
 *   ticket         read only
 *   stop           the number of references that count
 *   short_sheet    the short plan's sheet is written at its start; the bytes after the sheet do not change
 *   sparing_sheet  the same for the sparing plan
 *   counts         twenty numbers of 16 bits, most significant byte first, as far as the slice reaches (its length may be 0):
 *                    0       the mark: 0 to run the short sheet, 1 to run the sparing sheet
 *                    1       the length of the sheet to run, in bytes, at the start of its buffer
 *                    2..10   the short plan: its rounds, all of them charged, and its fetches on disks 0 to 7 (0 for disks that the job has not)
 *                    11..19  the sparing plan: the same
 *
 * Returns 0, or 1 to 8, 25, 26, 21, 17 or 18. A refusal writes nothing. Each written sheet passes planner_check, with the same stop, with the counts
 * given here. */
uint32_t planner_plan(const uint8_t *ticket, size_t ticket_length, size_t stop,
                      uint8_t *short_sheet, size_t short_length,
                      uint8_t *sparing_sheet, size_t sparing_length,
                      uint8_t *counts, size_t counts_length);

/* Checks a sheet for a ticket up to a stop.
 *
 *   ticket, sheet  read only
 *   stop           the number of references that count: the sheet need read no others
 *   counts         nine numbers of 16 bits, most significant byte first, as far as the slice reaches (its length may be 0):
 *                    0       the sheet's rounds, those charged: up to the one in which the last reference before the stop is read, 0 if nothing had
 *                            to be fetched
 *                    1..8    its fetches on disks 0 to 7, in all rounds that are written in it
 *
 * Returns 0 if the sheet is a valid schedule of the ticket's job up to the stop, else 1 to 8, 25, 26, 21, 9 to 16 or 20. A refusal writes nothing. */
uint32_t planner_check(const uint8_t *ticket, size_t ticket_length, size_t stop,
                       const uint8_t *sheet, size_t sheet_length,
                       uint8_t *counts, size_t counts_length);

/* Chooses between two sheets for a ticket up to a stop. Both are checked as planner_check does it, the first before the second. The second is handed
 * back if it takes no more rounds than the first, otherwise the first. The rounds charged decide, which planner_check gives, not those written: on a
 * tie the second is handed back even if it has more rounds written or more fetches.
 *
 *   ticket         read only
 *   stop           the number of references that count
 *   first, second  the two sheets, read only; they may be the same memory
 *   counts         two numbers of 16 bits, most significant byte first, as far as the slice reaches (its length may be 0):
 *                    0       the sheet handed back: 0 the first, 1 the second
 *                    1       the length of that sheet, in bytes: first_length or second_length
 *
 * Returns 0, or 1 to 8, 25, 26, 21, 9 to 16 or 20: planner_check's number for the first sheet or, if that is 0, for the second. A refusal writes
 * nothing.
 *
 * No sheet is copied: the caller has both, and the one handed back is `second` if number 0 above is 1, else `first`. It passes planner_check and
 * takes no more rounds than the other. Between the two sheets of planner_plan with the same stop, the short one first, it is the second exactly when
 * planner_plan's mark is 1; planner_plan gives the length of the sheet to run only, so after it go by the mark. With the short plan's sheet first,
 * nobody's second sheet is handed back unless it takes equally many rounds. */
uint32_t planner_choose(const uint8_t *ticket, size_t ticket_length, size_t stop,
                        const uint8_t *first, size_t first_length,
                        const uint8_t *second, size_t second_length,
                        uint8_t *counts, size_t counts_length);

#ifdef __cplusplus
}
#endif

#endif
