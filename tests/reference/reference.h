/* reference.h - the planner of document 01 with requests L1 to L10, written from the papers alone.
 *
 * A reference to compare others with: tables and plain passes over the blocks, nothing clever.
 * Every answer "number" is 0, or the number of the refusal in documents 01 and 02. Notes, of request
 * L6, are in note.c, all else is in reference.c. */
#ifndef REFERENCE_H
#define REFERENCE_H

#include <stdbool.h>
#include <stddef.h>
#include <stdint.h>

enum {
    REF_DISKS = 8,
    REF_SLOTS = 64,
    REF_BLOCKS = 512,
    REF_REFERENCES = 2048,
    REF_ROUNDS = 2048,
    REF_TICKET = 3090,         /* the longest ticket, with all 512 blocks carried in */
    REF_SHEET = 40962,         /* "the longest sheet 40,962" */
    REF_LINE = 17,             /* a line of a page: "16 columns and a line feed" */
    REF_LEGEND = 5,            /* "Five legend lines ... close the page" */
    REF_PAGE = (REF_ROUNDS * REF_DISKS + REF_LEGEND) * REF_LINE,  /* the longest page: 278,613 */
    REF_PARENTHESES = 16,      /* of a note: no more are open at once */
    REF_NONE = 0xffff,         /* no block */
    REF_PLANNED_NUMBERS = 20,  /* mark, part length, then 9 for each plan */
    REF_CHECKED_NUMBERS = 9,   /* rounds charged and eight fetch counts */
    REF_CHOSEN_NUMBERS = 2     /* which sheet, and its length */
};

/* What a ticket says, and how much of it counts. */
struct ref_job {
    unsigned disks, slots[REF_DISKS];
    unsigned blocks;
    uint8_t disk[REF_BLOCKS];  /* the disk each block lies on */
    bool carried[REF_BLOCKS];  /* "blocks already in its buffer" */
    unsigned references;
    uint16_t reference[REF_REFERENCES];
    unsigned stop;             /* "the number of references that count", at most all */
};

/* What one disk does in one round. A schedule has rounds x disks of them, round by round. */
struct ref_action {
    uint16_t fetch, discard;   /* REF_NONE: no fetch, nothing discarded */
};

/* What a schedule costs: the rounds charged, which end with the one in which the last reference before
 * the stop is consumed, and the fetches of all its rounds. */
struct ref_counts {
    uint16_t charged, fetches[REF_DISKS];
};

enum ref_rule { REF_P_MIN = 0, REF_P_CON = 1 };  /* P-MIN and P-CON; also the marks */

struct ref_planned {
    uint16_t mark, length;             /* the part handed back: whose sheet, how long */
    struct ref_counts counts[2];       /* by rule */
    size_t sheet_length[2];            /* by rule */
};

struct ref_paged {
    struct ref_planned planned;
    size_t length;                     /* the page's */
};

struct ref_chosen {
    uint16_t which, length;            /* the sheet handed back: 0 first, 1 second; how long */
};

struct ref_slotted {
    unsigned slots;                    /* the least slot count of the disk; 0: none */
    size_t length;                     /* of the short sheet for it */
};

/* Ticket and stop to job. The job means nothing where the number is not 0. */
unsigned ref_read_ticket(const uint8_t *ticket, size_t n, size_t stop, struct ref_job *job);

/* The N that any bytes say, read as a ticket without a test; 0 if they end before its end. */
unsigned ref_references(const uint8_t *ticket, size_t n);

/* Job to ticket, of which the stop is no part; schedule to sheet. Both give the length needed and
 * write nothing if it is more than room. Values are cut to their fields' widths. */
size_t ref_write_ticket(const struct ref_job *job, uint8_t *buf, size_t room);
size_t ref_write_sheet(const struct ref_action *schedule, unsigned rounds, unsigned disks,
                       uint8_t *buf, size_t room);

/* The schedule of one rule up to the job's stop; room for stop x disks actions. All its rounds are
 * charged; those of P-CON are at most D times those of P-MIN (request L8). */
void ref_run(const struct ref_job *job, enum ref_rule rule, struct ref_action *schedule,
             struct ref_counts *counts);

/* Planning up to a stop: writes both sheets, or nothing if refused; then all of out is 0. */
unsigned ref_plan(const uint8_t *ticket, size_t n, size_t stop, uint8_t *p_min, size_t ns,
                  uint8_t *p_con, size_t np, struct ref_planned *out);

/* Planning with a page: writes both sheets and the page of the plan handed back, or nothing if
 * refused; then all of out is 0. */
unsigned ref_page(const uint8_t *ticket, size_t n, size_t stop, uint8_t *p_min, size_t ns,
                  uint8_t *p_con, size_t np, uint8_t *page, size_t ng, struct ref_paged *out);

/* The check up to a stop; all of out is 0 if refused. */
unsigned ref_check(const uint8_t *ticket, size_t n, size_t stop, const uint8_t *sheet, size_t m,
                   struct ref_counts *out);

/* The choice between two sheets up to a stop; all of out is 0 if refused. */
unsigned ref_choose(const uint8_t *ticket, size_t n, size_t stop, const uint8_t *first, size_t m1,
                    const uint8_t *second, size_t m2, struct ref_chosen *out);

/* The least slot count of a disk with which the part before the stop finishes within the wanted rounds:
 * writes the short sheet for it, or nothing if there is none or it is refused; then all of out is 0. */
unsigned ref_slots(const uint8_t *ticket, size_t n, size_t stop, size_t disk, size_t wanted,
                   uint8_t *sheet, size_t room, struct ref_slotted *out);

/* A note, read. A count above REF_REFERENCES says only that they are too many. */
struct ref_noted {
    unsigned number;                   /* 0, 22 or 23 */
    size_t place;                      /* where 22 or 23 is met, from 0; the length for the end */
    size_t count;                      /* of the references, 0 if refused */
    uint16_t reference[REF_REFERENCES];
};

/* A text as a note in which so many parentheses may be open, REF_PARENTHESES in the papers. */
void ref_read_note(const uint8_t *text, size_t n, unsigned parentheses, struct ref_noted *out);

/* The references of a note: writes so many as it has and gives their count, or writes nothing and
 * gives 0 if refused. */
unsigned ref_note(const uint8_t *text, size_t n, uint16_t *references, size_t room, size_t *count);

/* The numbers a call from C writes, in order, and how it writes them. */
void ref_planned_numbers(const struct ref_planned *planned, uint16_t *numbers);
void ref_checked_numbers(const struct ref_counts *counts, uint16_t *numbers);
void ref_chosen_numbers(const struct ref_chosen *chosen, uint16_t *numbers);
void ref_fill_counts(const uint16_t *numbers, size_t how_many, uint8_t *counts, size_t len);

#endif
