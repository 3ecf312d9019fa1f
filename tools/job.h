/* job.h - a job, its ticket and the reading of fields, for both tools.
 *
 * The numbers of refusals are those of documents 01 and 02. */
#ifndef JOB_H
#define JOB_H

#include <stdbool.h>
#include <stddef.h>
#include <stdint.h>

enum {
    MAX_DISKS = 8,
    MAX_SLOTS = 64,
    MAX_BLOCKS = 512,
    MAX_REFERENCES = 2048,
    MAX_ROUNDS = 2048,
    LONGEST_TICKET = 3090,
    LONGEST_SHEET = 40962
};

/* Exit statuses. */
enum { GOOD = 0, BAD_INPUT = 1, BAD_USAGE = 2 };

struct job {
    unsigned disks, slots[MAX_DISKS];
    unsigned blocks, disk_of[MAX_BLOCKS];
    unsigned references, reference[MAX_REFERENCES];
    bool carried[MAX_BLOCKS];  /* whether the block is in its disk's buffer at the start */
};

/* Bytes read as fields, most significant bit first. */
struct fields {
    const uint8_t *bytes;
    size_t length, at;         /* length in bytes, place in bits */
};

/* Why a ticket or a sheet is refused. */
struct refusal {
    unsigned number;
    char why[160];
};

/* Fills in the refusal; false, for the caller to give back. */
bool refuse(struct refusal *refusal, unsigned number, const char *why, ...);

/* Takes the next field; false if the bytes end inside it. */
bool take(struct fields *f, unsigned width, unsigned *value);

/* Whether nothing but the closing zero bits is left; number is for the refusal. */
bool closes(struct fields *f, unsigned number, struct refusal *refusal);

/* How many blocks a disk carries in. */
unsigned carried_on(const struct job *job, unsigned d);

/* Ticket to job; false if the ticket is refused. */
bool read_ticket(const uint8_t *ticket, size_t length, struct job *job, struct refusal *refusal);

/* Files. No path, or "-", is the standard input. Failures end the program. */
size_t read_bytes(const char *path, uint8_t *bytes, size_t room);
void finish_output(void);

#endif
