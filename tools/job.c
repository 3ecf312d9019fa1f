/* job.c - a job, its ticket and the reading of fields, for both tools. */
#include "job.h"

#include <stdarg.h>
#include <stdio.h>
#include <stdlib.h>
#include <string.h>

bool refuse(struct refusal *refusal, unsigned number, const char *why, ...)
{
    va_list args;

    refusal->number = number;
    va_start(args, why);
    vsnprintf(refusal->why, sizeof refusal->why, why, args);
    va_end(args);
    return false;
}

bool take(struct fields *f, unsigned width, unsigned *value)
{
    if (8 * f->length - f->at < width)
        return false;
    *value = 0;
    for (; width > 0; width--, f->at++)
        *value = *value << 1 | ((unsigned)f->bytes[f->at / 8] >> (7 - f->at % 8) & 1);
    return true;
}

bool closes(struct fields *f, unsigned number, struct refusal *refusal)
{
    size_t left = 8 * f->length - f->at;
    unsigned bits;

    if (left >= 8)
        return refuse(refusal, number, "a byte follows the last one due");
    if (take(f, (unsigned)left, &bits) && bits != 0)
        return refuse(refusal, number, "the closing bits are not all zero");
    return true;
}

static bool read_disks(struct fields *f, struct job *job, struct refusal *refusal)
{
    if (!take(f, 4, &job->disks))
        return refuse(refusal, 1, "the ticket ends inside the number of disks");
    if (job->disks == 0 || job->disks > MAX_DISKS)
        return refuse(refusal, 2, "a job has 1 to %d disks, not %u", MAX_DISKS, job->disks);
    for (unsigned d = 0; d < job->disks; d++) {
        if (!take(f, 7, &job->slots[d]))
            return refuse(refusal, 1, "the ticket ends inside the slots of disk %u", d);
        if (job->slots[d] == 0 || job->slots[d] > MAX_SLOTS)
            return refuse(refusal, 3, "a disk has 1 to %d slots, and disk %u has %u", MAX_SLOTS,
                          d, job->slots[d]);
    }
    return true;
}

static bool read_blocks(struct fields *f, struct job *job, struct refusal *refusal)
{
    if (!take(f, 10, &job->blocks))
        return refuse(refusal, 1, "the ticket ends inside the number of blocks");
    if (job->blocks == 0 || job->blocks > MAX_BLOCKS)
        return refuse(refusal, 4, "a job has 1 to %d blocks, not %u", MAX_BLOCKS, job->blocks);
    for (unsigned b = 0; b < job->blocks; b++) {
        if (!take(f, 3, &job->disk_of[b]))
            return refuse(refusal, 1, "the ticket ends inside the disk of block %u", b);
        if (job->disk_of[b] >= job->disks)
            return refuse(refusal, 5, "block %u lies on disk %u, and the last disk is %u", b,
                          job->disk_of[b], job->disks - 1);
    }
    return true;
}

static bool read_references(struct fields *f, struct job *job, struct refusal *refusal)
{
    if (!take(f, 12, &job->references))
        return refuse(refusal, 1, "the ticket ends inside the number of references");
    if (job->references > MAX_REFERENCES)
        return refuse(refusal, 6, "a job has at most %d references, not %u", MAX_REFERENCES,
                      job->references);
    for (unsigned i = 0; i < job->references; i++) {
        if (!take(f, 9, &job->reference[i]))
            return refuse(refusal, 1, "the ticket ends inside reference %u of %u", i + 1,
                          job->references);
        if (job->reference[i] >= job->blocks)
            return refuse(refusal, 7, "reference %u of %u is block %u, and the last block is %u",
                          i + 1, job->references, job->reference[i], job->blocks - 1);
    }
    return true;
}

/* The next block that disk d carries in; least is 1 more than the one before it, or 0. */
static bool read_carried_block(struct fields *f, struct job *job, unsigned d, unsigned *least,
                               struct refusal *refusal)
{
    unsigned b;

    if (!take(f, 9, &b))
        return refuse(refusal, 1, "the ticket ends inside a block that disk %u carries in", d);
    if (b < *least)
        return refuse(refusal, 26, "disk %u carries in block %u after block %u, and the numbers "
                      "must rise", d, b, *least - 1);
    if (b >= job->blocks)
        return refuse(refusal, 26, "disk %u carries in block %u, and the last block is %u", d, b,
                      job->blocks - 1);
    if (job->disk_of[b] != d)
        return refuse(refusal, 26, "disk %u carries in block %u, which lies on disk %u", d, b,
                      job->disk_of[b]);
    job->carried[b] = true;
    *least = b + 1;
    return true;
}

static bool read_carried(struct fields *f, struct job *job, struct refusal *refusal)
{
    memset(job->carried, 0, sizeof job->carried);
    for (unsigned d = 0; d < job->disks; d++) {
        unsigned count, least = 0;

        if (!take(f, 7, &count))
            return refuse(refusal, 1, "the ticket ends inside the number of blocks that disk %u "
                          "carries in", d);
        if (count > job->slots[d])
            return refuse(refusal, 25, "disk %u carries in %u blocks, and has %u slot%s", d, count,
                          job->slots[d], job->slots[d] == 1 ? "" : "s");
        for (; count > 0; count--)
            if (!read_carried_block(f, job, d, &least, refusal))
                return false;
    }
    return true;
}

bool read_ticket(const uint8_t *ticket, size_t length, struct job *job, struct refusal *refusal)
{
    struct fields f = {ticket, length, 0};

    return read_disks(&f, job, refusal) && read_blocks(&f, job, refusal)
        && read_references(&f, job, refusal) && read_carried(&f, job, refusal)
        && closes(&f, 8, refusal);
}

unsigned carried_on(const struct job *job, unsigned d)
{
    unsigned count = 0;

    for (unsigned b = 0; b < job->blocks; b++)
        count += job->carried[b] && job->disk_of[b] == d;
    return count;
}

size_t read_bytes(const char *path, uint8_t *bytes, size_t room)
{
    bool standard = path == NULL || strcmp(path, "-") == 0;
    FILE *from = standard ? stdin : fopen(path, "rb");
    size_t length = from == NULL ? 0 : fread(bytes, 1, room, from);

    if (from == NULL || ferror(from)) {
        perror(standard ? "standard input" : path);
        exit(BAD_USAGE);
    }
    if (!standard)
        fclose(from);
    return length;
}

void finish_output(void)
{
    if (fflush(stdout) != 0 || ferror(stdout)) {
        perror("output");
        exit(BAD_USAGE);
    }
}
