/* jobs.c - the jobs of the benchmarks, and the median of what they took. */
#include "jobs.h"
#include "../tests/reference/chance.h"

#include <stdio.h>
#include <stdlib.h>
#include <string.h>

const char *const pattern_name[] = {"random", "cyclic", "thrash", "crowded", "same"};

/* Blocks lie on the disks in turn. Random: any block. Cyclic: all blocks, over and over. Thrash: disk 0 has one slot, and
 * every second reference is the next of its blocks; the others are any block of the other disks. Crowded: any block, and all
 * but one in eight lie on disk 0. Same: block 0 each time. */
static unsigned draw_reference(struct chance *c, const struct shape *s, unsigned i)
{
    unsigned any = below(c, s->blocks), on_first = (s->blocks + s->disks - 1) / s->disks;

    switch (s->pattern) {
    case CYCLIC:
        return i % s->blocks;
    case THRASH:
        if (i % 2 == 0)
            return i / 2 % on_first * s->disks;
        return any % s->disks == 0 ? any + 1 : any;
    case SAME:
        return 0;
    default:
        return any;
    }
}

static unsigned disk_of(const struct shape *s, unsigned b)
{
    if (s->pattern != CROWDED)
        return b % s->disks;
    return b % 8 != 0 ? 0 : b / 8 % s->disks;
}

void make_job(const struct shape *s, struct ref_job *job)
{
    struct chance c = chance_for(1, s->pattern);

    job->disks = s->disks;
    job->blocks = s->blocks;
    job->references = s->references;
    job->stop = s->references;
    for (unsigned d = 0; d < s->disks; d++)
        job->slots[d] = s->pattern == THRASH && d == 0 ? 1 : s->slots;
    for (unsigned b = 0; b < s->blocks; b++)
        job->disk[b] = (uint8_t)disk_of(s, b);
    for (unsigned i = 0; i < s->references; i++)
        job->reference[i] = (uint16_t)draw_reference(&c, s, i);
    memset(job->carried, 0, sizeof job->carried);
}

struct shape full_shape(unsigned k)
{
    static const unsigned slots[] = {1, 4, 64};

    return (struct shape){(enum pattern)(k / 3), 8, 512, 2048, slots[k % 3]};
}

void print_full(const struct shape *s)
{
    printf("| %s, %u slot%s |", pattern_name[s->pattern], s->slots, s->slots == 1 ? "" : "s");
}

static int compare(const void *a, const void *b)
{
    double x = *(const double *)a, y = *(const double *)b;

    return (x > y) - (x < y);
}

double median_of(double *values, unsigned how_many)
{
    qsort(values, how_many, sizeof values[0], compare);
    return values[how_many / 2];
}
