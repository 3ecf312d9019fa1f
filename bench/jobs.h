/* jobs.h - the jobs of the benchmarks, and the median of what they took. */
#ifndef JOBS_H
#define JOBS_H

#include "../tests/reference/reference.h"

enum pattern { RANDOM, CYCLIC, THRASH, CROWDED, SAME };

struct shape {
    enum pattern pattern;
    unsigned disks, blocks, references, slots;
};

extern const char *const pattern_name[];

/* Its job, of which all references count: the stop is their number. No block is carried in. */
void make_job(const struct shape *s, struct ref_job *job);

/* The jobs of full size: 8 disks, 512 blocks, 2,048 references. */
enum { FULL_SIZE = 12 };
struct shape full_shape(unsigned k);
void print_full(const struct shape *s);   /* the first cell of its row */

double median_of(double *values, unsigned how_many);

#endif
