/* chance.h - numbers drawn by chance. */
#ifndef CHANCE_H
#define CHANCE_H

#include <stdbool.h>
#include <stddef.h>
#include <stdint.h>

/* The state of a small generator (splitmix64); the same seed and job give the same draws. Calls
 * that draw are never put where C leaves their order open, so any compiler draws alike. */
struct chance {
    uint64_t state;
};

struct chance chance_for(uint64_t seed, uint64_t job);
unsigned below(struct chance *c, unsigned n);                     /* 0 .. n-1, 0 for n = 0 */
unsigned between(struct chance *c, unsigned low, unsigned high);  /* ends included */
bool one_in(struct chance *c, unsigned n);
void fill(struct chance *c, uint8_t *bytes, size_t len);

#endif
