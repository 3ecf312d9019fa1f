/* chance.c - numbers drawn by chance. */
#include "chance.h"

static uint64_t bits(struct chance *c)
{
    uint64_t z = c->state += 0x9e3779b97f4a7c15u;

    z = (z ^ z >> 30) * 0xbf58476d1ce4e5b9u;
    z = (z ^ z >> 27) * 0x94d049bb133111ebu;
    return z ^ z >> 31;
}

struct chance chance_for(uint64_t seed, uint64_t job)
{
    struct chance c = {seed};

    c.state = bits(&c) + job * 0xd1342543de82ef95u;
    bits(&c);
    return c;
}

unsigned below(struct chance *c, unsigned n)
{
    return (unsigned)((bits(c) >> 32) * n >> 32);
}

unsigned between(struct chance *c, unsigned low, unsigned high)
{
    return low + below(c, high - low + 1);
}

bool one_in(struct chance *c, unsigned n)
{
    return below(c, n) == 0;
}

void fill(struct chance *c, uint8_t *bytes, size_t len)
{
    uint64_t eight = 0;

    for (size_t k = 0; k < len; k++) {
        if (k % 8 == 0)
            eight = bits(c);
        bytes[k] = (uint8_t)(eight >> 8 * (k % 8));
    }
}
