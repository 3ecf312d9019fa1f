/* input.h - the bytes of one fuzz input: a head of fourteen bytes, a ticket, two sheets.
 *
 *   byte 0     the length of the counts slices, modulo 46
 *   byte 1     the rooms: two bits for each buffer (enum room), short plan lowest; the four bits above say which rounds are put after a plan's
 *   byte 2-3   the ticket's length, most significant byte first, cut to what is there
 *   byte 4-5   the first sheet's length, likewise
 *   byte 6-13  the stop, most significant byte first
 * The second sheet is what comes after the first. */
#ifndef INPUT_H
#define INPUT_H

#include <stddef.h>
#include <stdint.h>

enum { HEAD = 14, STOP = 6, COUNTS_LENGTHS = 46 };    /* STOP: where the stop's bytes begin */
enum room { EXACT, ONE_SHORT, AMPLE, FIVE_BYTES };

struct input {
    size_t counts_length, stop;
    enum room room[2];
    unsigned after;            /* which rounds are put after a plan's, 0 to 15 */
    const uint8_t *ticket, *sheet[2];
    size_t ticket_length, sheet_length[2];
};

/* A length in the head, at most what is there. */
static inline size_t length_at(const uint8_t *head, size_t most)
{
    size_t length = (size_t)head[0] << 8 | head[1];

    return length < most ? length : most;
}

/* The eight bytes of a stop. */
static inline void put_stop(uint8_t *data, size_t stop)
{
    for (unsigned k = 0; k < HEAD - STOP; k++)
        data[STOP + k] = (uint8_t)((uint64_t)stop >> 8 * (HEAD - STOP - 1 - k));
}

static inline size_t stop_of(const uint8_t *data)
{
    uint64_t stop = 0;

    for (unsigned k = STOP; k < HEAD; k++)
        stop = stop << 8 | data[k];
    return (size_t)stop;
}

/* Takes an input apart; the parts of one that is shorter than the head are empty. */
static inline struct input input_of(const uint8_t *data, size_t size)
{
    struct input in = {0, 0, {EXACT, EXACT}, 0, data, {data, data}, 0, {0, 0}};

    if (size < HEAD)
        return in;
    in.counts_length = data[0] % COUNTS_LENGTHS;
    in.room[0] = (enum room)(data[1] & 3);
    in.room[1] = (enum room)(data[1] >> 2 & 3);
    in.after = data[1] >> 4;
    in.stop = stop_of(data);
    in.ticket = data + HEAD;
    in.ticket_length = length_at(data + 2, size - HEAD);
    in.sheet[0] = in.ticket + in.ticket_length;
    in.sheet_length[0] = length_at(data + 4, size - HEAD - in.ticket_length);
    in.sheet[1] = in.sheet[0] + in.sheet_length[0];
    in.sheet_length[1] = size - HEAD - in.ticket_length - in.sheet_length[0];
    return in;
}

#endif
