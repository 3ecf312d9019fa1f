/* draw.h - jobs, stops, schedules and damage drawn by chance. */
#ifndef DRAW_H
#define DRAW_H

#include "reference/chance.h"
#include "reference/reference.h"

/* A job within document 01's limits: mostly small, now and then at the very limits, and now and then
 * of the kind on which P-CON waits long. Every second one may carry blocks in. Its stop is N. */
void draw_job(struct chance *c, struct ref_job *job);

/* A job with the longest ticket: all blocks are carried in, so that it has no rounds. */
void draw_longest_ticket(struct chance *c, struct ref_job *job);

/* A job with the longest page, 2,048 rounds on eight disks, and a ticket as long as goes with it. */
void draw_longest(struct chance *c, struct ref_job *job);

/* A stop for a job of so many references: often all of them, else any number, 0 and all but one more
 * often than others. */
size_t draw_stop(struct chance *c, unsigned references);

/* A stop above so many references: the next number, the largest, one whose last 16 or 32 bits alone
 * are not above, or any. */
size_t draw_stop_above(struct chance *c, unsigned references);

/* How many blocks a disk carries in. */
unsigned carried_on(const struct ref_job *job, unsigned d);

/* A schedule of allowed actions up to the job's stop, but that one in five may discard beside an empty slot, which the
 * check refuses; gives its rounds, at most REF_ROUNDS.
 * FINISHED ends with the round that consumes the last reference before the stop, LATE has rounds
 * after it, idle or not, UNFINISHED leaves references (unless there are none). */
enum ending { FINISHED, LATE, UNFINISHED };
unsigned draw_schedule(struct chance *c, const struct ref_job *job, enum ending ending,
                       struct ref_action *schedule);

/* Puts rounds of allowed actions, idle or not, after a schedule that consumes the last reference before
 * the stop, unless it has REF_ROUNDS; gives its rounds. */
unsigned draw_longer(struct chance *c, const struct ref_job *job, struct ref_action *schedule,
                     unsigned rounds);

/* Changes an action, and maybe some after it, mostly into ones that the check refuses. */
void spoil_schedule(struct chance *c, const struct ref_job *job, struct ref_action *schedule,
                    unsigned rounds);

/* Damage to written bytes, once or twice; gives the new length, at most SPARE more. The bytes'
 * array must have room for the written length and SPARE more. */
enum { SPARE = 8 };
size_t damage_ticket(struct chance *c, const struct ref_job *job, uint8_t *bytes, size_t len);
size_t damage_sheet(struct chance *c, uint8_t *bytes, size_t len);

#endif
