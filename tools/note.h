/* note.h - a note of request L6, for the tool `ticket`. */
#ifndef NOTE_H
#define NOTE_H

#include "job.h"

struct note {
    unsigned references, reference[MAX_REFERENCES];
    size_t at;                 /* of 22 and 23: the character that is refused, counted from 0 */
};

/* Text to references; false if the text is refused, and then the references mean nothing. */
bool read_note(const char *text, size_t length, struct note *note, struct refusal *refusal);

#endif
