/* answer.h - the reference's answer to the call of a vector, as text; ../README.md has the form. */
#ifndef ANSWER_H
#define ANSWER_H

#include <stdbool.h>
#include <stddef.h>
#include <stdint.h>

/* No line is longer: a ticket and some bytes, two sheets and a page in hexadecimal, and numbers. */
enum { ANSWER_LINE = 800000 };

char *put_hex(char *to, const uint8_t *bytes, size_t len);  /* gives the end, and puts a 0 there */

/* Writes the answer to a call, which is the line up to " = " and is taken apart; false if the line
 * is no call. */
bool answer(char *call, char *to);

#endif
