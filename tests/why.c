/* why.c - planner_why of planner.h: a sentence for each number, and one for all others.
 *
 * Each sentence has words that no other has, those of its number in the papers: so all differ,
 * and none stands at another's number. Exit 0 only if that holds and all are in the header's style. */
#include <planner.h>

#include <ctype.h>
#include <stdbool.h>
#include <stdio.h>
#include <string.h>

enum { LONGEST = 80 };

/* By number. */
static const char *const words[] = {
    "not refused",
    "ticket ends", "than 8", "than 64", "than 512", "a block lies on", "2048 references",
    "a reference", "ticket's closing",
    "sheet ends", "2048 rounds", "its own", "already", "every slot", "not in its buffer",
    "are left", "sheet's closing",
    "short sheet", "sparing sheet", "page",
    "is empty", "stop is above",
    "malformed", "parentheses", "slice has entries",
    "carries in more", "a carried block",
    "asked for"
};

enum { NUMBERS = sizeof words / sizeof words[0] };

static int bad;

static void must(bool good, uint32_t number, const char *what)
{
    if (good)
        return;
    printf("number %lu, \"%s\": %s\n", (unsigned long)number, planner_why(number), what);
    bad = 1;
}

/* It is printed after "refused 7: ", and something may follow it. */
static void try_style(uint32_t number)
{
    const char *why = planner_why(number);
    size_t length = strlen(why);

    must(length > 0, number, "is empty");
    must(length <= LONGEST, number, "is too long");
    must(islower((unsigned char)why[0]), number, "does not start with a small letter");
    must(length > 0 && isalnum((unsigned char)why[length - 1]), number,
         "does not end with a letter or a digit");
}

int main(void)
{
    static const uint32_t others[] = {NUMBERS, UINT32_MAX};

    for (uint32_t number = 0; number < NUMBERS; number++) {
        try_style(number);
        for (uint32_t other = 0; other < NUMBERS; other++)
            must((strstr(planner_why(number), words[other]) != NULL) == (number == other), number,
                 number == other ? "has not its own words" : "has the words of another number");
    }
    for (unsigned k = 0; k < sizeof others / sizeof others[0]; k++) {
        try_style(others[k]);
        must(strcmp(planner_why(others[k]), "no call returns this number") == 0, others[k],
             "is not the sentence for other numbers");
    }
    if (bad == 0)
        printf("%d numbers, each with its sentence\n", (int)NUMBERS);
    return bad;
}
