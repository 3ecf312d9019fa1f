/* notes.c - the tool's reader of notes against the reference's, on bytes that libFuzzer makes.
 *
 * An input is a text. Both must make the same references of it, or refuse it with the same number, 22 and 23 at the same character. */
#include "../tests/reference/reference.h"
#include "../tools/note.h"

#include <stdio.h>
#include <stdlib.h>

static void must(bool good, const char *what)
{
    if (good)
        return;
    fprintf(stderr, "DISAGREE: %s\n", what);
    abort();
}

int LLVMFuzzerTestOneInput(const uint8_t *data, size_t size)
{
    static struct ref_noted want;
    static struct note have;
    struct refusal refusal = {0, ""};
    unsigned number;

    ref_read_note(data, size, REF_PARENTHESES, &want);
    number = want.number == 0 && want.count > REF_REFERENCES ? 24 : want.number;
    must(read_note((const char *)data, size, &have, &refusal) == (number == 0), "whether it is refused");
    must(refusal.number == number, "the number");
    must(want.number == 0 || have.at == want.place, "the place");
    must(number != 0 || have.references == want.count, "the count");
    for (size_t k = 0; number == 0 && k < want.count; k++)
        must(have.reference[k] == want.reference[k], "a reference");
    return 0;
}
