/* programs.c - stand-ins for the programs `cases`, `page`, `passes` and `slots`, for page_faults.sh,
 * note_faults.sh and slot_faults.sh: the reference answers.
 *
 * usage: cases < LINES, page < TICKET, passes < NOTE, or slots DISK ROUNDS < TICKET: which one it is, its
 * own name says. */
#include "reference/answer.h"
#include "reference/reference.h"

#include <stdio.h>
#include <string.h>

enum { MOST_NOTE = 1048576 };  /* bytes of a note that are read */
enum { MOST_DIGITS = 4096 };   /* of an argument */

/* Lines that are no calls are written as they are. */
static void cases(void)
{
    static char line[ANSWER_LINE], call[ANSWER_LINE], text[ANSWER_LINE];

    while (fgets(line, sizeof line, stdin) != NULL) {
        line[strcspn(line, "\n")] = '\0';
        strcpy(call, line);
        if (line[0] != '#' && answer(call, text))
            printf("%s = %s\n", line, text);
        else
            printf("%s\n", line);
    }
}

/* The stop is N. A longer input is cut to one byte more than the longest ticket. */
static void page(void)
{
    static uint8_t ticket[REF_TICKET + 1], sheet[2][REF_SHEET], text[REF_PAGE];
    size_t n = fread(ticket, 1, sizeof ticket, stdin);
    struct ref_paged paged;
    unsigned number = ref_page(ticket, n, ref_references(ticket, n), sheet[0], REF_SHEET, sheet[1],
                               REF_SHEET, text, REF_PAGE, &paged);

    if (number == 0)
        fwrite(text, 1, paged.length, stdout);
    else
        printf("refused %u\n", number);
}

/* One line feed at the end is not part of the note. A longer input is cut. */
static void passes(void)
{
    static uint8_t text[MOST_NOTE];
    static uint16_t reference[REF_REFERENCES];
    size_t n = fread(text, 1, sizeof text, stdin), count;
    unsigned number;

    if (n > 0 && text[n - 1] == '\n')
        n--;
    number = ref_note(text, n, reference, REF_REFERENCES, &count);
    if (number != 0)
        printf("refused %u\n", number);
    for (size_t k = 0; k < count; k++)
        printf("%u%c", reference[k], k + 1 < count ? ' ' : '\n');
}

/* Digits alone, one or more: the number that they give, the largest for any that is greater. */
static bool read_digits(const char *text, size_t *number)
{
    size_t length = strspn(text, "0123456789");

    *number = 0;
    for (size_t k = 0; k < length; k++) {
        size_t digit = (size_t)(text[k] - '0');

        *number = *number > (SIZE_MAX - digit) / 10 ? SIZE_MAX : 10 * *number + digit;
    }
    return length > 0 && length <= MOST_DIGITS && text[length] == '\0';
}

/* The stop is N. A longer input is cut to one byte more than the longest ticket. */
static void slots(int arguments, char **argument)
{
    static uint8_t ticket[REF_TICKET + 1], sheet[REF_SHEET];
    size_t n, disk, wanted;
    struct ref_slotted slotted;
    unsigned number;

    if (arguments != 2 || !read_digits(argument[0], &disk) || !read_digits(argument[1], &wanted)) {
        printf("usage: slots DISK ROUNDS < TICKET\n");
        return;
    }
    setvbuf(stdin, NULL, _IONBF, 0);
    n = fread(ticket, 1, sizeof ticket, stdin);
    number = ref_slots(ticket, n, ref_references(ticket, n), disk, wanted, sheet, REF_SHEET, &slotted);
    if (number != 0)
        printf("refused %u\n", number);
    else if (slotted.slots == 0)
        printf("none\n");
    else
        printf("slots %u\n", slotted.slots);
}

static bool is_called(const char *path, const char *name)
{
    size_t length = strlen(path), own = strlen(name);

    return length >= own && strcmp(path + length - own, name) == 0;
}

int main(int argc, char **argv)
{
    if (argc > 0 && is_called(argv[0], "page"))
        page();
    else if (argc > 0 && is_called(argv[0], "passes"))
        passes();
    else if (argc > 0 && is_called(argv[0], "slots"))
        slots(argc - 1, argv + 1);
    else
        cases();
    return 0;
}
