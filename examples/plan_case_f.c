/* plan_case_f.c - one page of C: plan a job, check the sheet to run, look at the numbers.
 *
 * The job is case F of document 01: two disks with 1 and 2 slots, blocks 0 and 1 on the first, 2, 3 and 4 on the
 * second, read in the order 2 3 0 1 2 4 3. Both plans take 4 rounds; the sparing one saves a fetch on disk 1.
 * Exit 0 only if every number and byte is as expected. */
#include <planner.h>

#include <stdio.h>
#include <string.h>

/* Field by field: D 2, slots 1 2, B 5, disks 0 0 1 1 1, N 7, references 2 3 0 1 2 4 3, carried in 0 on each disk, four zero
 * bits. */
static const uint8_t ticket[17] = {0x20, 0x20, 0x80, 0x50, 0x09, 0x20, 0x0e, 0x02, 0x01,
                                   0x80, 0x00, 0x20, 0x20, 0x20, 0x0c, 0x00, 0x00};

/* Mark and length; rounds and eight fetch counts of the short plan; the same of the sparing plan. */
static const unsigned numbers[20] = {1, 11, 4, 2, 4, 0, 0, 0, 0, 0, 0, 4, 2, 3, 0, 0, 0, 0, 0, 0};

/* 4 rounds: fetch 0 and 2; 3 on disk 1; 1 for 0; 4 for 2. */
static const uint8_t run_sheet[11] = {0x00, 0x48, 0x01, 0x01, 0x10, 0x1a, 0x01, 0x80, 0x08, 0x12, 0x02};

static unsigned number_at(const uint8_t *counts, unsigned k)
{
    return (unsigned)counts[2 * k] << 8 | counts[2 * k + 1];
}

static void print_refusal(uint32_t number)
{
    printf("refused %u: %s\n", (unsigned)number, planner_why(number));
}

static void print_plan(unsigned mark, const uint8_t *plan, const uint8_t *sheet, unsigned length)
{
    printf("%s, %u rounds\n", mark == 1 ? "sparing" : "short", number_at(plan, 0));
    for (unsigned d = 0; d < 2; d++)
        printf("disk %u fetches %u\n", d, number_at(plan, 1 + d));
    printf("sheet");
    for (unsigned k = 0; k < length; k++)
        printf(" %02x", sheet[k]);
    printf("\n");
}

static int wrong(const char *what)
{
    printf("not as expected: %s\n", what);
    return 1;
}

int main(void)
{
    static uint8_t short_sheet[PLANNER_LONGEST_SHEET], sparing_sheet[PLANNER_LONGEST_SHEET];
    uint8_t planned[PLANNER_PLAN_COUNTS], checked[PLANNER_CHECK_COUNTS];
    size_t stop = planner_references(ticket, sizeof ticket);   /* all 7 references count: the whole job */
    uint32_t number = planner_plan(ticket, sizeof ticket, stop, short_sheet, sizeof short_sheet, sparing_sheet,
                                   sizeof sparing_sheet, planned, sizeof planned);

    if (number != PLANNER_OK) {
        print_refusal(number);
        return 1;
    }
    unsigned mark = number_at(planned, 0), length = number_at(planned, 1);
    const uint8_t *sheet = mark == 1 ? sparing_sheet : short_sheet;
    const uint8_t *plan = planned + (mark == 1 ? 22 : 4);   /* rounds and fetches of the plan to run */

    print_plan(mark, plan, sheet, length);
    for (unsigned k = 0; k < 20; k++)
        if (number_at(planned, k) != numbers[k])
            return wrong("a number of the plans");
    if (length != sizeof run_sheet || memcmp(sheet, run_sheet, length) != 0)
        return wrong("the sheet");
    number = planner_check(ticket, sizeof ticket, stop, sheet, length, checked, sizeof checked);
    if (number != PLANNER_OK) {
        print_refusal(number);
        return wrong("the check refuses the sheet");
    }
    if (memcmp(checked, plan, sizeof checked) != 0)
        return wrong("the check's rounds and fetches");

    number = planner_check(ticket, sizeof ticket, stop, sheet, length - 1, checked, sizeof checked);
    if (number != PLANNER_SHEET_ENDS)
        return wrong("the number for a sheet that is cut");
    printf("without its last byte: ");
    print_refusal(number);
    return 0;
}
