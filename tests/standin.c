/* standin.c - a library for faults.sh: planner.h answered by a copy of the reference, under other
 * names, so that it can be linked beside the reference. */
#define ref_read_ticket in_read_ticket
#define ref_references in_references
#define ref_write_ticket in_write_ticket
#define ref_write_sheet in_write_sheet
#define ref_run in_run
#define ref_plan in_plan
#define ref_page in_page
#define ref_check in_check
#define ref_choose in_choose
#define ref_slots in_slots
#define ref_planned_numbers in_planned_numbers
#define ref_checked_numbers in_checked_numbers
#define ref_chosen_numbers in_chosen_numbers
#define ref_fill_counts in_fill_counts
#include <reference.c>

#include <planner.h>

uint32_t planner_plan(const uint8_t *ticket, size_t ticket_length, size_t stop,
                      uint8_t *short_sheet, size_t short_length, uint8_t *sparing_sheet,
                      size_t sparing_length, uint8_t *counts, size_t counts_length)
{
    uint16_t numbers[REF_PLANNED_NUMBERS];
    struct ref_planned planned;
    unsigned number = ref_plan(ticket, ticket_length, stop, short_sheet, short_length,
                               sparing_sheet, sparing_length, &planned);

    ref_planned_numbers(&planned, numbers);
    if (number == 0)
        ref_fill_counts(numbers, REF_PLANNED_NUMBERS, counts, counts_length);
    return number;
}

uint32_t planner_check(const uint8_t *ticket, size_t ticket_length, size_t stop,
                       const uint8_t *sheet, size_t sheet_length, uint8_t *counts,
                       size_t counts_length)
{
    uint16_t numbers[REF_CHECKED_NUMBERS];
    struct ref_counts checked;
    unsigned number = ref_check(ticket, ticket_length, stop, sheet, sheet_length, &checked);

    ref_checked_numbers(&checked, numbers);
    if (number == 0)
        ref_fill_counts(numbers, REF_CHECKED_NUMBERS, counts, counts_length);
    return number;
}

uint32_t planner_choose(const uint8_t *ticket, size_t ticket_length, size_t stop,
                        const uint8_t *first, size_t first_length, const uint8_t *second,
                        size_t second_length, uint8_t *counts, size_t counts_length)
{
    uint16_t numbers[REF_CHOSEN_NUMBERS];
    struct ref_chosen chosen;
    unsigned number = ref_choose(ticket, ticket_length, stop, first, first_length, second,
                                 second_length, &chosen);

    ref_chosen_numbers(&chosen, numbers);
    if (number == 0)
        ref_fill_counts(numbers, REF_CHOSEN_NUMBERS, counts, counts_length);
    return number;
}
