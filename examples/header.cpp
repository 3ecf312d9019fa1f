// header.cpp - planner.h in C++: an empty ticket is refused with 1 by all three calls, whatever the stop; planner_why says what 1 means; and
// planner_references reads the one reference of case A.
#include <planner.h>

#include <string_view>

static const std::uint8_t case_a[] = {0x10, 0x20, 0x08, 0x00, 0x10, 0x00, 0x00};

int main()
{
    const bool plan = planner_plan(nullptr, 0, 0, nullptr, 0, nullptr, 0, nullptr, 0) == PLANNER_TICKET_ENDS;
    const bool check = planner_check(nullptr, 0, 1, nullptr, 0, nullptr, 0) == PLANNER_TICKET_ENDS;
    const bool choose = planner_choose(nullptr, 0, SIZE_MAX, nullptr, 0, nullptr, 0, nullptr, 0) == PLANNER_TICKET_ENDS;
    const std::string_view why = planner_why(PLANNER_TICKET_ENDS);
    const bool references = planner_references(nullptr, 0) == 0 && planner_references(case_a, sizeof case_a) == 1;

    return plan && check && choose && references && why == "the ticket ends inside a field that is due" ? 0 : 1;
}
