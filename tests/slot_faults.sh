# slot_faults.sh - programs `cases` and `slots` with a fault, each of which the test of slot counts must catch.
#
# usage: sh slot_faults.sh BUILD     (program_faults.sh says what BUILD has)
cd "$(dirname "$0")" || exit 2
test=slots program=slots count=200
. ./program_faults.sh

another='cases gives another answer'
prints='slots prints other than the reference'
in_least='/^static unsigned least_slots/,/^}/'
in_slots='/^unsigned ref_slots/,/^}/'
in_program='/^static void slots/,/^}/'
in_digits='/^static bool read_digits/,/^}/'
in_reading='/^unsigned ref_read_ticket/,/^}/'
in_answer='/^static void answer_slots/,/^}/'
again='ref_run(\&job, REF_P_MIN, schedule, \&counts);'

# enough EXPRESSION - the script that has a count be enough where this holds.
enough() {
    printf '%ss/^        if \\(counts->charged <= wanted\\)/        if (%s)/' "$in_least" "$1"
}

# before_run TEXT, before_sheet TEXT - the scripts that have this come before a count is tried, and before the sheet of one is written.
before_run() {
    printf '%ss/^        ref_run\\(/        %s\\n&/' "$in_least" "$1"
}
before_sheet() {
    printf '%ss/^    length = /    %s\\n&/' "$in_slots" "$1"
}

# after_reading TEXT - the script that has this come before a refusal by ticket or stop.
after_reading() {
    printf '%ss/^    if \\(number != 0\\)$/    %s\\n&/' "$in_slots" "$1"
}

# Which counts are tried
fault 'from 2' "$another" "${in_least}s/unsigned s = 1;/unsigned s = 2;/"
fault "from the ticket's own" "$another" "${in_least}s/unsigned s = 1;/unsigned s = job->slots[d];/"
fault "up to the ticket's own" "$another" "${in_least}{s/^    unsigned carried = .*/&\\n    unsigned own = job->slots[d];/;s/s <= REF_SLOTS/s <= own/}"
fault 'up to 63' "$another" "${in_least}s/s <= REF_SLOTS/s < REF_SLOTS/"
fault 'powers of two' "$another" "${in_least}s/s\\+\\+\\)/s *= 2)/"
for slots in 25 33 37 57; do
    fault "$slots is left out" "$another" "${in_least}s/if \\(s < carried\\)/if (s < carried || s == $slots)/"
done
fault 'the greatest for the least' "$another" "${in_least}s/unsigned s = 1; s <= REF_SLOTS; s\\+\\+/unsigned s = REF_SLOTS; s >= 1; s--/"
fault 'below the blocks carried in' "$another" "${in_least}s/if \\(s < carried\\)/if (false)/"
fault 'from one above the blocks carried in' "$another" "${in_least}s/if \\(s < carried\\)/if (s <= carried)/"
fault 'not below the blocks that disk 0 carries in' "$another" "${in_least}s/carried_on\\(job, d\\)/carried_on(job, 0)/"
fault 'none where 64 blocks are carried in' 'cases .*none' "${in_least}s/if \\(s < carried\\)/if (s < carried || carried == REF_SLOTS)/"

# Which rounds are enough
fault 'one round more' "$another" "$(enough 'counts->charged <= wanted + (wanted < SIZE_MAX)')"
fault 'one round less' "$another" "$(enough 'counts->charged < wanted')"
fault 'less than one more, which is 0 for the largest' 'cases .*none' "$(enough 'counts->charged < wanted + 1')"
fault 'none for no rounds' 'cases .*none' "$(enough 'wanted > 0 \&\& counts->charged <= wanted')"
fault '16 bits of the wanted rounds' "$another" "$(enough 'counts->charged <= (uint16_t)wanted')"
fault '32 bits of the wanted rounds' "$another" "$(enough 'counts->charged <= (uint32_t)wanted')"
fault 'by the fetches of the disk' "$another" "$(enough 'counts->fetches[d] <= wanted')"
fault 'by P-CON' "$another" "${in_least}s/REF_P_MIN/REF_P_CON/;$(before_sheet "$again")"
fault 'up to N' "$another" "$(before_run 'job->stop = job->references;')"
fault 'with as many slots on the other disks' "$another" "$(before_run 'for (unsigned e = 0; e < job->disks; e++) job->slots[e] = s;')"
fault 'with 64 slots on the other disks' "$another" "$(before_run 'for (unsigned e = 0; e < job->disks; e++) job->slots[e] = e == d ? s : REF_SLOTS;')"
fault 'the disk starts empty' "$another" "$(before_run 'for (unsigned b = 0; b < job->blocks; b++) if (job->disk[b] == d) job->carried[b] = false;')"

# The answer, and its sheet
fault '64 for none' 'reference .*none' "${in_least}s/^    return 0;/    return REF_SLOTS;/"
fault 'one more than the least' "$another" "${in_least}s/return s;/return s + (s < REF_SLOTS);/"
fault "the sheet for the ticket's own slots" "$another" \
    "${in_slots}s/^    slots = .*/    unsigned own = job.slots[disk];\\n&/;$(before_sheet "job.slots[disk] = own; $again")"
fault 'the sheet of P-CON' "$another" "$(before_sheet 'ref_run(\&job, REF_P_CON, schedule, \&counts);')"
fault 'the sheet up to N' "$another" "$(before_sheet "job.stop = job.references; $again")"
fault 'the sheet without its last round' "$another" "$(before_sheet 'counts.charged -= counts.charged > 0;')"
fault 'the last byte of the sheet not given' "$another" "${in_slots}s/out->length = length;/out->length = length - 1;/"
fault 'a byte past the sheet changed' "$another" "${in_slots}s/^    out->slots = slots;/&\\n    if (length < room) sheet[length] = 0;/"
fault 'a byte written for none' "$another" "${in_slots}s/^    if \\(slots == 0\\)/    if (slots == 0 \\&\\& room > 0) sheet[0] = 0;\\n&/"
fault 'a byte written by 17' "$another" "${in_slots}s/^    if \\(length > room\\)/    if (length > room \\&\\& room > 0) sheet[0] = 0;\\n&/"
fault 'a byte written by 27' "$another" "${in_slots}s/^    if \\(disk >= job.disks\\)/    if (disk >= job.disks \\&\\& room > 0) sheet[0] = 0;\\n&/"

# The numbers and their order
fault 'exact room refused' 'cases     17' "${in_slots}s/length > room\\)/length >= room)/"
fault 'a byte less than the sheet accepted' 'reference 17' "${in_slots}{s/sheet, room\\);/sheet, room + 1);/;s/length > room\\)/length > room + 1)/}"
fault '17 before none' 'cases     17' "${in_slots}{/^    if \\(slots == 0\\)/{n;s/return 0;/return room == 0 ? 17 : 0;/}}"
fault '17 before 27' 'cases     17' "${in_slots}s/return 27;/return room == 0 ? 17 : 27;/"
fault 'none before 27' 'cases     0 none' "${in_slots}s/return 27;/return wanted == 0 ? 0 : 27;/"
fault 'none for 17' 'reference 17' "${in_slots}s/return 17;/return 0;/"
fault 'a disk of D accepted' 'reference 27' "${in_slots}s/disk >= job.disks\\)/disk > job.disks || disk >= REF_DISKS)/"
fault 'the last disk refused' 'cases     27' "${in_slots}s/disk >= job.disks\\)/disk >= job.disks - 1)/"
fault '8 bits of the disk' 'reference 27' "${in_slots}s/^    memset\\(out.*/&\\n    disk = (uint8_t)disk;/"
fault '16 bits of the disk' 'reference 27' "${in_slots}s/^    memset\\(out.*/&\\n    disk = (uint16_t)disk;/"
fault '32 bits of the disk' 'reference 27' "${in_slots}s/^    memset\\(out.*/&\\n    disk = (uint32_t)disk;/"
fault 'the largest disk is disk 0' 'reference 27' "${in_slots}s/^    memset\\(out.*/&\\n    disk = disk == SIZE_MAX ? 0 : disk;/"
fault 'the next disk' "$another" "${in_slots}s/^    slots = /    disk = (disk + 1) % job.disks;\\n&/"
for number in 1 2 3 4 5 6 7 25 26 8 21; do
    fault "27 before $number" 'cases     27' "$(after_reading "if (number == $number \\&\\& disk > REF_DISKS) return 27;")"
done
fault '17 before 21' 'cases     17' "$(after_reading 'if (number == 21 \&\& room == 0) return 17;')"
fault 'none before 21' 'cases     0 none' "$(after_reading 'if (number == 21 \&\& wanted == 0) return 0;')"
fault 'a stop above N is N' 'reference 21' "${in_reading}s/return 21;/stop = job->references;/"
fault 'a stop of N refused' 'cases     21' "${in_reading}s/stop > job->references/stop >= job->references/"

# The program `cases` alone
fault 'count and length exchanged' "$another" "${in_answer}s/slotted.slots, slotted.length\\), /(unsigned)slotted.length, (size_t)slotted.slots), /"
fault 'nothing for none' "$another" "${in_answer}s/\" none\"/\"\"/"
fault 'the sheet without its last byte' "$another" "${in_answer}s/^                     slotted.length\\);/                     slotted.length - 1);/"
fault 'another call' 'does not repeat the call' 's/printf\("%s = %s.n", line, text\)/printf("plan%s = %s\\n", line + 4, text)/'
fault 'something on standard error' 'cases writes to standard error' 's/^        cases\(\);/&\n    if (argc == 1) fputs("done\\n", stderr);/'
fault 'it ends in the middle' 'ends without an answer' 's/printf\("%s = %s.n", line, text\)/if (strlen(text) > 500) return; else &/'

# The program `slots` alone
fault 'no line feed after a count' "$prints" "${in_program}s/\"slots %u.n\"/\"slots %u\"/"
fault 'no line feed after none' "$prints" "${in_program}s/\"none.n\"/\"none\"/"
fault 'no line feed after a refusal' "$prints" "${in_program}s/\"refused %u.n\"/\"refused %u\"/"
fault 'no line feed after the usage' "$prints" "${in_program}s/TICKET.n/TICKET/"
fault 'a count of 0 for none' "$prints" "${in_program}s/slotted.slots == 0/false/"
fault 'another number' "$prints" "${in_program}s/\"refused %u.n\", number/\"refused %u\\\\n\", number == 27 ? 21 : number/"
fault 'room for all sheets but long ones' "$prints" "${in_program}s/sheet, REF_SHEET, /sheet, 5000, /"
fault 'no reference counts' "$prints" "${in_program}s/ref_references\\(ticket, n\\)/0/"
fault 'all references but one count' "$prints" "${in_program}s/ref_references\\(ticket, n\\)/(ref_references(ticket, n) + 4095) % 4096/"
fault 'disk and rounds exchanged' "$prints" "${in_program}s/disk, wanted, sheet/wanted, disk, sheet/"
fault 'a longer input cut to the longest ticket' "$prints" "${in_program}s/ticket\\[REF_TICKET \\+ 1\\]/ticket[REF_TICKET]/"
fault 'a longer input read to the end' 'reads 103090 bytes' "${in_program}s/^    number = /    while (getchar() != EOF)\\n        ;\\n&/"
fault 'one read only' "$prints" "s/^#include <stdio.h>/&\\n#include <unistd.h>/;${in_program}s/^    n = fread.*/    n = (size_t)read(0, ticket, sizeof ticket);/"
fault 'the ticket read before the usage' "$prints, or reads [1-9]" "${in_program}s/^    if \\(arguments != 2/    setvbuf(stdin, NULL, _IONBF, 0), getchar();\\n&/"
fault 'something on standard error' 'slots writes to standard error' "${in_program}s/^    number = .*/&\\n    fputs(\"done\\\\n\", stderr);/"
fault 'something on standard error beside the usage' 'slots writes to standard error' \
    "${in_program}s/^        printf\\(\"usage.*/&\\n        fputs(\"usage\\\\n\", stderr);/"
fault 'a status that is not 0' 'slots ends with status 3' 's/^        slots\(argc - 1, argv \+ 1\);/        return slots(argc - 1, argv + 1), 3;/'
fault 'a status that is not 0 for the usage' 'slots ends with status 2' 's/^        slots\(argc - 1, argv \+ 1\);/        return slots(argc - 1, argv + 1), argc == 3 ? 0 : 2;/'

# Its arguments
fault 'one argument taken for two' "$prints" "${in_program}s/arguments != 2 \\|\\|/arguments < 1 || (arguments == 1 \\&\\& (argument[1] = argument[0]) == NULL) ||/"
fault 'a third argument not looked at' "$prints" "${in_program}s/arguments != 2/arguments < 2/"
fault 'no digits taken as 0' "$prints" "${in_digits}s/length > 0 \\&\\& //"
fault 'what follows the digits not looked at' "$prints" "${in_digits}s/ \\&\\& text\\[length\\] == '.0'//"
fault 'a blank before the digits taken' "$prints" "${in_digits}s/^    size_t length = /    text += text[0] == ' ';\\n&/"
fault 'a sign before the digits taken' "$prints" "${in_digits}s/^    size_t length = /    text += text[0] == '+';\\n&/"
fault 'a slash is a digit' "$prints" "${in_digits}s/\"0123456789\"/\"\\/0123456789\"/"
fault 'a colon is a digit' "$prints" "${in_digits}s/\"0123456789\"/\"0123456789:\"/"
fault 'zeros in front refused' "$prints" "${in_digits}s/^    return length > 0 /    return length > 0 \\&\\& (length == 1 || text[0] != '0') /"
fault 'zeros in front are octal' "$prints" "${in_digits}s/10 \\* \\*number/(text[0] == '0' ? 8 : 10) * *number/"
fault '64 bits of a number' "$prints" "${in_digits}s/\\*number = \\*number > .*/*number = 10 * *number + digit;/"
fault '32 bits of a number' "$prints" "${in_digits}s/^    return length/    *number = (uint32_t)*number;\\n&/"
fault 'a number past 64 bits refused' "$prints" "${in_digits}s/^        \\*number = /        if (*number > (SIZE_MAX - digit) \\/ 10)\\n            return false;\\n&/"
fault '4,096 digits refused' "$prints" "${in_digits}s/length <= MOST_DIGITS/length < MOST_DIGITS/"
fault '4,097 digits taken' "$prints" "${in_digits}s/length <= MOST_DIGITS/length <= MOST_DIGITS + 1/"

echo "$tried faults of slots, $missed not caught"
[ "$missed" -eq 0 ]
