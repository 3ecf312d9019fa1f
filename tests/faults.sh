# faults.sh - libraries with a fault, each of which the differential test must catch.
#
# usage: sh faults.sh BUILD     (BUILD has differential.o, draw.o, chance.o and reference.o)
# A library here is standin.c over reference.c, both changed by a sed script, in BUILD/fault; or planner.h is changed.
cd "$(dirname "$0")" || exit 2
cc=${CC:-cc}
build=$1
dir=$build/fault
missed=0
tried=0

# build SCRIPT [REFERENCE [TEST [DRAW]]] - the differential test, linked with the changed library.
build() {
    rm -rf "$dir" && mkdir -p "$dir" || exit 2
    sed -E "$1" reference/reference.c >"$dir/reference.c"
    sed -E "$1" standin.c >"$dir/standin.c"
    $cc -std=c11 "-I$dir" -Ireference -I../include -c "$dir/standin.c" -o "$dir/standin.o" &&
        $cc "${3:-$build/differential.o}" "${4:-$build/draw.o}" "$build/chance.o" "${2:-$build/reference.o}" \
            "$dir/standin.o" -o "$dir/differential"
}

# verdict NAME WORDS - the test must fail, and say these words.
verdict() {
    timeout 60 "$dir/differential" 1 2000 >"$dir/report" 2>&1
    if [ $? -ne 1 ] || ! grep -q "$2" "$dir/report"; then
        echo "MISSED  $1"
        missed=$((missed + 1))
    fi
}

# fault NAME WORDS SCRIPT
fault() {
    tried=$((tried + 1))
    if ! build "$3" || { cmp -s reference/reference.c "$dir/reference.c" && cmp -s standin.c "$dir/standin.c"; }; then
        echo "BROKEN  $1"
        missed=$((missed + 1))
    else
        verdict "$1" "$2"
    fi
}

# both NAME WORDS SCRIPT - the same wrong reference on both sides: they agree, and a promise does not hold.
both() {
    tried=$((tried + 1))
    rm -rf "$dir.both" && mkdir -p "$dir.both" && sed -E "$3" reference/reference.c >"$dir.both/reference.c" || exit 2
    if cmp -s reference/reference.c "$dir.both/reference.c" ||
        ! $cc -std=c11 -Ireference -c "$dir.both/reference.c" -o "$dir.both/reference.o" || ! build "$3" "$dir.both/reference.o"; then
        echo "BROKEN  $1, on both sides"
        missed=$((missed + 1))
    else
        verdict "$1, on both sides" "$2"
    fi
}

# header NAME WORDS SCRIPT - planner.h changed, and the test compiled with it.
header() {
    tried=$((tried + 1))
    rm -rf "$dir.header" && mkdir -p "$dir.header" && sed -E "$3" ../include/planner.h >"$dir.header/planner.h" || exit 2
    if cmp -s ../include/planner.h "$dir.header/planner.h" ||
        ! $cc -std=c11 "-I$dir.header" -c differential.c -o "$dir.header/differential.o" ||
        ! build '' "$build/reference.o" "$dir.header/differential.o"; then
        echo "BROKEN  $1, in the header"
        missed=$((missed + 1))
    else
        verdict "$1, in the header" "$2"
    fi
}

# undrawn NAME WORDS SCRIPT - draw.c changed, and a library without a fault: the test must fail at its end, and have these words in what it met.
undrawn() {
    tried=$((tried + 1))
    rm -rf "$dir.draw" && mkdir -p "$dir.draw" && sed -E "$3" draw.c >"$dir.draw/draw.c" || exit 2
    if cmp -s draw.c "$dir.draw/draw.c" || ! $cc -std=c11 -I. -c "$dir.draw/draw.c" -o "$dir.draw/draw.o" ||
        ! build '' "$build/reference.o" "$build/differential.o" "$dir.draw/draw.o"; then
        echo "BROKEN  $1, in the draws"
        missed=$((missed + 1))
    else
        verdict "$1, in the draws" "$2"
    fi
}

# Without a fault it agrees; but one job does not meet all that must be met.
build '' && "$dir/differential" 1 1000 >"$dir/report" || { cat "$dir/report"; echo "a library without a fault is not passed"; exit 1; }
"$dir/differential" 1 1 >"$dir/report"
[ $? -eq 1 ] && grep -q '^FAIL' "$dir/report" || { echo "one job is taken for enough"; exit 1; }

# A plan that does not end is cut at N rounds: its sheet is then too long for the room. A look for the next reference that goes back is cut too.
at_most_n='s/(begin\(job, &r\); r.next_read < job->stop)(; schedule)/\1 \&\& counts->charged < job->stop\2/
    s/while \(from_u < l->distance\[v.u\]\)/while (from_u < l->distance[v.u] \&\& l->next[from_u] > from_u)/'

fault '14 not tested' 'reference 14' 's/return 14;/return 0;/'
fault '20 not tested' 'number: library [01].*, reference 20' 's/return 20;/;/'
fault '20 tested after the discarded block' 'number: library \(9\|14\), reference 20' \
    's/^        return 20;/        ;/;s/^    a->discard = /    if (s->held[d] < job->slots[d]) return 20;\n&/'
fault '20 where the fetch leaves a slot empty' 'number: library [01].*, reference 20' \
    '/^static unsigned check_action/,/^}/s/^    if \(s->held\[d\] < /    if (s->held[d] + 1u < /'
fault '20 where the slots are full' 'number: library 20, reference 0' \
    '/^static unsigned check_action/,/^}/s/^    if \(s->held\[d\] < /    if (s->held[d] >= /'
fault 'unfinished sheets pass' 'number: library 0, reference 15' 's/return 15;/return 0;/'
fault 'lowest number among several nevers' 'DISAGREE: s' 's/(distance\[b\] )>=( l->distance\[v->min_block)/\1>\2/'
fault 'P-CON never waits' 'DISAGREE' 's/rule == REF_P_CON && waits/false \&\& waits/'
fault 'positions in eight bits' 'number: library 17, reference 0\|DISAGREE: short sheet' "/^static void build_lookup/,/^}/s/\\(uint16_t\\)/(uint8_t)/;$at_most_n"
fault 'the position 2048 held as 0' 'number: library 17, reference 0' "s/\\(uint16_t\\)job->stop/(uint16_t)(job->stop % 2048)/;$at_most_n"
fault 'the mark of equal rounds, on several disks' 'DISAGREE: counts' \
    's/p->mark = choice\(p->counts\)/p->mark = drawn->job.disks > 1 ? p->counts[1].charged < p->counts[0].charged : choice(p->counts)/'
fault '18 tested before 17' 'number: library 18, reference 17' \
    's/p->sheet_length\[k\] > room\[k\]/p->sheet_length[1 - k] > room[1 - k]/;s/return 17 \+ k/return 18 - k/'
fault 'exact room refused' 'number: library 17, reference 0' 's/p->sheet_length\[k\] > room/p->sheet_length[k] >= room/'
fault 'short sheet written although 18' 'DISAGREE: short sheet' \
    '/^unsigned ref_plan/,/^}/s/^    if \(number != 0\)$/    if (number == 18) ref_write_sheet(drawn.schedule[0], drawn.planned.counts[0].charged, drawn.job.disks, p_min, ns);\n&/'
fault 'a byte past the sheet changed' 'DISAGREE: s' \
    '/^size_t ref_write_sheet/,/^}/s/memset\(buf, 0, len\)/memset(buf, 0, len < room ? len + 1 : len)/'
fault 'a byte past the lent buffer changed' '(a guard)\|STOPPED' \
    '/^size_t ref_write_sheet/,/^}/s/memset\(buf, 0, len\)/memset(buf, 0, len == room ? len + 1 : len)/'
fault 'a byte before the counts changed' '(a guard)' '/^uint32_t planner/,/^}/s/^    return number;/    if (counts_length > 0) counts[-1] ^= 1;\n&/'
fault 'a byte past the ticket read' 'STOPPED' \
    '/^static unsigned read_fields/,/^}/s/^(    struct reader r = \{ticket, n, 0\});/\1;\n    if (n > 0 \&\& ((const volatile uint8_t *)ticket)[n] == 255) job->disks = 1;/'
fault 'a null counts slice read' 'STOPPED' \
    '/^uint32_t planner/,/^}/s/^    return number;/    if (counts == NULL \&\& *(volatile uint8_t *)counts == 0) return 1;\n&/'
fault 'the ticket changed' 'DISAGREE: ticket' \
    '/^uint32_t planner/,/^}/s/^    return number;/    if (ticket_length > 0) ((uint8_t *)ticket)[0] ^= 1;\n&/'
fault 'counts written by a refusal' 'DISAGREE: counts' '/^uint32_t planner/,/^}/s/if \(number == 0\)$/if (number != 99)/'
fault 'a number cut in the middle left out' 'DISAGREE: counts' 's/k < len && k < 2/k < len - len % 2 \&\& k < 2/'
fault 'counts past the numbers zeroed' 'DISAGREE: counts' \
    's/^        ref_fill_counts\(numbers, REF_(.*)_NUMBERS, .*/&\n    for (size_t k = 2 * REF_\1_NUMBERS; number == 0 \&\& k < counts_length; k++)'\
'\n        counts[k] = 0;/'

# The choice
second_first='s/sheet\[k\], len\[k\], &counts\[k\]/sheet[1 - k], len[1 - k], \&counts[1 - k]/'
second_forgiven='s/(number == 0 && k < 2); k\+\+/\1; number *= 1 - k, k++/'
fault 'a tie goes to the first' 'DISAGREE: counts' 's/out->which = choice\(counts\)/out->which = counts[1].charged < counts[0].charged/'
fault 'the second checked first' 'DISAGREE: number' "$second_first"
fault 'a failure of the second forgiven' 'number: library 0, reference' "$second_forgiven"
fault "the other sheet's length" 'DISAGREE: counts' 's/len\[out->which\]/len[1 - out->which]/'
fault 'the same memory refused' 'number: library 16, reference 0' \
    '/^uint32_t planner_choose/,/^}/s/^    return number;/    if (number == 0 \&\& first == second) return 16;\n&/'
fault 'the second sheet changed' 'DISAGREE: second sheet' \
    '/^uint32_t planner_choose/,/^}/s/^    return number;/    if (second_length > 0 \&\& second != first) ((uint8_t *)second)[0] ^= 1;\n&/'
fault 'a byte past the second sheet read' 'STOPPED' \
    '/^uint32_t planner_choose/,/^}/s/^    return number;/    if (second != NULL \&\& ((const volatile uint8_t *)second)[second_length] == 255) return 9;\n&/'
fault 'counts written by a refused choice' 'DISAGREE: counts' '/^uint32_t planner_choose/,/^}/s/if \(number == 0\)$/if (number != 99)/'
fault 'counts past the two numbers zeroed' 'DISAGREE: counts' \
    '/^uint32_t planner_choose/,/^}/s/^    return number;/    for (size_t k = 4; number == 0 \&\& k < counts_length; k++)\n        counts[k] = 0;\n&/'

# The stop
in_reading='/^unsigned ref_read_ticket/,/^}/'
in_lookup='/^static void build_lookup/,/^}/'
no_never="${in_lookup}s/job->stop/job->references/;/^static void survey/,/^}/s/job->stop/job->references/"

# counted EXPRESSION - the script that has so many references count.
counted() {
    printf '%ss/^    job->stop = .*/    job->stop = %s;/' "$in_reading" "$1"
}

# refused EXPRESSION - the script that has 21 returned where this holds; else a stop above N is N.
refused() {
    printf '%s{s/^    if \\(stop > job->references\\)/    if (%s)/;s/= \\(unsigned\\)stop;/= stop < job->references ? (unsigned)stop : job->references;/}' \
        "$in_reading" "$1"
}

# first_of NUMBER - the script that has 21 tested before this number of the ticket.
first_of() {
    printf '%ss/^    if \\(number != 0\\)$/    if (number == %s \\&\\& stop > ref_references(ticket, n)) return 21;\\n&/' "$in_reading" "$1"
}

# before FUNCTION CONDITION NUMBER - the script that has this number come before 21 in the function.
before() {
    printf '/^unsigned %s/,/^}/s/^    memset\\(out, 0, .*/&\\n    if (number == 21 \\&\\& %s) return %s;/' "$1" "$2" "$3"
}

fault 'the stop not looked at' 'DISAGREE' "$(counted 'job->references')"
fault 'the reference at the stop counts too' 'DISAGREE' "$(counted '(unsigned)stop + (stop < job->references)')"
fault 'the last reference before the stop does not count' 'DISAGREE' "$(counted '(unsigned)stop - (stop > 0)')"
fault 'a stop of 0 is the whole job' 'DISAGREE' "$(counted 'stop > 0 ? (unsigned)stop : job->references')"
fault 'no stop refused' 'reference 21' "$(refused false)"
fault 'a stop of N + 1 accepted' 'reference 21' "$(refused 'stop > job->references + 1')"
fault 'a stop above 2048 alone refused' 'reference 21' "$(refused 'stop > REF_REFERENCES')"
fault 'the largest stop accepted' 'reference 21' "$(refused 'stop > job->references \&\& stop != SIZE_MAX')"
fault 'a stop of N refused' 'number: library 21, reference' "$(refused 'stop >= job->references')"
fault 'a reference past the stop is no never' 'DISAGREE' "$no_never"
fault 'the min-block by references past the stop' 'DISAGREE: s' "${in_lookup}s/job->stop/job->references/"
fault 'planning up to N' 'DISAGREE' '/^static unsigned draw_up/,/^}/s/^        ref_run\(/        drawn->job.stop = drawn->job.references;\n&/'
fault 'the check up to N' 'number: library 15, reference 0\|DISAGREE: counts' '/^unsigned ref_check/,/^}/s/number = check_sheet/job.stop = job.references, &/'
for k in 0 1; do
    fault "sheet $k of a choice up to N" 'number: library 15, reference 0' \
        "/^unsigned ref_choose/,/^}/s/number = check_sheet/job.stop = k == $k ? job.references : (unsigned)stop, &/"
done
for call in plan check choose; do
    for bits in 16 32; do
        fault "$bits bits of the stop in planner_$call" 'reference 21' \
            "/^uint32_t planner_$call/,/^}/s/ticket_length, stop,/ticket_length, (uint${bits}_t)stop,/"
    done
done
fault '21 tested before 1' 'number: library 21, reference 1$' "$(first_of 1)"
fault '21 tested before 8' 'number: library 21, reference 8' "$(first_of 8)"
fault '21 tested before 25' 'number: library 21, reference 25' "$(first_of 25)"
fault '21 tested before 26' 'number: library 21, reference 26' "$(first_of 26)"
fault '21 tested after 17' 'number: library 17, reference 21' "$(before ref_plan 'ns < 2' 17)"
fault '21 tested after 18' 'number: library 18, reference 21' "$(before ref_plan 'np < 2' 18)"
fault '21 tested after 9' 'number: library 9, reference 21' "$(before ref_check 'm < 2' 9)"
fault '21 tested after 9 of the first sheet' 'number: library 9, reference 21' "$(before ref_choose 'm1 < 2' 9)"
fault '21 tested after 9 of the second sheet' 'number: library 9, reference 21' "$(before ref_choose 'm2 < 2' 9)"

# The rounds charged
in_rounds='/^static unsigned check_rounds/,/^}/'
written_1='(first[0] << 4 | first[1] >> 4)' written_2='(second[0] << 4 | second[1] >> 4)'

# charged EXPRESSION - the script that has the check give this for the rounds charged; counts->charged is the right number.
charged() {
    printf '%ss/^    return closes\\(r\\) .*/    counts->charged = (uint16_t)(%s);\\n&/' "$in_rounds" "$1"
}

# counted_late EXPRESSION - the script that has a fetch after the last reference counted where this holds.
counted_late() {
    printf '%ss/\\+= a.fetch != REF_NONE/+= a.fetch != REF_NONE \\&\\& (left || (%s))/' "$in_rounds" "$1"
}

# chosen EXPRESSION - the script that has the second sheet handed back where this holds.
chosen() {
    printf 's/out->which = choice\\(counts\\)/out->which = %s/' "$1"
}

# all_of SHEET ROUNDS - the script that has these rounds of a sheet of a choice, 0 or 1, charged.
all_of() {
    printf '/^unsigned ref_choose/,/^}/s/number = check_sheet\\(.*\\);/&\\n    if (number == 0) counts[%s].charged = (uint16_t)%s;/' "$1" "$2"
}
busy="${in_rounds}{s/^        bool left = .*/&\\n        bool busy = false;/;s/^            counts->fetches.*/&\\n            busy = busy || a.fetch != REF_NONE;/}"
one_early=$(charged 'counts->charged - (counts->charged > 0)')
reading_rounds="${in_rounds}{s/bool left = .*/unsigned before = next_read;/;s/^        if \\(left \\&\\& .*/        if (next_read > before)/;s/= \\(uint16_t\\)round;/+= 1;/}"
read_whole='while (whole < job->references \&\& s.resident[job->reference[whole]]) whole++;'
past_charged="${in_rounds}{s/^    unsigned next_read = start.*/&\\n    unsigned whole = next_read;\\n    $read_whole/
    s/^        if \\(left \\&\\& .*/        left = whole < job->references \\&\\& s.resident[job->reference[whole]];\\n/
    s/^            counts->charged = .*/        $read_whole\\n        if (left)\\n&/}"
fault 'all rounds written are charged, as before L7' 'DISAGREE: counts' "$(charged written)"
fault 'one round more is charged, where one is written' 'DISAGREE: counts' "$(charged 'counts->charged + (counts->charged < written)')"
fault 'one round less is charged' 'DISAGREE: counts' "$one_early"
fault 'none charged only where none is written' 'DISAGREE: counts' "$(charged 'job->stop == 0 ? written : counts->charged')"
fault 'no references are charged, but for a stop of 0 none' 'DISAGREE: counts' "$(charged 'job->references == 0 ? written : counts->charged')"
fault 'a stop of 0 is charged, if there are references' 'DISAGREE: counts' "$(charged 'job->stop == 0 \&\& job->references > 0 ? written : counts->charged')"
fault 'charged up to the last round in which a disk fetches' 'DISAGREE: counts' "$busy
    ${in_rounds}s/^        if \\(left \\&\\& .*/        if (busy)/"
fault 'rounds in which no disk fetches not charged' 'DISAGREE: counts' "$busy
    ${in_rounds}{s/^        if \\(left \\&\\& .*/        if (left \\&\\& busy)/;s/= \\(uint16_t\\)round;/+= 1;/}"
fault 'rounds in which nothing is consumed not charged' 'DISAGREE: counts' "$reading_rounds"
fault 'charged up to references past the stop' 'DISAGREE: counts' "$past_charged"
fault 'the last eight bits of the rounds charged' 'DISAGREE: counts' "$(charged 'counts->charged \& 255')"
fault 'fetches counted to the last reference only' 'DISAGREE: counts' "$(counted_late false)"
fault 'fetches after the last reference counted into empty slots only' 'DISAGREE: counts' "$(counted_late 'a.discard == REF_NONE')"
fault 'fetches after the last reference counted on disk 0 only' 'DISAGREE: counts' "$(counted_late 'd == 0')"
fault 'rounds after the last reference not read' 'number: library 16, reference 0' "${in_rounds}s/^        bool left = .*/&\\n        if (!left) break;/"
fault 'rounds after the last reference refused' 'number: library 15, reference 0' "${in_rounds}s/^        bool left = .*/&\\n        if (!left) return 15;/"
for number in 11 12 13 14 20; do
    fault "$number not tested after the last reference" "number: library .*, reference $number" \
        "${in_rounds}s/^            if \\(number != 0\\)/            if (number == $number \\&\\& !left) number = 0, a = (struct ref_action){REF_NONE, REF_NONE};\\n&/"
done
fault '9 not tested after the last reference' 'number: library 0, reference 9' \
    "${in_rounds}s/^            if \\(number != 0\\)/            if (number == 9 \\&\\& !left) return 0;\\n&/"
fault '16 not tested where rounds follow the last reference' 'number: library 0, reference 16' \
    "${in_rounds}s/return closes\\(r\\) \\? 0 : 16/return counts->charged < written || closes(r) ? 0 : 16/"
fault 'chosen by the rounds written' 'DISAGREE: counts' "$(chosen "$written_2 <= $written_1")"
fault 'a tie goes to the sheet with no more rounds written' 'DISAGREE: counts' \
    "$(chosen "counts[1].charged < counts[0].charged || (counts[1].charged == counts[0].charged \\&\\& $written_2 <= $written_1)")"
fault 'all rounds of the first sheet of a choice are charged' 'DISAGREE: counts' "$(all_of 0 "$written_1")"
fault 'all rounds of the second sheet of a choice are charged' 'DISAGREE: counts' "$(all_of 1 "$written_2")"

# Blocks carried in
in_carried='/^static unsigned read_carried/,/^}/'
in_start='/^static unsigned start/,/^}/'
in_begin='/^static void begin/,/^}/'
in_survey='/^static void survey/,/^}/'
none_carried="${in_start}s/if \\(job->carried\\[b\\]\\)/if (false)/"
not_held="${in_start}s/^            s->held.*/            ;/"
nothing_read="${in_start}s/return consume\\(job, s, 0\\);/return 0;/"
each_carried='for (unsigned d = 0; d < job->disks; d++) counts->fetches[d] += carried_on(job, d);'
round_for_reading="/^void ref_run/,/^}/s/^        play_round\\(.*/        if (counts->charged == 0 \\&\\& r.next_read > 0) {\\n\
            memset(schedule, 0xff, job->disks * sizeof *schedule);\\n            schedule += job->disks;\\n            counts->charged++;\\n        }\\n&/"

# late NUMBER WHERE - the script that has 25 or 26 tested later; WHERE is a script that returns late.
late() {
    printf 's/^static bool closes/static unsigned late;\\n\\n&/;%s{s/^    memset\\(job->carried.*/    late = 0;\\n&/;s/return %s;/late = late ? late : %s;/}\n%s' \
        "$in_carried" "$1" "$1" "$2"
}
after_list="${in_carried}s/^        \\}\$/&\\n        if (late != 0)\\n            return late;/"
after_closing="/^static unsigned read_fields/,/^}/s/return closes\\(&r\\) \\? 0 : 8/return closes(\\&r) ? late : 8/"

# starts_empty RULE - the script that has this plan, 0 or 1, start from empty buffers.
starts_empty() {
    printf '/^static unsigned draw_up/,/^}/s/^        ref_run\\(&drawn->job, /        struct ref_job other = drawn->job;\\n'\
'        if (k == %s) memset(other.carried, 0, sizeof other.carried);\\n        ref_run(\\&other, /' "$1"
}

# last_of BEFORE - the script that has the min-block be the last due of some blocks alone, if it can: b comes before the block that was found where
# this holds, whichever is due last.
last_of() {
    printf '%ss/^            if \\(v->min_block == REF_NONE \\|\\| (.*)\\)$/            if (v->min_block == REF_NONE || (%s != 0 ? %s > 0 : \\1))/' \
        "$in_survey" "$1" "$1"
}

fault 'a ticket without counts taken' 'reference 1$' "${in_carried}s/^        if \\(!field\\(r, 7, &count\\)\\)/        if (!field(r, 7, \\&count) \\&\\& (count = 0) > 0)/"
fault 'a count equal to the slots refused' 'number: library 25, reference' 's/count > job->slots\[d\]/count >= job->slots[d]/'
fault 'a count of one more than the slots taken' 'reference 25' 's/count > job->slots\[d\]/count > job->slots[d] + 1/'
fault "a count by disk 0's slots" 'number: library .*25' 's/count > job->slots\[d\]/count > job->slots[0]/'
fault 'a count above 64 alone refused' 'reference 25' 's/count > job->slots\[d\]/count > REF_SLOTS/'
fault 'equal numbers taken' 'reference 26' 's/least = v \+ 1;/least = v;/'
fault 'numbers in any order taken' 'reference 26' 's/v < least \|\| //'
fault 'block 0 refused as the first number' 'number: library 26, reference' 's/least = 0;  /least = 1;  /'
fault 'the numbers rise over all disks' 'number: library 26, reference' \
    's/^        unsigned count, v, least = 0;.*/        static unsigned least;\n        unsigned count, v;\n\n        least = d == 0 ? 0 : least;/'
fault 'a carried block of B taken' 'reference 26' "${in_carried}s/^            if \\(v < least/            if (v == job->blocks) v--;\\n&/"
fault 'a carried block of another disk taken' 'reference 26' "${in_carried}s/ \\|\\| job->disk\\[v\\] != d\\)/)/"
fault '26 for 25' 'number: library 26, reference 25' 's/return 25;/return 26;/'
fault '25 for 26' 'number: library 25, reference 26' 's/return 26;/return 25;/'
fault '25 tested after the numbers' 'reference 25' "$(late 25 "$after_list")"
fault '25 tested after 8' 'reference 25' "$(late 25 "$after_closing")"
fault '26 tested after the list' 'reference 26' "$(late 26 "$after_list")"
fault '26 tested after 8' 'reference 26' "$(late 26 "$after_closing")"
fault '25 for the end inside a count' 'number: library 25, reference 1$' "${in_carried}{/field\\(r, 7/{n;s/return 1;/return 25;/}}"
fault '26 for the end inside a number' 'number: library 26, reference 1$' "${in_carried}{/field\\(r, 9/{n;s/return 1;/return 26;/}}"
fault 'carried blocks are not in the buffers' 'DISAGREE' "$none_carried"
fault 'carried blocks are not in the buffers before a stop' 'DISAGREE' \
    "${in_start}s/if \\(job->carried\\[b\\]\\)/if (job->carried[b] \\&\\& job->stop == job->references)/"
fault 'carried blocks take no slot' 'DISAGREE' "$not_held"
fault 'carried blocks take slots of disk 0' 'DISAGREE' "${in_start}s/held\\[job->disk\\[b\\]\\]/held[0]/"
fault 'nothing is read before round 1' 'DISAGREE' "$nothing_read"
fault 'one reference is read before round 1' 'DISAGREE' "${in_start}s/return consume\\(job, s, 0\\);/return consume(job, s, 0) > 0;/"
fault 'distances from the first reference, though some are read' 'DISAGREE\|number: library 17' "${in_begin}s/^    keep_up.*/    ;/;$at_most_n"
fault 'P-MIN starts empty' 'DISAGREE' "$(starts_empty 0)"
fault 'P-CON starts empty' 'DISAGREE' "$(starts_empty 1)"
fault 'the check starts empty' 'DISAGREE' "${in_rounds}s/= start\\(job, &s\\);/= (memset(\\&s, 0, sizeof s), 0);/"
fault 'the check reads nothing before round 1' 'DISAGREE' "${in_rounds}s/= start\\(job, &s\\);/= (start(job, \\&s), 0);/"
for k in 0 1; do
    other="struct ref_job other = job;\\n        if (k == $k) memset(other.carried, 0, sizeof other.carried);"
    fault "sheet $k of a choice starts empty" 'in planner_choose' \
        "/^unsigned ref_choose/,/^}/s/^        number = check_sheet\\(&job,(.*)/        {\\n        $other\\n        number = check_sheet(\\&other,\\1\\n        }/"
done
fault 'a fetched block goes before any carried one' 'DISAGREE' "$(last_of '(job->carried[v->min_block] - job->carried[b])');$at_most_n"
fault 'of several nevers a carried one goes first' 'DISAGREE: s' \
    "$(last_of '(l->distance[b] == l->distance[v->min_block] ? job->carried[b] - job->carried[v->min_block] : 0)')"
fault '12 not tested for carried blocks' 'reference 12' '/^static unsigned check_action/,/^}/s/^    if \(s->resident\[v\]\)/    if (s->resident[v] \&\& !job->carried[v])/'
fault '14 for carried blocks' 'number: library 14, reference' \
    '/^static unsigned check_action/,/^}/s/ \|\| !s->resident\[v\]\)/ || !s->resident[v] || job->carried[v])/'
fault 'a carried block is a fetch in the check' 'DISAGREE: counts' "${in_rounds}s/^    unsigned next_read = .*/&\\n    $each_carried/"
fault 'a carried block is a fetch in the plans' 'DISAGREE: counts' "/^void ref_run/,/^}/s/^    memset\\(counts.*/&\\n    $each_carried/"
fault 'the reading before round 1 takes a round of a plan' 'DISAGREE' "$round_for_reading"
fault 'a sheet without rounds refused, though all is read before round 1' 'number: library 15, reference 0' \
    "${in_rounds}s/^    if \\(next_read < job->stop\\)/    if (next_read < job->stop || (written == 0 \\&\\& job->stop > 0))/"
fault 'all rounds charged where all is read before them' 'DISAGREE: counts' "$(charged 'counts->charged == 0 \&\& job->stop > 0 ? written : counts->charged')"

# From the carried blocks no sheet beats a plan, and a plan's sheet with rounds after it passes.
both 'the reading before round 1 takes a round of a plan' 'beats a plan (demand 3)\|other counts' "$round_for_reading"
both 'a carried block is a fetch in the plans' 'beats a plan (demand 3)\|other counts' "/^void ref_run/,/^}/s/^    memset\\(counts.*/&\\n    $each_carried/"
both 'all rounds charged where all is read before them' 'with rounds after it is refused, or has other counts' \
    "$(charged 'counts->charged == 0 \&\& job->stop > 0 ? written : counts->charged')"

# A plan's sheet with rounds after it is charged as the plan, and a plan is not beaten by rounds that are not charged.
both 'all rounds written are charged' 'with rounds after it is refused, or has other counts' "$(charged written)"
both 'none charged only where none is written' 'with rounds after it is refused, or has other counts' "$(charged 'job->stop == 0 ? written : counts->charged')"
both 'fetches counted to the last reference only' 'with rounds after it is refused, or has other counts' "$(counted_late false)"
both 'rounds after the last reference refused' 'is refused up to\|with rounds after it is refused, or has other counts' \
    "${in_rounds}s/^        bool left = .*/&\\n        if (!left) return 15;/"
both 'one round less is charged' 'beats a plan (demand 3)' "$one_early"
both 'rounds in which nothing is consumed not charged' 'beats a plan (demand 3)' "$reading_rounds"
both 'chosen by the rounds written' 'one with other rounds is handed back\|takes more rounds than the other' "$(chosen "$written_2 <= $written_1")"

# Demand 3: a sheet beats the wrong plan.
on_demand='if (view[d].u != REF_NONE \&\& r->l.distance[view[d].u] != before) view[d].u = REF_NONE;'
both 'demand-only fetching' 'beats a plan (demand 3)' "s/^    survey\\(.*/&\\nfor (unsigned d = 0; d < job->disks; d++) $on_demand/"

both 'a reference past the stop is no never' 'beats a plan (demand 3)' "$no_never"

# How long the sparing plan waits: its fetches stay, no sheet beats it, and both sides agree.
# idle_rounds CONDITION - the script that puts idle rounds into P-CON's schedule for as long as this holds of the job and of counts->charged.
idle_rounds() {
    printf '/^void ref_run/,/^}/s/^        play_round\\(.*/        while (rule == REF_P_CON \\&\\& job->stop < 2000 \\&\\& %s) {\\n'\
'            memset(schedule, 0xff, job->disks * sizeof *schedule);\\n            schedule += job->disks;\\n'\
'            counts->charged++;\\n        }\\n&/' "$1"
}
# With P-MIN of one round these make D + 1, by which the bound is pinned: D times and one more, or D + 1 times, would let them through.
d_idle=$(idle_rounds 'job->disks > 1 \&\& counts->charged < job->disks')
idle_on_one=$(idle_rounds 'job->disks == 1 \&\& counts->charged == 0')
marked_on_one='s/p->mark = choice\(p->counts\)/p->mark = drawn->job.disks > 1 \&\& choice(p->counts)/'
fault 'P-CON begins with an idle round, on one disk' 'takes other rounds than the short one\|number: library 18, reference 0' "$idle_on_one"
fault 'P-MIN marked on one disk' 'on one disk the short plan is marked' "$marked_on_one"
both 'P-CON begins with D idle rounds, on several disks' 'more than D times the rounds' "$d_idle"
both 'P-CON begins with an idle round, on one disk' 'takes other rounds than the short one' "$idle_on_one"
both 'P-MIN marked on one disk' 'on one disk the short plan is marked' "$marked_on_one"

# A sheet for a later stop passes up to an earlier one.
both 'no rounds after the stop is reached' 'is refused up to' \
    '/^static unsigned check_rounds/,/^}/s/^        next_read = consume.*/        if (next_read == job->stop \&\& next_read < job->references) return 15;\n&/'

# What is promised of the choice
both 'the second checked first' 'another number than the check' "$second_first"
both 'a failure of the second forgiven' 'another number than the check' "$second_forgiven"
both 'always the first' 'takes more rounds than the other' 's/out->which = choice\(counts\)/out->which = 0/'
both "always the second after the short plan's rounds" 'one with other rounds is handed back' \
    's/^    out->which = choice\(counts\);/    struct ref_action a[REF_ROUNDS * REF_DISKS];\n    struct ref_counts c;\n'\
'    ref_run(\&job, REF_P_MIN, a, \&c);\n    out->which = c.charged == counts[0].charged ? 1 : choice(counts);/'

# The number of references, as the header reads it
header 'N a bit too early' 'planner_references gives' 's/14 \+ 7 \* disks/13 + 7 * disks/'
header 'three bits of D' 'planner_references gives' 's/ticket_length, 0, 4\)/ticket_length, 1, 3)/'
header 'nine bits of B' 'planner_references gives' 's/4 \+ 7 \* disks, 10\)/5 + 7 * disks, 9)/'
header 'eleven bits of N' 'planner_references gives' 's/(14 \+ 7 .* \* blocks), 12\)/1 + \1, 11)/'
header 'the bits there are, where the bytes end' 'planner_references gives' 's/^            return 0;/            return value;/'
header 'one block is passed over too many' 'planner_references gives' 's/3 \* blocks, 12\)/3 * blocks + 3, 12)/'
header 'a byte past the ticket read' 'planner_references gives\|STOPPED' 's/bit \/ 8 >= ticket_length/bit \/ 8 > ticket_length/'

# Draws of no carried blocks, or not of every kind
in_drawing='/^static void draw_carried/,/^}/'
undrawn 'nothing is carried in' 'carried in, in planner_plan: .* not next 0, .* in part 0, to the stop 0, a disk full 0,' \
    "${in_drawing}s/how = below\\(c, 6\\)/how = 6/"
undrawn 'carried blocks are never the next' 'carried in, in planner_plan: .* not next [1-9].* in part 0, to the stop 0,' \
    's/^    if \(!job->carried\[b\] && /    if ((job->references == 0 || b != job->reference[0]) \&\& /'
undrawn 'no disk is full of carried blocks' 'carried in, in planner_plan: .* in part [1-9].* a disk full 0,' \
    's/held\[d\] < job->slots\[d\]\) \{/held[d] + 1 < job->slots[d]) {/'

echo "$tried faults, $missed not caught"
[ "$missed" -eq 0 ]
