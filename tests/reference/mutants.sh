# mutants.sh - wrong planners, each of which the vectors or the search must catch, and searches that draw too little, which must say so.
#
# usage: sh mutants.sh BUILD     (BUILD has vectors.o, answer.o, exhaustive.o, small_notes.o, chance.o, reference.o and note.o)
# A mutant is a copy of reference.c, of note.c or of exhaustive.c, changed by a sed script, in BUILD/mutant.
cd "$(dirname "$0")" || exit 2
cc=${CC:-cc}
build=$1
dir=$build/mutant
missed=0
tried=0
cat ../vectors/L10.txt ../vectors/edges.txt ../vectors/longest.txt | grep -v '^slots' >"$build/all.txt" || exit 2
grep -h '^note' ../vectors/L10.txt ../vectors/edges.txt >"$build/notes.txt" || exit 2
grep -h '^slots' ../vectors/L10.txt ../vectors/edges.txt ../vectors/longest.txt >"$build/slots.txt" || exit 2

# trial SOURCE OTHER NAME SCRIPT TEST WORDS ARGUMENT... - the changed copy of SOURCE.c, linked with OTHER, must differ and compile, and
# the test must say what is wrong with it: a crash would not do.
trial() {
    source=$1 other=$2 name=$3 script=$4 test=$5 words=$6
    shift 6
    tried=$((tried + 1))
    rm -rf "$dir" && mkdir -p "$dir"
    sed -E "$script" "$source.c" >"$dir/$source.c"
    if cmp -s "$source.c" "$dir/$source.c" ||
        ! $cc -std=c11 -I. -c "$dir/$source.c" -o "$dir/$source.o"; then
        echo "BROKEN  $name"
        missed=$((missed + 1))
        return
    fi
    $cc "$build/$test.o" "$build/answer.o" "$build/chance.o" "$build/$other.o" "$dir/$source.o" -o "$dir/$test" || exit 2
    timeout 60 "$dir/$test" "$@" >"$dir/report"
    if [ $? -ne 1 ] || ! grep -q "$words" "$dir/report"; then
        echo "MISSED  $name ($test)"
        missed=$((missed + 1))
    fi
}

# mutant NAME SCRIPT - a wrong reference that the vectors must catch.
mutant() {
    trial reference note "$1" "$2" vectors disagrees "$build/all.txt"
}

# searched NAME SCRIPT WORDS - a wrong reference that the search must catch, with these words.
searched() {
    trial reference note "$1" "$2" exhaustive "$3" 1 10000
}

# undrawn NAME SCRIPT WORDS - a search that does not draw every kind of job; it must fail at its end, and have these words in what it met.
undrawn() {
    trial exhaustive note "$1" "$2" reference "$3" 1 2000
}

# waited NAME SCRIPT - a wrong reference that the vectors of long waits must catch, by themselves.
waited() {
    trial reference note "$1" "$2" vectors disagrees ../vectors/waiting.txt
}

# slotted NAME SCRIPT - a wrong reference that the vectors of slot counts must catch, by themselves.
slotted() {
    trial reference note "$1, for a slot count" "$2" vectors disagrees "$build/slots.txt"
}

# misjudged NAME SCRIPT WORDS - a search that judges otherwise than the reference; it must fail, with these words.
misjudged() {
    trial exhaustive note "$1, by the search" "$2" reference "$3" 1 2000
}

# misread NAME SCRIPT - a wrong reader of notes that the vectors must catch.
misread() {
    trial note reference "$1" "$2" vectors disagrees "$build/notes.txt"
}

# found NAME SCRIPT WORDS - a wrong reader of notes that the search of short texts must catch, with these words.
found() {
    trial note reference "$1" "$2" small_notes "$3"
}

on_demand='if (view[d].u != REF_NONE \&\& r->l.distance[view[d].u] != before) view[d].u = REF_NONE;'
each_disk='for (unsigned d = 0; d < job->disks; d++)'

# Scripts used more than once
no_wait='s/rule == REF_P_CON && waits/false \&\& waits/'
all_wait='s/rule == REF_P_CON && waits/waits/'
demand="s/^    survey\\(.*/&\\n$each_disk $on_demand/"
early='s/^    if \(l->distance\[v.min_block\] < /    if (rule == REF_P_MIN \&\& l->distance[v.min_block] < /
    s/if \(from_u > l->distance\[v.min_block\]\)/unsigned m = l->distance[v.min_block]; while (m < l->distance[v.u]) m = l->next[m]; if (from_u > m)/'
# a plan that does not end is cut, so that its answer differs
at_most_n='s/(begin\(job, &r\); r.next_read < job->stop)(; schedule)/\1 \&\& counts->charged < job->stop\2/
    s/(begin\(job, &r\); r.next_read < job->stop)(;\) \{)/\1 \&\& round < job->stop\2/'
written_first='s/^    if \(number != 0\)$/    if (number == 18) ref_write_sheet(drawn.schedule[0], drawn.planned.counts[0].charged, drawn.job.disks, p_min, ns);\n&/'
n_as_e="s/return 'N'/return s->held[d] < job->slots[d] ? 'E' : 'N'/"
n_as_s="s/return 'N'/return s->held[d] == job->slots[d] \\&\\& l->distance[v.min_block] < job->stop ? 'S' : 'N'/"
s_as_w="s/return 'S'/return rule == REF_P_CON \\&\\& waits(job, s, l, d, v) ? 'W' : 'S'/
    s/if \(from_u > l->distance\[v.min_block\]\)/unsigned m = l->distance[v.min_block]; while (m < l->distance[v.u]) m = l->next[m]; if (from_u > m)/"
next_disk='s/actions\[d\], letters/actions[(d + 1) % job->disks], letters/'
next_letter='s/letters\[d\]\);/letters[(d + 1) % job->disks]);/'
each_round='for \(begin\(job, &r\); r.next_read < job->stop;\) \{'
by_disk="s/^    $each_round/    for (unsigned only = 0; only < job->disks; only++)\\n    for (begin(job, \\&r), round = 0; r.next_read < job->stop;) {/
    s/^        for \\(unsigned d = 0; (.* page \\+= REF_LINE)/        for (unsigned d = only; d == only \\&\\& \\1/"
exchanged='/^static void put_line/,/^}/{s/a\.fetch/a.left/;s/a\.discard/a.fetch/;s/a\.left/a.discard/}'
of_p_con='s/rule = \(enum ref_rule\)drawn.planned.mark/rule = REF_P_CON/'
of_p_min='s/rule = \(enum ref_rule\)drawn.planned.mark/rule = REF_P_MIN/'
of_other='s/rule = \(enum ref_rule\)drawn.planned.mark/rule = (enum ref_rule)(1 - drawn.planned.mark)/'
page_length='((size_t)drawn.planned.counts[choice(drawn.planned.counts)].charged * drawn.job.disks + REF_LEGEND) * REF_LINE'
in_page='/^unsigned ref_page/,/^}/'

in_action='/^static unsigned check_action/,/^}/'
no_20='s/^        return 20;/        ;/'
test_20='if (s->held[d] < job->slots[d]) return 20;'
discards='r->at < 8 * r->len \&\& (r->bytes[r->at \/ 8] >> (7 - r->at % 8) \& 1)'

# tested_20 EXPRESSION - the script that has 20 returned where this holds.
tested_20() {
    printf '%ss/^    if \\(s->held\\[d\\] < .*/    if (%s)/' "$in_action" "$1"
}

# shown LETTER OTHER - the script that has another letter stand on the page for this one.
shown() {
    printf "s/line\\\\[15\\\\] = .*/line[15] = (uint8_t)(letter == '%s' ? '%s' : letter);/" "$1" "$2"
}

# round_as, block_as, disk_as EXPRESSION - the script that has this stand on the page for the number.
round_as() {
    printf 's/put_number\\(line, 4, round\\)/put_number(line, 4, %s)/' "$1"
}
block_as() {
    printf 's/put_number\\(to, 3, block\\)/put_number(to, 3, %s)/' "$1"
}
disk_as() {
    printf 's/put_number\\(line \\+ 5, 1, d\\)/put_number(line + 5, 1, %s)/' "$1"
}

# before_number TEXT - the script that has this come before a refusal by ticket or sheets, in the page call.
before_number() {
    printf '%ss/^    if \\(number != 0\\)$/    %s\\n&/' "$in_page" "$1"
}

# chosen EXPRESSION - the script that has ref_choose hand back the second sheet where this holds.
chosen() {
    printf 's/out->which = choice\\(counts\\)/out->which = %s/' "$1"
}
first='counts[0]' second='counts[1]'
tie_first=$(chosen "$second.charged < $first.charged")
by_fetches="s/^    out->which = /    unsigned sum[2] = {0, 0};\\n    for (unsigned k = 0; k < 16; k++) sum[k \\/ 8] += counts[k \\/ 8].fetches[k % 8];\\n&/
    $(chosen 'sum[1] <= sum[0]')"

# Scripts about the rounds charged
in_rounds='/^static unsigned check_rounds/,/^}/'
written_1='(first[0] << 4 | first[1] >> 4)' written_2='(second[0] << 4 | second[1] >> 4)'

# charged EXPRESSION - the script that has the check give this for the rounds charged; counts->charged is the right number.
charged() {
    printf '%ss/^    return closes\\(r\\) .*/    counts->charged = (uint16_t)(%s);\\n&/' "$in_rounds" "$1"
}

# when_left EXPRESSION - the script that has a round charged if this holds at its start, and all references are consumed at its end.
when_left() {
    printf '%ss/bool left = .*/bool left = %s;/' "$in_rounds" "$1"
}

# counted_late EXPRESSION - the script that has a fetch after the last reference counted where this holds.
counted_late() {
    printf '%ss/\\+= a.fetch != REF_NONE/+= a.fetch != REF_NONE \\&\\& (left || (%s))/' "$in_rounds" "$1"
}

# all_of SHEET ROUNDS - the script that has these rounds of a sheet of a choice, 0 or 1, charged.
all_of() {
    printf '/^unsigned ref_choose/,/^}/s/number = check_sheet\\(.*\\);/&\\n    if (number == 0) counts[%s].charged = (uint16_t)%s;/' "$1" "$2"
}
all_charged=$(charged written)
one_late=$(charged 'counts->charged + (counts->charged < written)')
one_early=$(charged 'counts->charged - (counts->charged > 0)')
none_for_none=$(charged 'job->stop == 0 ? written : counts->charged')
no_late_fetches=$(counted_late false)
busy="${in_rounds}{s/^        bool left = .*/&\\n        bool busy = false;/;s/^            counts->fetches.*/&\\n            busy = busy || a.fetch != REF_NONE;/}"
reading_rounds="${in_rounds}{s/bool left = .*/unsigned before = next_read;/;s/^        if \\(left \\&\\& .*/        if (next_read > before)/;s/= \\(uint16_t\\)round;/+= 1;/}"
read_whole='while (whole < job->references \&\& s.resident[job->reference[whole]]) whole++;'
past_charged="${in_rounds}{s/^    unsigned next_read = start.*/&\\n    unsigned whole = next_read;\\n    $read_whole/
    s/^        if \\(left \\&\\& .*/        left = whole < job->references \\&\\& s.resident[job->reference[whole]];\\n/
    s/^            counts->charged = .*/        $read_whole\\n        if (left)\\n&/}"
by_written=$(chosen "$written_2 <= $written_1")
idle_end='s/^        counts->charged\+\+;/&\n        if (r.next_read == job->stop)\n            memset(schedule + job->disks, 0xff, job->disks * sizeof *schedule);/
    s/\(size_t\)p->counts\[k\].charged \*/(size_t)(p->counts[k].charged + (p->counts[k].charged > 0)) */
    s/drawn->planned.counts\[k\].charged, drawn/drawn->planned.counts[k].charged + (drawn->planned.counts[k].charged > 0), drawn/'
idle_charged="/^void ref_run/,/^}/s/^    \\}\$/&\\n    if (rule == REF_P_CON)\\n\
        counts->charged++, memset(schedule, 0xff, job->disks * sizeof *schedule);/
    $all_charged"

# idle_rounds CONDITION - the script that puts idle rounds into P-CON's schedule for as long as this holds of the job and of counts->charged.
idle_rounds() {
    printf '/^void ref_run/,/^}/s/^        play_round\\(.*/        while (rule == REF_P_CON \\&\\& %s) {\\n'\
'            memset(schedule, 0xff, job->disks * sizeof *schedule);\\n            schedule += job->disks;\\n'\
'            counts->charged++;\\n        }\\n&/' "$1"
}

# Scripts about the stop
in_reading='/^unsigned ref_read_ticket/,/^}/'
in_lookup='/^static void build_lookup/,/^}/'
in_survey='/^static void survey/,/^}/'
in_check='/^unsigned ref_check/,/^}/'
in_choice='/^unsigned ref_choose/,/^}/'
in_planning='/^static unsigned draw_up/,/^}/'
at_stop='(job->stop + (job->stop < job->references))'
no_never="${in_lookup}s/job->stop/job->references/;${in_survey}s/job->stop/job->references/"
no_never_at="${in_lookup}s/job->stop/$at_stop/;${in_survey}s/job->stop/$at_stop/"
min_past="${in_lookup}s/job->stop/job->references/"
wait_past='s/^        while \(from_u < l->distance\[v.u\]\)/        for (from_u = l->distance[v.u]; from_u < job->references \&\& job->reference[from_u] != b;)/
    s/^            from_u = l->next\[from_u\];/            from_u++;/
    s/if \(from_u > l->distance\[v.min_block\]\)/unsigned m = l->distance[v.u]; while (m < job->references \&\& job->reference[m] != v.min_block) m++; if (l->distance[b] < l->distance[v.u] \&\& from_u > m)/'
page_past='s/^    write_page\(/    if (ng >= REF_PAGE) drawn.job.stop = drawn.job.references;\n&/'

# counted EXPRESSION - the script that has so many references count.
counted() {
    printf '%ss/^    job->stop = .*/    job->stop = %s;/' "$in_reading" "$1"
}
one_more=$(counted '(unsigned)stop + (stop < job->references)')
one_less=$(counted '(unsigned)stop - (stop > 0)')

# refused EXPRESSION - the script that has 21 returned where this holds; else a stop above N is N.
refused() {
    printf '%s{s/^    if \\(stop > job->references\\)/    if (%s)/;s/= \\(unsigned\\)stop;/= stop < job->references ? (unsigned)stop : job->references;/}' \
        "$in_reading" "$1"
}

# narrowed BITS - the script that has so many bits of the stop read.
narrowed() {
    printf '%ss/^    unsigned number = /    stop \\&= (1ull << %s) - 1;\\n&/' "$in_reading" "$1"
}

# first_of NUMBER - the script that has 21 tested before this number of the ticket.
first_of() {
    printf '%ss/^    if \\(number != 0\\)$/    if (number == %s \\&\\& stop > ref_references(ticket, n)) return 21;\\n&/' "$in_reading" "$1"
}

# sheet_first FUNCTION NUMBER CHECKS - the script that has this number come before 21 in the function, where the checks up to N give it.
sheet_first() {
    printf '/^unsigned %s/,/^}/s/^    memset\\(out, 0, .*/&\\n    if (number == 21 \\&\\& ref_read_ticket(ticket, n, ref_references(ticket, n), \\&job) == 0 \\&\\& %s == %s) return %s;/' \
        "$1" "$3" "$2" "$2"
}

# of_whole THEN - the script that plans the whole job as well, in draw_up, its counts in c and its schedules in a, and then does this.
of_whole() {
    printf '%ss/^    for \\(unsigned k = 0; k < 2; k\\+\\+\\)$/    static struct ref_action a[2][REF_ROUNDS * REF_DISKS];\\n    struct ref_counts c[2];\\n'\
'    struct ref_job w = drawn->job;\\n    w.stop = w.references;\\n'\
'    for (int k = 0; k < 2; k++) ref_run(\\&w, (enum ref_rule)k, a[k], \\&c[k]);\\n    %s\\n&/' "$in_planning" "$1"
}

# Scripts about carried blocks
in_fields='/^static unsigned read_fields/,/^}/'
in_carried='/^static unsigned read_carried/,/^}/'
in_start='/^static unsigned start/,/^}/'
in_begin='/^static void begin/,/^}/'
in_run='/^void ref_run/,/^}/'
none_carried="${in_start}s/if \\(job->carried\\[b\\]\\)/if (false)/"
not_held="${in_start}s/^            s->held.*/            ;/"
not_held_planned="${in_begin}s/^    r->next_read = .*/&\\n    memset(r->s.held, 0, sizeof r->s.held);/"
distances_left="${in_begin}s/^    keep_up.*/    ;/;$at_most_n"
check_empty="${in_rounds}s/= start\\(job, &s\\);/= (memset(\\&s, 0, sizeof s), 0);/"
page_empty='s/^    write_page\(/    if (ng >= REF_PAGE) memset(drawn.job.carried, 0, sizeof drawn.job.carried);\n&/'
each_carried='for (unsigned d = 0; d < job->disks; d++) counts->fetches[d] += carried_on(job, d);'
checked_as_fetch="${in_rounds}s/^    unsigned next_read = .*/&\\n    $each_carried/"
planned_as_fetch="${in_run}s/^    memset\\(counts.*/&\\n    $each_carried/"
round_for_reading="${in_run}s/^        play_round\\(.*/        if (counts->charged == 0 \\&\\& r.next_read > 0) {\\n\
            memset(schedule, 0xff, job->disks * sizeof *schedule);\\n            schedule += job->disks;\\n            counts->charged++;\\n        }\\n&/"

# read_before EXPRESSION - the script that has so many references read before round 1.
read_before() {
    printf '%ss/return consume\\(job, s, 0\\);/return %s;/' "$in_start" "$1"
}
nothing_read=$(read_before 0)

# starts_empty RULE - the script that has this plan, 0 or 1, start from empty buffers.
starts_empty() {
    printf '%ss/^        ref_run\\(&drawn->job, /        struct ref_job other = drawn->job;\\n        if (k == %s) memset(other.carried, 0, sizeof other.carried);\\n        ref_run(\\&other, /' \
        "$in_planning" "$1"
}

# last_of BEFORE - the script that has the min-block be the last due of some blocks alone, if it can: b comes before the block that was found where
# this holds, whichever is due last.
last_of() {
    printf '%ss/^            if \\(v->min_block == REF_NONE \\|\\| (.*)\\)$/            if (v->min_block == REF_NONE || (%s != 0 ? %s > 0 : \\1))/' \
        "$in_survey" "$1" "$1"
}
fetched_first="$(last_of '(job->carried[v->min_block] - job->carried[b])');$at_most_n"
carried_first="$(last_of '(job->carried[b] - job->carried[v->min_block])');$at_most_n"
never_tie='l->distance[b] == l->distance[v->min_block]'
carried_nevers=$(last_of "($never_tie ? job->carried[b] - job->carried[v->min_block] : 0)")
carried_nevers_short="s/^struct view \\{/static enum ref_rule now;\\n\\n&/;s/^    survey\\(job, &r.*/    now = rule;\\n&/
    $(last_of "(now == REF_P_MIN \\&\\& job->disks == 1 \\&\\& $never_tie ? job->carried[b] - job->carried[v->min_block] : 0)")"
# P-CON's plan is made anew where the page is of P-MIN; and a run that is not of planning is charged a round more. No search sees either: only the
# rest of a plan, by ref_run alone, shows it.
carried_nevers_sparing="s/^struct view \\{/static bool otherwise;\\n\\n&/
    ${in_planning}s/^    p->mark = .*/&\\n    otherwise = p->mark == 0;\\n\
    ref_run(\\&drawn->job, REF_P_CON, drawn->schedule[1], \\&p->counts[1]);\\n    otherwise = false;/
    $(last_of "(otherwise \\&\\& $never_tie ? job->carried[b] - job->carried[v->min_block] : 0)")"
one_more_alone="s/^struct view \\{/static bool planning;\\n\\n&/;${in_run}s/^    \\}\$/&\\n    counts->charged += !planning;/
    ${in_planning}{s/^    for \\(int k = 0.*/    planning = true;\\n&/;s/^    for \\(unsigned k = 0.*/    planning = false;\\n&/}
    /^unsigned ref_slots/,/^}/s/^    slots = .*/    planning = true;\\n&\\n    planning = false;/"

# late NUMBER WHERE - the script that has 25 or 26 tested later; WHERE is a script that returns late.
late() {
    printf 's/^static bool closes/static unsigned late;\\n\\n&/;%s{s/^    memset\\(job->carried.*/    late = 0;\\n&/;s/return %s;/late = late ? late : %s;/}\n%s' \
        "$in_carried" "$1" "$1" "$2"
}
after_list="${in_carried}s/^        \\}\$/&\\n        if (late != 0)\\n            return late;/"
after_lists="${in_carried}s/^    return 0;/    return late;/"
after_closing="${in_fields}s/return closes\\(&r\\) \\? 0 : 8/return closes(\\&r) ? late : 8/"

# The rules
mutant 'lowest number among several nevers' \
    's/(distance\[b\] )>=( l->distance\[v->min_block)/\1>\2/'
mutant 'demand-only fetching' "$demand"
mutant 'prefetch in round 1, later only demands' \
    "s/^    survey\\(.*/&\\nif (before > 0) $each_disk $on_demand/"
mutant 'Definition 4 to the letter: idle beside an empty slot' \
    '/^static char decide/,/^}/s/held\[d\] < job->slots\[d\]\)$/held[d] < job->slots[d] \&\& (v.min_block == REF_NONE || l->distance[v.min_block] >= l->distance[v.u]))/'
mutant 'Definition 5 to the letter: a block out beside an empty slot' \
    "s/return 'E'/return rule == REF_P_CON \\&\\& v.min_block != REF_NONE ? 'M' : 'E'/"
mutant 'Definition 5 to the letter: discards a block due before U' "$early"
mutant 'P-CON never waits' "$no_wait"
mutant 'P-MIN waits too' "$all_wait"
mutant 'P-CON: two nevers not equal, the higher number is later' \
    's/if \(from_u > l->distance\[v.min_block\]\)/if (from_u > l->distance[v.min_block] || (from_u == l->distance[v.min_block] \&\& b > v.min_block \&\& from_u != l->distance[b]))/'
mutant 'P-CON counted from the next read, not from U' \
    's/while \(from_u < l->distance\[v.u\]\)/while (false)/'
mutant 'equal rounds give the sheet of P-MIN' 's/p->mark = choice\(p->counts\)/p->mark = p->counts[1].charged < p->counts[0].charged/'

# Long waits
waited 'P-CON never waits' "$no_wait"
waited 'P-MIN waits too' "$all_wait"
waited 'P-CON waits in its first 64 rounds alone' "s/^    unsigned next_read;/&\\n    unsigned played;/
    s/^static char decide.*/static unsigned now;\\n\\n&/;s/^    survey\\(job, &r.*/    now = r->played++;\\n&/
    s/rule == REF_P_CON \\&\\& waits/rule == REF_P_CON \\&\\& now < 64 \\&\\& waits/"
waited 'the last nine bits of the rounds charged' "$(charged 'counts->charged \& 511')"

# How positions are held
mutant 'positions in eight bits' "/^static void build_lookup/,/^}/s/\\(uint16_t\\)/(uint8_t)/;$at_most_n"
mutant 'the position 2048 held as 0' "s/\\(uint16_t\\)job->stop/(uint16_t)(job->stop % 2048)/;$at_most_n"

# How far a stop reaches
mutant 'the stop not looked at' "$(counted 'job->references')"
mutant 'the reference at the stop counts too' "$one_more"
mutant 'the last reference before the stop does not count' "$one_less"
mutant 'a stop of 0 is the whole job' "$(counted 'stop > 0 ? (unsigned)stop : job->references')"
mutant 'a reference past the stop is no never' "$no_never"
mutant 'the reference at the stop is no never' "$no_never_at"
mutant 'the min-block by references past the stop' "$min_past"
mutant 'P-CON waits by references past the stop' "$wait_past"
mutant 'planning up to N' "${in_planning}s/^        ref_run\\(/        drawn->job.stop = drawn->job.references;\\n&/"
mutant 'P-MIN up to N' "${in_planning}s/^        ref_run\\(/        drawn->job.stop = k == 0 ? drawn->job.references : (unsigned)stop;\\n&/"
mutant 'P-CON up to N' "${in_planning}s/^        ref_run\\(/        drawn->job.stop = k == 1 ? drawn->job.references : (unsigned)stop;\\n&/"
mutant 'the mark of the whole job' "$(of_whole '')
    ${in_planning}s/choice\\(p->counts\\)/choice(c)/"
mutant 'the counts of the whole job' "$(of_whole '')
    ${in_planning}s/^    p->length = .*/&\\n    memcpy(p->counts, c, sizeof c);/"
mutant 'rooms for the sheets of the whole job asked for' \
    "$(of_whole 'for (unsigned k = 0; k < 2; k++) if (sheet_length(a[k], (size_t)c[k].charged * w.disks) > room[k]) return 17 + k;')"
mutant 'the check up to N' "${in_check}s/number = check_sheet/job.stop = job.references, &/"
mutant 'the check asks that the reading end at the stop' \
    '/^static unsigned consume/,/^}/s/job->stop/job->references/;/^static unsigned check_rounds/,/^}/s/next_read < job->stop/next_read != job->stop/'
mutant 'actions after the stop is reached not tested' \
    '/^static unsigned check_rounds/,/^}/s/^            if \(number != 0\)/            if (number > 9 \&\& next_read == job->stop \&\& next_read < job->references) number = 0, a = (struct ref_action){REF_NONE, REF_NONE};\n&/'
mutant 'the first sheet of a choice up to N' "${in_choice}s/number = check_sheet/job.stop = k == 0 ? job.references : (unsigned)stop, &/"
mutant 'the second sheet of a choice up to N' "${in_choice}s/number = check_sheet/job.stop = k == 1 ? job.references : (unsigned)stop, &/"
mutant 'the page up to N' "$page_past"
mutant 'room for the page of the whole job asked for' \
    's/^    if \(length > ng\)/    static struct ref_action a[REF_ROUNDS * REF_DISKS];\n    struct ref_counts c;\n    struct ref_job w = drawn.job;\n'\
'    w.stop = w.references;\n    ref_run(\&w, rule, a, \&c);\n    if ((c.charged * w.disks + REF_LEGEND) * REF_LINE > ng) return 19;\n&/'

# Which stops are refused
mutant 'a stop of N refused' "$(refused 'stop >= job->references')"
mutant 'a stop of N refused, but for no references' "$(refused 'stop >= job->references \&\& stop > 0')"
mutant 'no stop refused' "$(refused false)"
mutant 'a stop of N + 1 accepted' "$(refused 'stop > job->references + 1')"
mutant 'a stop of N + 1 accepted where there are no references' "$(refused 'stop > job->references + (job->references == 0)')"
mutant 'a stop above 2048 alone refused' "$(refused 'stop > REF_REFERENCES')"
mutant 'the largest stop accepted' "$(refused 'stop > job->references \&\& stop != SIZE_MAX')"
mutant 'the stop as a signed number' "$(refused '(long long)stop > (long long)job->references')"
for bits in 8 12 16 32 63; do
    mutant "the last $bits bits of the stop" "$(narrowed "$bits")"
done

# When 21 is tested
for number in 1 2 3 4 5 6 7 25 26 8; do
    mutant "21 tested before $number" "$(first_of "$number")"
done
for number in 9 10 11 12 13 14 15 16 20; do
    mutant "21 tested after $number in the check" "$(sheet_first ref_check "$number" 'check_sheet(\&job, sheet, m, \&counts)')"
    mutant "21 tested after $number of the first sheet" "$(sheet_first ref_choose "$number" 'check_sheet(\&job, first, m1, \&counts[0])')"
    mutant "21 tested after $number of the second sheet" \
        "$(sheet_first ref_choose "$number" 'check_sheet(\&job, first, m1, \&counts[0]) == 0 \&\& check_sheet(\&job, second, m2, \&counts[1])')"
done
mutant '21 tested after 17' '/^unsigned ref_plan/,/^}/s/^    if \(number != 0\)$/    if (number == 21 \&\& ns < 2) return 17;\n&/'
mutant '21 tested after 18' '/^unsigned ref_plan/,/^}/s/^    if \(number != 0\)$/    if (number == 21 \&\& np < 2) return 18;\n&/'
mutant '21 tested after 17 with a page' "$(before_number 'if (number == 21 \&\& ns < 2) return 17;')"
mutant '21 tested after 18 with a page' "$(before_number 'if (number == 21 \&\& np < 2) return 18;')"
mutant '21 tested after 19' "$(before_number 'if (number == 21 \&\& ng < REF_LEGEND * REF_LINE) return 19;')"
mutant 'sheets written although 21' "$(refused false)
    s/^    write_sheets\\(&drawn.*/&\\n    if (stop > drawn.job.references) return 21;/"

# Which carried blocks are taken
mutant 'a ticket without counts taken' "${in_carried}s/^        if \\(!field\\(r, 7, &count\\)\\)/        if (!field(r, 7, \\&count) \\&\\& (count = 0) > 0)/"
mutant 'a count equal to the slots refused' 's/count > job->slots\[d\]/count >= job->slots[d]/'
mutant 'a count of one more than the slots taken' 's/count > job->slots\[d\]/count > job->slots[d] + 1/'
mutant "a count by disk 0's slots" 's/count > job->slots\[d\]/count > job->slots[0]/'
mutant 'a count above 64 alone refused' 's/count > job->slots\[d\]/count > REF_SLOTS/'
mutant 'a count above the blocks refused with 25' 's/count > job->slots\[d\]/count > job->slots[d] || count > job->blocks/'
mutant 'six bits of a count' 's/field\(r, 7, &count\)/field(r, 6, \&count)/'
mutant 'eight bits of a number' "${in_carried}s/field\\(r, 9, &v\\)/field(r, 8, \\&v)/"
mutant 'the last eight bits of a carried block' 's/job->carried\[v\] = true/job->carried[v % 256] = true/'
mutant 'equal numbers taken' 's/least = v \+ 1;/least = v;/'
mutant 'numbers in any order taken' 's/v < least \|\| //'
mutant 'falling numbers taken, equal ones not' 's/v < least \|\| /v + 1 == least || /'
mutant 'block 0 refused as the first number' 's/least = 0;  /least = 1;  /'
mutant 'the numbers rise over all disks' \
    's/^        unsigned count, v, least = 0;.*/        static unsigned least;\n        unsigned count, v;\n\n        least = d == 0 ? 0 : least;/'
mutant 'a carried block of B taken' "${in_carried}s/^            if \\(v < least/            if (v == job->blocks) v--;\\n&/"
mutant 'a carried block of another disk taken' "${in_carried}s/ \\|\\| job->disk\\[v\\] != d\\)/)/"
mutant 'the first number of a list alone taken' "${in_carried}s/job->carried\\[v\\] = true/job->carried[v] |= k == 0/"
mutant "disk 0's list alone taken" "${in_carried}s/job->carried\\[v\\] = true/job->carried[v] = d == 0/"
mutant "the last disk's list not read" "${in_carried}s/d < job->disks/d + 1 < job->disks/"
all_counts='for (unsigned e = 0; d == 0 \&\& e < job->disks; e++) if (!field(r, 7, \&counts[e])) return 1;'
mutant 'the counts of all disks before the numbers' \
    "${in_carried}s/^        if \\(!field\\(r, 7, &count\\)\\)/        static unsigned counts[REF_DISKS];\\n        $all_counts\\n        count = counts[d];\\n        if (false)/"
mutant '26 for 25' 's/return 25;/return 26;/'
mutant '25 for 26' 's/return 26;/return 25;/'

# When 25 and 26 are tested
mutant '25 tested after the numbers' "$(late 25 "$after_list")"
mutant '25 tested after all lists' "$(late 25 "$after_lists")"
mutant '25 tested after 8' "$(late 25 "$after_closing")"
mutant '26 tested after the list' "$(late 26 "$after_list")"
mutant '26 tested after all lists' "$(late 26 "$after_lists")"
mutant '26 tested after 8' "$(late 26 "$after_closing")"
mutant '25 for the end inside a count' "${in_carried}{/field\\(r, 7/{n;s/return 1;/return 25;/}}"
mutant '26 for the end inside a number' "${in_carried}{/field\\(r, 9/{n;s/return 1;/return 26;/}}"
there='unsigned left = (unsigned)(8 * r->len - r->at), there = 0; field(r, left, \&there);'
mutant '1 tested after the value of a count, with zeros for the bits that are missing' \
    "${in_carried}{/field\\(r, 7/{n;s/return 1;/{ $there return there << (7 - left) > job->slots[d] ? 25 : 1; }/}}"
mutant '1 tested after the value of a number, with zeros for the bits that are missing' \
    "${in_carried}{/field\\(r, 9/{n;s/return 1;/{ $there v = there << (9 - left); return v < least || v >= job->blocks || job->disk[v] != d ? 26 : 1; }/}}"
mutant '7 tested after the carried blocks' \
    "$in_fields{s/unsigned v, number;/unsigned v, number, late = 0;/;s/return 7;/late = 7;/;s/return closes/return late ? late : closes/}"
# of a ticket that has its references: more than five bytes
for number in 1 25 26; do
    mutant "$number tested after 9 in the check" "${in_check}s/^    memset\\(out, 0, .*/&\\n    if (number == $number \\&\\& n > 5 \\&\\& m < 2) return 9;/"
    mutant "$number tested after 9 in the choice" "${in_choice}s/^    memset\\(out, 0, .*/&\\n    if (number == $number \\&\\& n > 5 \\&\\& m1 < 2) return 9;/"
    mutant "$number tested after 17" "/^unsigned ref_plan/,/^}/s/^    memset\\(out, 0, .*/&\\n    if (number == $number \\&\\& n > 5 \\&\\& ns < 2) return 17;/"
    mutant "$number tested after 19" "${in_page}s/^    memset\\(out, 0, .*/&\\n    if (number == $number \\&\\& n > 5 \\&\\& ng < 85) return 19;/"
done

# Where a job starts
mutant 'carried blocks are not in the buffers' "$none_carried"
mutant 'carried blocks are not in the buffers before a stop' "${in_start}s/if \\(job->carried\\[b\\]\\)/if (job->carried[b] \\&\\& job->stop == job->references)/"
mutant 'carried blocks take no slot' "$not_held"
mutant 'carried blocks take slots of disk 0' "${in_start}s/held\\[job->disk\\[b\\]\\]/held[0]/"
mutant 'carried blocks take no slot in the check' "${in_rounds}s/^    unsigned next_read = .*/&\\n    memset(s.held, 0, sizeof s.held);/"
mutant 'carried blocks take no slot in the plans' "$not_held_planned"
mutant 'nothing is read before round 1' "$nothing_read"
mutant 'one reference is read before round 1' "$(read_before 'consume(job, s, 0) > 0')"
mutant 'nothing is read before round 1 up to a stop' "$(read_before 'job->stop < job->references ? 0 : consume(job, s, 0)')"
mutant 'the plans read nothing before round 1' "${in_begin}s/^    r->next_read = start.*/    r->next_read = (start(job, \\&r->s), 0);/"
mutant 'the check reads nothing before round 1' "${in_rounds}s/= start\\(job, &s\\);/= (start(job, \\&s), 0);/"
mutant 'the check asks that the reading before round 1 end at the stop' \
    "${in_start}s/return consume\\(job, s, 0\\);/struct ref_job whole = *job; whole.stop = job->references; return consume(\\&whole, s, 0);/
    ${in_rounds}s/^    if \\(next_read < job->stop\\)/    if (next_read != job->stop)/"
mutant 'distances from the first reference, though some are read' "$distances_left"
mutant 'P-MIN starts empty' "$(starts_empty 0)"
mutant 'P-CON starts empty' "$(starts_empty 1)"
mutant 'the page starts empty' "$page_empty"
mutant 'the check starts empty' "$check_empty"
for k in 0 1; do
    other="struct ref_job other = job;\\n        if (k == $k) memset(other.carried, 0, sizeof other.carried);"
    mutant "sheet $k of a choice starts empty" \
        "${in_choice}s/^        number = check_sheet\\(&job,(.*)/        {\\n        $other\\n        number = check_sheet(\\&other,\\1\\n        }/"
done

# What is done with them
mutant 'a fetched block goes before any carried one' "$fetched_first"
mutant 'a carried block goes before any fetched one' "$carried_first"
mutant 'of several nevers a carried one goes first' "$carried_nevers"
mutant 'a carried block that is gone is not fetched again' "${in_survey}s/else if \\(l->distance/else if (!job->carried[b] \\&\\& l->distance/;$at_most_n"
mutant 'P-CON does not wait for carried blocks' '/^static bool waits/,/^}/s/!s->resident\[b\]\)/!s->resident[b] || job->carried[b])/'
mutant 'a carried block is read though it is gone' '/^static unsigned consume/,/^}/s/&& (s->resident)(\[job->reference\[next_read\]\])\)/\&\& (\1\2 || job->carried\2))/'
mutant '12 not tested for carried blocks' "${in_action}s/^    if \\(s->resident\\[v\\]\\)/    if (s->resident[v] \\&\\& !job->carried[v])/"
mutant '14 for carried blocks' "${in_action}s/ \\|\\| !s->resident\\[v\\]\\)/ || !s->resident[v] || job->carried[v])/"
mutant 'a carried block is a fetch in the check' "$checked_as_fetch"
mutant 'a carried block is a fetch in the plans' "$planned_as_fetch"
mutant 'a carried block that is read is a fetch' "${in_rounds}s/^    unsigned next_read = .*/&\\n    for (unsigned i = 0; i < next_read; i++) counts->fetches[job->disk[job->reference[i]]] = 1;/"

# What is charged for them
mutant 'a sheet without rounds refused, though all is read before round 1' "${in_rounds}s/^    if \\(next_read < job->stop\\)/    if (next_read < job->stop || (written == 0 \\&\\& job->stop > 0))/"
mutant 'the reading before round 1 takes a round of a plan' "$round_for_reading"
mutant 'a round is planned though all is read' 's/(begin\(job, &r\); r.next_read < job->stop)(; schedule)/\1 || (counts->charged == 0 \&\& job->stop > 0)\2/'
mutant 'one round more is charged where some is read before round 1' "${in_rounds}s/^    unsigned next_read = .*/&\\n    unsigned before = next_read;/
    $(charged 'counts->charged + (before > 0)')"
mutant 'the first round charged though all is read before it' "$(charged 'counts->charged == 0 \&\& job->stop > 0 \&\& written > 0 ? 1 : counts->charged')"
mutant 'all rounds charged where all is read before them' "$(charged 'counts->charged == 0 \&\& job->stop > 0 ? written : counts->charged')"

# What planning hands back
mutant 'part length always that of P-MIN' 's/(p->length = .*)\[p->mark\]/\1[REF_P_MIN]/'
mutant 'counts of the two plans exchanged' \
    '/^void ref_planned_numbers/,/^}/{s/REF_P_MIN/REF_LEFT/;s/REF_P_CON/REF_P_MIN/;s/REF_LEFT/REF_P_CON/}'
mutant 'reports a fetch it did not make' \
    's/^    p->mark = /    p->counts[1].fetches[7] += drawn->job.disks == 8;\n&/'
mutant 'only the chosen sheet is written' \
    's/^        ref_write_sheet\(/        if (k == (int)choice(drawn->planned.counts)) ref_write_sheet(/'
mutant 'buffers left untouched' 's/^        ref_write_sheet\(/        if (k > 2) ref_write_sheet(/'
mutant 'a byte past the sheet changed' \
    '/^size_t ref_write_sheet/,/^}/s/memset\(buf, 0, len\)/memset(buf, 0, len < room ? len + 1 : len)/'
mutant 'a byte past the lent buffer changed' \
    '/^size_t ref_write_sheet/,/^}/s/memset\(buf, 0, len\)/memset(buf, 0, len == room ? len + 1 : len)/'
mutant '18 tested before 17' \
    's/p->sheet_length\[k\] > room\[k\]/p->sheet_length[1 - k] > room[1 - k]/;s/return 17 \+ k/return 18 - k/'
mutant 'exact room refused' 's/p->sheet_length\[k\] > room/p->sheet_length[k] >= room/'
mutant 'sheet of P-MIN written although 18' \
    "/^unsigned ref_plan/,/^}/$written_first"
mutant 'a number cut in the middle is left out' 's/k < len && k < 2/k < len - len % 2 \&\& k < 2/'
mutant 'least significant byte first' 's/k % 2 == 0 \? numbers/k % 2 == 1 ? numbers/'

# The ticket
mutant '8 disks refused' 's/disks > REF_DISKS/disks >= REF_DISKS/'
mutant '64 slots refused' 's/> REF_SLOTS/>= REF_SLOTS/'
mutant '512 blocks refused' 's/blocks > REF_BLOCKS/blocks >= REF_BLOCKS/'
mutant '2048 references refused' 's/> REF_REFERENCES/>= REF_REFERENCES/'
mutant '9 disks accepted' 's/disks > REF_DISKS/disks > REF_DISKS + 1/;s/return 3;/{ if (d < 8) return 3; }/'
mutant '65 slots accepted' 's/> REF_SLOTS/> REF_SLOTS + 1/'
mutant '513 blocks accepted' 's/blocks > REF_BLOCKS/blocks > REF_BLOCKS + 1/;s/disk\[REF_BLOCKS\]/disk[REF_BLOCKS + 1]/'
mutant 'a disk of D accepted' 's/if \(v >= job->disks\)/if (v > job->disks)/;s/^(        job->disk\[b\] = ).*/\1(uint8_t)(v % job->disks);/'
mutant '2049 references accepted' 's/references > REF_REFERENCES/references > REF_REFERENCES + 1/;s/^    return closes\(&r\).*/    if (job->references > REF_REFERENCES) return 7;\n&/'
mutant 'a reference of B accepted' 's/^        if \(v >= job->blocks\)/        if (v > job->blocks)/;s/^(        job->reference\[i\] = ).*/\1(uint16_t)(v % job->blocks);/'
mutant '7 tested after all references are read' \
    '/^static unsigned read_fields/,/^}/{s/unsigned v, number;/unsigned v, number, late = 0;/;s/return 7;/late = 7;/;s/^    number = /    if (late) return late;\n&/}'
mutant '5 tested after all disks are read' \
    '/^static unsigned read_fields/,/^}/{s/unsigned v, number;/unsigned v, number, late = 0;/;s/return 5;/late = 5;/;s/^    if \(!field\(&r, 12/    if (late) return late;\n&/}'
mutant '3 tested after all slots are read' \
    '/^static unsigned read_fields/,/^}/{s/unsigned v, number;/unsigned v, number, late = 0;/;s/return 3;/late = 3;/;s/^    if \(!field\(&r, 10/    if (late) return late;\n&/}'
mutant 'closing bits not looked at' 's/field\(r, \(unsigned\)left, &bits\) && bits == 0/true/'
mutant 'a byte after the end accepted' 's/left < 8 && (field.*);/left >= 8 || (\1);/'

# The check
mutant '2048 rounds refused' 's/> REF_ROUNDS/>= REF_ROUNDS/'
mutant '2049 rounds accepted' 's/> REF_ROUNDS/> REF_ROUNDS + 1/'
mutant 'a fetched block of B accepted' \
    's/^    if \(v >= job->blocks \|\| job->disk\[v\] != d\)/    if (v == job->blocks \&\& v > 0 \&\& job->disk[v - 1] == d) v--;\n&/'
mutant '12 tested before 11' \
    's/^    if \(v >= job->blocks \|\| job->disk\[v\] != d\)/    if (s->resident[v]) return 12;\n&/'
mutant '13 tested late, after the round' \
    's/return s->held.* 13;/return 0;/
     /^static unsigned check_rounds/,/^}/s/^        next_read = consume/for (unsigned d = 0; d < job->disks; d++) if (s.held[d] > job->slots[d]) return 13;\n&/'
mutant '13 late, after the whole sheet is read' \
    's/return s->held.* 13;/return 0;/
     /^static unsigned check_rounds/,/^}/s/^    if \(next_read < /for (unsigned d = 0; d < job->disks; d++) if (s.held[d] > job->slots[d]) return 13;\n&/'
mutant '11 and 12 tested after the whole action' \
    '/^static unsigned check_action/,/^}/{s/unsigned v;/unsigned v, late = 0;/;s/return 1([12]);/late = late ? late : 1\1;/
     s/return s->held/return late ? late : s->held/;s/^        return 14;/        return late ? late : 14;/;s/^    return 0;/    return late;/}'
mutant 'one block too many held' 's/held\[d\] < job->slots\[d\] \? 0/held[d] <= job->slots[d] ? 0/'
mutant 'a block of another disk discarded' 's/job->disk\[v\] != d \|\| !s/!s/'
mutant 'the fetched block itself discarded' 's/\|\| !s->resident\[v\]\)/|| (!s->resident[v] \&\& v != a->fetch))/'
mutant '14 of the last action tested after 15' \
    's/^static unsigned check_action/static unsigned late;\n\n&/
     s/^        return 14;/        { if (8 * r->len - r->at < 8) { late = 14; return 0; } return 14; }/
     s/^    unsigned next_read = start/    late = 0;\n&/
     s/return closes\(r\) \? 0 : 16/return late ? late : closes(r) ? 0 : 16/'
mutant '14 tested before 9 of the discarded block, with zeros for the bits that are missing' \
    '/return 20;/,/return 14;/s/^        return 9;/        { unsigned left = (unsigned)(8 * r->len - r->at); field(r, left, \&v); v = left > 0 ? v << (9 - left) : 0;\n        return v < job->blocks \&\& job->disk[v] == d \&\& s->resident[v] ? 9 : 14; }/'
mutant 'a discard beside an empty slot passes' 's/return 20;/;/'
mutant '14 for 20' 's/return 20;/return 14;/'
mutant '20 tested after 9 of the discarded block' "$no_20
    s/^    if \\(v >= job->blocks \\|\\| job->disk\\[v\\] != d \\|\\| !s/    $test_20\\n&/"
mutant '20 tested after 14' "$no_20
    s/^    a->discard = /    $test_20\\n&/"
mutant '20 tested before 11' "${in_action}s/^    if \\(v >= job->blocks \\|\\| job->disk\\[v\\] != d\\)\$/    if ($discards) $test_20\\n&/"
mutant '20 tested before 12' "${in_action}s/^    if \\(s->resident\\[v\\]\\)/    if ($discards) $test_20\\n&/"
mutant '20 where the slots are full' "$(tested_20 's->held[d] >= job->slots[d]')"
mutant '20 for an empty buffer only' "$(tested_20 's->held[d] == 0')"
mutant '20 where the fetch leaves a slot empty' "$(tested_20 's->held[d] + 1u < job->slots[d]')"
mutant "20 by disk 0's slots" "$(tested_20 's->held[d] < job->slots[0]')"
mutant "20 by disk 0's buffer" "$(tested_20 's->held[0] < job->slots[0]')"
mutant '16 tested before 15' \
    '/^static unsigned check_rounds/,/^}/s/^    if \(next_read < /    if (!closes(r)) return 16;\n&/'
mutant 'unfinished sheets pass' 's/return 15;/return closes(r) ? 0 : 16;/'
mutant 'every job called unfinished' 's/return closes\(r\) \? 0 : 16/return 15/'
mutant 'a missing last bit read as 0' 's/if \(width > 8 \* r->len - r->at\)/if (width > 1 \&\& width > 8 * r->len - r->at)/'

# Which rounds are charged
mutant 'all rounds written are charged, as before L7' "$all_charged"
mutant 'one round more is charged' "$(charged 'counts->charged + 1')"
mutant 'one round more is charged, where one is written' "$one_late"
mutant 'one round less is charged' "$one_early"
mutant 'one round less is charged, where rounds follow' "$(charged 'counts->charged - (counts->charged > 0 \&\& counts->charged < written)')"
mutant 'none charged only where none is written' "$none_for_none"
mutant 'the first round charged though nothing is read' "$(charged 'counts->charged == 0 \&\& written > 0 ? 1 : counts->charged')"
mutant 'a stop of 0 is charged, if there are references' "$(charged 'job->stop == 0 \&\& job->references > 0 ? written : counts->charged')"
mutant 'no references are charged, but for a stop of 0 none' "$(charged 'job->references == 0 ? written : counts->charged')"
mutant 'charged up to the last round in which a disk fetches' "$busy
    ${in_rounds}s/^        if \\(left \\&\\& .*/        if (busy)/"
mutant 'the same, but nothing where nothing is read' "$busy
    ${in_rounds}s/^        if \\(left \\&\\& .*/        if (busy \\&\\& job->stop > 0)/"
mutant 'rounds in which no disk fetches not charged' "$busy
    ${in_rounds}{s/^        if \\(left \\&\\& .*/        if (left \\&\\& busy)/;s/= \\(uint16_t\\)round;/+= 1;/}"
mutant 'rounds in which nothing is consumed not charged' "$reading_rounds"
mutant 'charged anew after a round in which no disk fetches' "$busy
    ${in_rounds}s/= \\(uint16_t\\)round;/= (uint16_t)(round - rest);/
    ${in_rounds}s/^        next_read = consume.*/        if (!busy) rest = round;\\n&/
    ${in_rounds}s/^    unsigned next_read = start/    unsigned rest = 0;\\n&/"
mutant 'charged up to the first reference consumed' "${in_rounds}s/^        if \\(left \\&\\& .*/        if (next_read > 0 \\&\\& counts->charged == 0)/"
mutant 'charged up to the last reference but one' \
    "${in_rounds}{s/bool left = next_read </bool left = next_read + 1 </;s/left \\&\\& next_read == /left \\&\\& next_read + 1 >= /}"
mutant 'charged up to references past the stop' "$past_charged"
mutant 'charged where the last block is fetched, not where it is consumed' "$(when_left 'job->stop > 0 \&\& !s.resident[job->reference[job->stop - 1]]')"
mutant 'charged up to the last round in which all blocks read are there' "$(when_left true)"
mutant 'no more rounds charged than references' "$(charged 'counts->charged > job->stop ? (uint16_t)job->stop : counts->charged')"
for bits in 8 10 11; do
    mutant "the last $bits bits of the rounds charged" "$(charged "counts->charged \\& ((1 << $bits) - 1)")"
done
mutant '10 tested by the rounds charged' "s/^    if \\(written > REF_ROUNDS\\)/    if (false)/;${in_rounds}s/^    if \\(next_read < job->stop\\)/    if (counts->charged > REF_ROUNDS) return 10;\\n&/"

# Fetches after the last reference
mutant 'fetches counted to the last reference only' "$no_late_fetches"
mutant 'fetches not counted where no round is charged' "${in_rounds}s/\\+= a.fetch != REF_NONE/+= a.fetch != REF_NONE \\&\\& job->stop > 0/"
mutant 'fetches after the last reference counted into empty slots only' "$(counted_late 'a.discard == REF_NONE')"
mutant 'fetches after the last reference counted where a block leaves only' "$(counted_late 'a.discard != REF_NONE')"
mutant 'fetches after the last reference counted on disk 0 only' "$(counted_late 'd == 0')"
mutant 'fetches after the last reference counted but for the last disk' "$(counted_late 'd + 1 < job->disks || d == 0')"
mutant 'fetches of the round after the last reference only' "$(counted_late 'round == counts->charged + 1u')"

# Rounds after the last reference are read and tested
mutant 'rounds after the last reference not read' "${in_rounds}s/^        bool left = .*/&\\n        if (!left) break;/"
mutant 'rounds after the last reference not read, and what follows not looked at' "${in_rounds}s/^        bool left = .*/&\\n        if (!left) return 0;/"
for number in 11 12 13 14 20; do
    mutant "$number not tested after the last reference" \
        "${in_rounds}s/^            if \\(number != 0\\)/            if (number == $number \\&\\& !left) number = 0, a = (struct ref_action){REF_NONE, REF_NONE};\\n&/"
done
mutant '9 not tested after the last reference' "${in_rounds}s/^            if \\(number != 0\\)/            if (number == 9 \\&\\& !left) return 0;\\n&/"
mutant '16 not tested where rounds follow the last reference' "${in_rounds}s/return closes\\(r\\) \\? 0 : 16/return counts->charged < written || closes(r) ? 0 : 16/"
mutant 'rounds after the last reference refused' "${in_rounds}s/^        bool left = .*/&\\n        if (!left) return 15;/"
mutant 'a last round that reads nothing refused' "${in_rounds}s/^    if \\(next_read < job->stop\\)/    if (next_read < job->stop || counts->charged + 1u == written)/"

# The choice, by the rounds charged
mutant 'chosen by the rounds written' "$by_written"
mutant 'a tie goes to the sheet with no more rounds written' "$(chosen "$second.charged < $first.charged || ($second.charged == $first.charged \\&\\& $written_2 <= $written_1)")"
mutant 'chosen by the rounds written, the charged for a tie' \
    "$(chosen "$written_2 < $written_1 || ($written_2 == $written_1 \\&\\& $second.charged <= $first.charged)")"
mutant 'all rounds of the first sheet of a choice are charged' "$(all_of 0 "$written_1")"
mutant 'all rounds of the second sheet of a choice are charged' "$(all_of 1 "$written_2")"
mutant 'the rounds after the last reference compared' \
    "$(chosen "$written_2 - $second.charged <= $written_1 - $first.charged")"

# The choice
mutant 'a tie goes to the first' "$tie_first"
mutant 'a tie goes to the shorter sheet' \
    "$(chosen "$second.charged < $first.charged || ($second.charged == $first.charged \&\& len[1] <= len[0])")"
mutant 'chosen by length' "$(chosen 'len[1] <= len[0]')"
mutant 'chosen by fetches' "$by_fetches"
mutant 'the sheet with more rounds' "$(chosen "$second.charged >= $first.charged")"
mutant 'the last eight bits of the rounds compared' "$(chosen "(uint8_t)$second.charged <= (uint8_t)$first.charged")"
mutant 'the second checked before the first' 's/sheet\[k\], len\[k\], &counts\[k\]/sheet[1 - k], len[1 - k], \&counts[1 - k]/'
mutant 'a failure of the first forgiven' 's/(number == 0 && k < 2); k\+\+/\1; number *= k, k++/'
mutant 'a failure of the second forgiven' 's/(number == 0 && k < 2); k\+\+/\1; number *= 1 - k, k++/'
mutant 'the first checked twice' 's/check_sheet\(&job, sheet\[k\], len\[k\]/check_sheet(\&job, first, m1/'
mutant "the first sheet's 9 before the ticket's number" \
    '/^unsigned ref_choose/,/^}/s/^    memset\(out.*/&\n    if (m1 < 2) return 9;/'
mutant "the other sheet's length" 's/len\[out->which\]/len[1 - out->which]/'
mutant 'the last eight bits of the length' 's/\(uint16_t\)len\[out->which\]/(uint8_t)len[out->which]/'
mutant 'which and length exchanged' \
    '/^void ref_chosen_numbers/,/^}/{s/chosen->which/chosen->left/;s/chosen->length/chosen->which/;s/chosen->left/chosen->length/}'

# The letters of a page
mutant 'E shown as M' "$(shown E M)"
mutant 'M shown as S' "$(shown M S)"
mutant 'S shown as W' "$(shown S W)"
mutant 'W shown as N' "$(shown W N)"
mutant 'N shown as E' "$(shown N E)"
mutant 'E beside an empty slot though there is no U' "$n_as_e"
mutant 'S where the min-block is due and there is no U' "$n_as_s"
mutant 'W where S holds and P-CON would wait too' "$s_as_w"
mutant 'the letter of the next disk' "$next_letter"

# The columns of a page
mutant 'rounds from 0' "$(round_as 'round - 1')"
mutant 'the last digit of the round' "$(round_as 'round % 10')"
mutant 'the last two digits of the round' "$(round_as 'round % 100')"
mutant 'the last three digits of the round' "$(round_as 'round % 1000')"
mutant 'the last eight bits of the round' "$(round_as 'round % 256')"
mutant 'disks from 1' "$(disk_as 'd + 1')"
mutant 'the last two bits of the disk' "$(disk_as 'd % 4')"
mutant 'by disk and then by round' "$by_disk"
mutant 'the action of the next disk' "$next_disk"
mutant 'fetched and discarded block exchanged' "$exchanged"
mutant 'block 0 shown as none' '/^static void put_block/,/^}/s/block == REF_NONE/block == REF_NONE || block == 0/'
mutant 'spaces for no block' 's/"---"/"   "/'
mutant 'the last digit of a block' "$(block_as 'block % 10')"
mutant 'the last two digits of a block' "$(block_as 'block % 100')"
mutant 'the last eight bits of a block' "$(block_as 'block % 256')"
mutant 'numbers left aligned' \
    "/^static void put_number/,/^}/s/^    do \\{/    memset(to, ' ', columns);\\n    columns = value < 10 ? 1 : value < 100 ? 2 : value < 1000 ? 3 : 4;\\n&/"
mutant 'numbers with zeros in front' "/^static void put_number/,/^}/s/= ' ';/= '0';/"
mutant 'no line feed after a line' '/^static void put_line/,/^}/s/^    line\[16\].*/    ;/'

# The legend
mutant 'no line feed after a legend line' 's/^        line\[REF_LINE - 1\].*/        ;/'
mutant 'W before S in the legend' 's/"S used sooner", "W waits"/"W waits", "S used sooner"/'
mutant 'the legend by the alphabet' 's/"M min-block out", (.*), ("N none left")/"M min-block out", \2, \1/'
mutant 'another word in the legend' 's/"N none left"/"N nothing left"/'
mutant 'the legend before the lines' "s/^    put_legend\\(page\\);/    ;/;s/^    $each_round/    put_legend(page), page += REF_LEGEND * REF_LINE;\\n&/"
mutant 'no legend for no rounds' 's/^    put_legend\(page\);/    if (round > 0) put_legend(page);/'

# The plan of a page
mutant 'the page of the plan not handed back' "$of_other"
mutant 'the page of P-CON always' "$of_p_con"
mutant 'the page of P-MIN always' "$of_p_min"

# The room for a page
mutant '19 for an exact room' 's/if \(length > ng\)/if (length >= ng)/'
mutant 'no 19 for a room one byte short' 's/if \(length > ng\)/if (length > ng + 1)/'
mutant '19 where the page of P-CON does not fit' 's/if \(length > ng\)/if ((drawn.planned.counts[1].charged * drawn.job.disks + REF_LEGEND) * REF_LINE > ng)/'
mutant '18 for the page' 's/return 19;/return 18;/'
mutant '19 before 18' "$(before_number "if (number == 18 \\&\\& $page_length > ng) return 19;")"
mutant '19 before 17' "$(before_number "if (number == 17 \\&\\& $page_length > ng) return 19;")"
mutant "19 before the ticket's numbers" "$(before_number 'if (number < 9 \&\& ng < REF_LEGEND * REF_LINE) return 19;')"
mutant '17 not tested with a page' "${in_page}s/draw_up\\(ticket, n, stop, room/draw_up(ticket, n, stop, (const size_t[]){REF_SHEET, np}/"
mutant '18 not tested with a page' "${in_page}s/draw_up\\(ticket, n, stop, room/draw_up(ticket, n, stop, (const size_t[]){ns, REF_SHEET}/"
mutant 'sheets written although 19' 's/^    if \(length > ng\)/    write_sheets(\&drawn, buffer, room);\n&/'
mutant 'sheet of P-MIN written although 18, with a page' "$in_page$written_first"
mutant 'the page begun although 19' 's/^    if \(length > ng\)/    if (ng > 0) page[0] = 32;\n&/'
mutant 'the page begun although 18' "$(before_number 'if (number == 18 \&\& ng > 0) page[0] = 32;')"
mutant 'a byte past the page changed' 's/^    write_page\(&drawn.*/&\n    if (length < ng) page[length] = 10;/'
mutant "a byte past the page's buffer changed" 's/^    write_page\(&drawn.*/&\n    if (length == ng) page[length] = 10;/'

# What else a call with a page gives
mutant 'no sheets beside a page' "${in_page}s/^    write_sheets.*/    (void)buffer;/"
mutant 'no counts beside a page' "${in_page}s/^    out->planned = .*/    (void)out;/"
mutant 'the length without the legend' 's/out->length = length/out->length = length - REF_LEGEND * REF_LINE/'
mutant 'the length in lines' 's/out->length = length/out->length = length \/ REF_LINE/'

# Plans that are beaten
searched 'P-CON never waits' "$no_wait" 'NOT THE LEAST'
searched 'P-MIN waits too' "$all_wait" 'NOT THE LEAST'
searched 'demand-only fetching' "$demand" 'NOT THE LEAST'
searched 'P-CON discards a block due before U' "$early" 'NOT THE LEAST'

# Stops: plans that are beaten, or beat, up to the stop; and plans that what is past it changes
searched 'the reference at the stop counts too' "$one_more" 'PAST THE STOP COUNTS'
searched 'the last reference before the stop does not count' "$one_less" 'NOT THE LEAST'
searched 'a stop of N refused' "$(refused 'stop >= job->references')" 'NOT AS THE END'
searched 'a reference past the stop is no never' "$no_never" 'NOT THE LEAST\|NOT AS THE END'
searched 'the reference at the stop is no never' "$no_never_at" 'NOT THE LEAST\|PAST THE STOP COUNTS'
searched 'the min-block by references past the stop' "$min_past" 'NOT AS THE END'
searched 'P-CON waits by references past the stop' "$wait_past" 'PAST THE STOP COUNTS'
searched 'the page up to N' "$page_past" 'NOT AS THE END'

# Carried blocks: plans that are beaten, or beat, from them; and plans and pages that do not go on from what is in the buffers
searched 'carried blocks are not in the buffers' "$none_carried" 'NOT THE LEAST'
searched 'carried blocks take no slot' "$not_held" 'OTHER COUNTS'
searched 'carried blocks take no slot in the plans' "$not_held_planned" 'NOT THE LEAST'
searched 'nothing is read before round 1' "$nothing_read" 'NOT THE LEAST'
searched 'distances from the first reference, though some are read' "$distances_left" 'NOT THE LEAST'
searched 'P-MIN starts empty' "$(starts_empty 0)" 'NOT THE LEAST'
searched 'P-CON starts empty' "$(starts_empty 1)" 'NOT THE LEAST'
searched 'the check starts empty' "$check_empty" 'NOT THE LEAST'
searched 'the page starts empty' "$page_empty" 'ANOTHER PAGE'
searched 'a fetched block goes before any carried one' "$fetched_first" 'NOT THE LEAST'
searched 'a carried block goes before any fetched one' "$carried_first" 'NOT THE LEAST'
searched 'of several nevers a carried one goes first' "$carried_nevers" 'ANOTHER PAGE'
searched 'of several nevers a carried one goes first in P-MIN, on one disk, where the page is of P-CON' "$carried_nevers_short" 'GOES ON OTHERWISE'
searched 'of several nevers a carried one goes first in P-CON, where the page is of P-MIN' "$carried_nevers_sparing" 'GOES ON OTHERWISE'
searched 'a run by itself is charged a round more than in planning' "$one_more_alone" 'GOES ON OTHERWISE'
searched 'a carried block is a fetch' "$checked_as_fetch;$planned_as_fetch" 'NOT THE LEAST'
searched 'the reading before round 1 takes a round of a plan' "$round_for_reading" 'NOT THE LEAST'
searched 'the first round charged though all is read before it' "$(charged 'counts->charged == 0 \&\& job->stop > 0 \&\& written > 0 ? 1 : counts->charged')" 'OTHER COUNTS'
searched 'a count equal to the slots refused' 's/count > job->slots\[d\]/count >= job->slots[d]/' 'NOT THE LEAST'

# Searches that draw no carried blocks, or not of every kind
undrawn 'nothing is carried in' \
    's/\(each \|\| one_in\(c, 2\)\)/false/' 'carry blocks in: 0, none: 2000; read before round 1 in part: 0, to the stop: 0;'
undrawn 'carried blocks are never the next' 's/^        if \(carried_on\(job, d\) < /        if (b != job->reference[0] \&\& carried_on(job, d) < /' \
    'carry blocks in: [1-9].* in part: 0, to the stop: 0;'
undrawn 'no disk is full of carried blocks' 's/carried_on\(job, d\) < job->slots/carried_on(job, d) + 1 < job->slots/' \
    'full of carried blocks: 0, of such that are never read: 0$'

# Rounds that are charged, and fetches that are counted, otherwise than the search does
searched 'all rounds written are charged, as before L7' "$all_charged" 'OTHER COUNTS'
searched 'one round more is charged, where one is written' "$one_late" 'OTHER COUNTS'
searched 'one round less is charged' "$one_early" 'NOT THE LEAST'
searched 'none charged only where none is written' "$none_for_none" 'OTHER COUNTS'
searched 'rounds in which nothing is consumed not charged' "$reading_rounds" 'OTHER COUNTS'
searched 'charged up to references past the stop' "$past_charged" 'OTHER COUNTS'
searched 'one round more is charged, where six blocks are held at the end and one is written' \
    "$(charged 'counts->charged + (s.held[0] + s.held[1] + s.held[2] == 6 \&\& counts->charged < written)')" 'OTHER COUNTS'
searched 'fetches counted to the last reference only' "$no_late_fetches" 'OTHER COUNTS'
searched 'either plan ends in an idle round' "$idle_end" 'A PLAN HAS OTHER ROUNDS'
searched 'P-CON ends in an idle round, and all rounds written are charged' "$idle_charged" 'A PLAN HAS OTHER ROUNDS'

# Idle rounds of P-CON, by which nothing else fails: its fetches stay, and the sheet of P-MIN is handed back. On one disk, and where they are more
# than D times those of P-MIN, the rounds are more than the fetches too, which is tested last. D + 1 rounds to one of P-MIN pin the bound: D times and
# one more, or D + 1 times, would let them through.
searched 'P-CON begins with an idle round, on one disk' \
    "$(idle_rounds 'job->disks == 1 \&\& counts->charged == 0')" 'OTHER ROUNDS OF P-CON ON ONE DISK'
searched 'three rounds of four of P-CON idle, on several disks' "$(idle_rounds 'job->disks > 1 \&\& counts->charged % 4 < 3')" 'MORE THAN D TIMES'
searched 'P-CON takes D + 1 rounds to one of P-MIN' \
    "$(idle_rounds 'job->stop == 1 \&\& job->disks > 1 \&\& counts->charged < job->disks')" 'MORE THAN D TIMES'
searched 'P-CON begins with an idle round, on several disks' "$(idle_rounds 'job->disks > 1 \&\& counts->charged == 0')" 'MORE ROUNDS OF P-CON THAN'
searched 'the fifth round of P-CON idle, on several disks' "$(idle_rounds 'job->disks > 1 \&\& counts->charged == 4')" 'MORE ROUNDS OF P-CON THAN'

# Choices between the sheets of both plans, and of a way of the search, that do not follow the rounds charged
searched 'chosen by the rounds written' "$by_written" 'ANOTHER CHOICE'
searched 'a tie goes to the first' "$tie_first" 'ANOTHER CHOICE'
searched 'a tie stays with a first sheet that goes on after its last reference' \
    "$(chosen "$second.charged < $first.charged || ($second.charged == $first.charged \\&\\& $written_1 == $first.charged)")" 'ANOTHER CHOICE'
searched 'equal rounds give the sheet of P-MIN, and the first' 's/(counts\[1\].charged )<=( counts\[0\])/\1<\2/' 'ANOTHER CHOICE'
searched 'chosen by fetches' "$by_fetches" 'ANOTHER CHOICE'

# Pages that do not follow the sheets
for letters in 'E M' 'M S' 'S W' 'W N' 'N E'; do
    searched "letters on the page: $letters" "$(shown "${letters% *}" "${letters#* }")" 'ANOTHER PAGE'
done
searched 'E beside an empty slot though there is no U' "$n_as_e" 'ANOTHER PAGE'
searched 'S where the min-block is due and there is no U' "$n_as_s" 'ANOTHER PAGE'
searched 'W where S holds and P-CON would wait too' "$s_as_w" 'ANOTHER PAGE'
searched 'the letter of the next disk' "$next_letter" 'ANOTHER PAGE'
searched 'the action of the next disk' "$next_disk" 'ANOTHER PAGE'
searched 'fetched and discarded block exchanged' "$exchanged" 'ANOTHER PAGE'
searched 'by disk and then by round' "$by_disk" 'ANOTHER PAGE'
searched 'rounds from 0' "$(round_as 'round - 1')" 'ANOTHER PAGE'
searched 'the page of P-CON always' "$of_p_con" 'ANOTHER PAGE'
searched 'the page of P-MIN always' "$of_p_min" 'ANOTHER PAGE'

# Scripts about slot counts
in_least='/^static unsigned least_slots/,/^}/'
in_slots='/^unsigned ref_slots/,/^}/'
own="${in_least}s/^    unsigned carried = .*/&\\n    unsigned own = job->slots[d];/"

# counts_from, counts_to EXPRESSION - the script that has the counts tried from this one on, or up to this one; own is the ticket's.
counts_from() {
    printf '%s;%ss/unsigned s = 1; s/unsigned s = own > 0 ? %s : 1; s/' "$own" "$in_least" "$1"
}
counts_to() {
    printf '%s;%ss/s <= REF_SLOTS;/own > 0 \\&\\& s <= %s;/' "$own" "$in_least" "$1"
}

# left_out EXPRESSION - the script that has a count s not tried where this holds.
left_out() {
    printf '%ss/^        if \\(s < carried\\)/        if (%s)/' "$in_least" "$1"
}

# enough EXPRESSION - the script that has a count be enough where this holds; counts->charged are the rounds of P-MIN.
enough() {
    printf '%ss/^        if \\(counts->charged <= wanted\\)/        if (%s)/' "$in_least" "$1"
}

# before_run TEXT - the script that has this come before a count is tried.
before_run() {
    printf '%ss/^        ref_run\\(/        %s\\n&/' "$in_least" "$1"
}

# asked_as NAME EXPRESSION - the script that has this be the disk, or the wanted rounds, of a call.
asked_as() {
    printf '%ss/^    memset\\(out, 0, .*/&\\n    %s = %s;/' "$in_slots" "$1" "$2"
}

# outside EXPRESSION - the script that has 27 returned where this holds.
outside() {
    printf '%ss/^    if \\(disk >= job.disks\\)/    if (%s)/' "$in_slots" "$1"
}

# after_reading TEXT - the script that has this come before a refusal by ticket or stop.
after_reading() {
    printf '%ss/^    if \\(number != 0\\)$/    %s\\n&/' "$in_slots" "$1"
}

# for_none EXPRESSION - the script that has this number returned for none.
for_none() {
    printf '%s{/^    if \\(slots == 0\\)/{n;s/return 0;/return %s;/}}' "$in_slots" "$1"
}

# before_sheet TEXT - the script that has this come before the sheet is written, where a count is found.
before_sheet() {
    printf '%ss/^    length = /    %s\\n&/' "$in_slots" "$1"
}

# the job with the slots that it has then, planned once more
again='ref_run(\&job, REF_P_MIN, schedule, \&counts);'
from_2=$(counts_from 2)
from_own=$(counts_from own)
to_own=$(counts_to own)
below_carried=$(left_out false)
above_carried=$(left_out 's <= carried')
greatest="${in_least}s/unsigned s = 1; s <= REF_SLOTS; s\\+\\+/unsigned s = REF_SLOTS; s >= 1; s--/"
every_second="${in_least}s/s <= REF_SLOTS; s\\+\\+/s <= REF_SLOTS; s += 2/"
one_round_more=$(enough 'counts->charged <= wanted + (wanted < SIZE_MAX)')
one_round_less=$(enough 'counts->charged < wanted')
past_largest=$(enough 'counts->charged < wanted + 1')
all_p_con="${in_least}s/REF_P_MIN/REF_P_CON/"
by_p_con="$all_p_con;$(before_sheet "$again")"
sheet_of_p_con=$(before_sheet 'ref_run(\&job, REF_P_CON, schedule, \&counts);')
whole_job=$(before_run 'job->stop = job->references;')
all_disks=$(before_run 'for (unsigned e = 0; e < job->disks; e++) job->slots[e] = s;')
other_disks=$(before_run 'for (unsigned e = 0; e < job->disks; e++) job->slots[e] = e == d ? s : REF_SLOTS;')
never_none="${in_least}s/^    return 0;/    return REF_SLOTS;/"
sheet_of_own="${in_slots}s/^    slots = .*/    unsigned own = job.slots[disk];\\n&/;$(before_sheet "job.slots[disk] = own; $again")"
none_written="${in_slots}s/^    if \\(slots == 0\\)/    if (slots == 0 \\&\\& room > 0) sheet[0] = 0;\\n&/"
blocks_of_disk='unsigned blocks = 0; for (unsigned b = 0; b < job->blocks; b++) blocks += job->disk[b] == d;'
own_first="struct ref_job o = *job; o.slots[d] = own; ref_run(\\&o, REF_P_MIN, schedule, counts); if (counts->charged <= wanted) return own;"
own_sheet="struct ref_job o = job; o.slots[disk] = own; ref_run(\\&o, REF_P_MIN, schedule, \\&counts); if (own > slots \\&\\& sheet_length(schedule, (size_t)counts.charged * job.disks) > room) return 17; $again"
next_count="while (length > room \\&\\& slots < REF_SLOTS) {\\n        job.slots[disk] = ++slots;\\n        $again\\n\
        length = ref_write_sheet(schedule, counts.charged, job.disks, sheet, room);\\n    }"
idle_last='if (counts.charged > 0 \&\& counts.charged < REF_ROUNDS) memset(schedule + counts.charged++ * job.disks, 0xff, job.disks * sizeof *schedule);'

# written_by NUMBER - the script that has a byte written though the call is refused with this number.
written_by() {
    parameters='const uint8_t *ticket, size_t n, size_t stop, size_t disk, size_t wanted, uint8_t *sheet, size_t room, struct ref_slotted *out'
    right="    unsigned number = right_slots(ticket, n, stop, disk, wanted, sheet, room, out);"
    printf '%s\n' "s/^unsigned ref_slots\\(/static unsigned right_slots(/" "s/^\\/\\* ---- The check ---- \\*\\//\
unsigned ref_slots($parameters)\\n{\\n$right\\n    if (number == $1 \\&\\& room > 0) sheet[0] = 0;\\n    return number;\\n}\\n\\n&/"
}

# Which counts are tried
slotted 'from 2' "$from_2"
slotted "from the ticket's own" "$from_own"
slotted "from one above the ticket's own" "$(counts_from 'own + 1')"
slotted "up to the ticket's own" "$to_own"
slotted 'up to 63' "$(counts_to 63)"
slotted 'up to 65' "$(counts_to 65)"
slotted 'up to 32' "$(counts_to 32)"
slotted 'up to as many as the disk has blocks' "$(counts_to blocks);${in_least}s/^    for \\(/    $blocks_of_disk\\n&/"
slotted 'every second one' "$every_second"
slotted 'powers of two' "${in_least}s/s <= REF_SLOTS; s\\+\\+/s <= REF_SLOTS; s *= 2/"
for count in 25 33 37 57; do
    slotted "$count is left out" "$(left_out "s < carried || s == $count")"
done
slotted 'the greatest for the least' "$greatest"
slotted "the ticket's own, if it is enough" "$own;$(before_run "$own_first")"
slotted 'one more than the least' "${in_least}s/return s;/return s + 1;/"
slotted 'one more than the least, below 64' "${in_least}s/return s;/return s + (s < REF_SLOTS);/"
slotted 'below the blocks carried in' "$below_carried"
slotted 'from one above the blocks carried in' "$above_carried"
slotted 'from one below the blocks carried in' "$(left_out 's + 1 < carried')"
slotted 'not below the blocks that disk 0 carries in' "${in_least}s/= carried_on\\(job, d\\)/= carried_on(job, 0)/"
slotted 'not below the blocks that all disks carry in' \
    "${in_least}s/^    unsigned carried = .*/    unsigned carried = 0; for (unsigned e = 0; e < job->disks; e++) carried += carried_on(job, e);/"
slotted 'none where 64 blocks are carried in' "$(left_out 's < carried || carried == REF_SLOTS')"
slotted "the ticket's own slots whatever the count" "${in_least}s/^        job->slots\\[d\\] = s;/        ;/"

# Which rounds are enough
slotted 'one round more' "$one_round_more"
slotted 'one round less' "$one_round_less"
slotted 'as many as wanted alone' "$(enough 'counts->charged == wanted')"
slotted 'less than one more, which is 0 for the largest' "$past_largest"
slotted 'at most one less, which is the largest for 0' "$(enough 'counts->charged <= wanted - 1')"
slotted 'none for no rounds' "$(enough 'wanted > 0 \&\& counts->charged <= wanted')"
slotted 'none for nothing to read' "$(enough 'counts->charged > 0 \&\& counts->charged <= wanted')"
slotted 'by the fetches of the disk' "$(enough 'counts->fetches[d] <= wanted')"
slotted 'by the last eight bits of the rounds' "$(enough '(uint8_t)counts->charged <= wanted')"
for bits in 8 12 16 32 63; do
    slotted "the last $bits bits of the wanted rounds" "$(asked_as wanted "wanted \\& ((1ull << $bits) - 1)")"
done
slotted 'the wanted rounds as a signed number' "$(enough '(long long)counts->charged <= (long long)wanted')"
slotted 'by P-CON, and its sheet' "$all_p_con"
slotted 'by P-CON' "$by_p_con"
slotted 'up to N' "$whole_job"
slotted 'up to one more than the stop' "$(asked_as job.stop 'job.stop + (job.stop < job.references)')"
slotted 'up to one less than the stop' "$(asked_as job.stop 'job.stop - (job.stop > 0)')"
slotted 'with as many slots on the other disks' "$all_disks"
slotted 'with 64 slots on the other disks' "$other_disks"
slotted 'with one slot on the other disks' "$(before_run 'for (unsigned e = 0; e < job->disks; e++) job->slots[e] = e == d ? s : 1;')"
slotted 'the disk starts empty' "$(before_run 'for (unsigned b = 0; b < job->blocks; b++) if (job->disk[b] == d) job->carried[b] = false;')"
slotted 'the other disks start empty' "$(before_run 'for (unsigned b = 0; b < job->blocks; b++) if (job->disk[b] != d) job->carried[b] = false;')"

# The answer, and its sheet
slotted '64 for none' "$never_none"
slotted '1 for none' "${in_least}s/^    return 0;/    return 1;/"
slotted '17 for none' "$(for_none 17)"
slotted '27 for none' "$(for_none 27)"
slotted "the sheet for the ticket's own slots" "$sheet_of_own"
slotted 'the sheet of P-CON' "$sheet_of_p_con"
slotted 'the sheet for 64 slots' "$(before_sheet "job.slots[disk] = REF_SLOTS; $again")"
slotted 'the sheet up to N' "$(before_sheet "job.stop = job.references; $again")"
slotted 'the sheet not written' "${in_slots}s/^    length = .*/    length = sheet_length(schedule, (size_t)counts.charged * job.disks);/"
slotted 'the sheet ends in an idle round' "$(before_sheet "$idle_last")"
slotted 'the sheet without its last round' "$(before_sheet 'counts.charged -= counts.charged > 0;')"
slotted 'the last eight bits of the length' "${in_slots}s/out->length = length;/out->length = length \\& 255;/"
slotted 'a byte past the sheet changed' "${in_slots}s/^    out->slots = slots;/&\\n    if (length < room) sheet[length] = 0;/"
slotted "a byte past the sheet's buffer changed" "${in_slots}s/^    out->slots = slots;/&\\n    if (length == room) sheet[length] = 0;/"
slotted 'a byte written for none' "$none_written"
for number in 8 17 21 27; do
    slotted "a byte written by $number" "$(written_by "$number")"
done

# The room for the sheet
slotted 'exact room refused' "${in_slots}s/length > room\\)/length >= room)/"
slotted 'a byte less than the sheet accepted' "${in_slots}{s/sheet, room\\);/sheet, room + 1);/;s/length > room\\)/length > room + 1)/}"
slotted '18 for 17' "${in_slots}s/return 17;/return 18;/"
slotted 'none for 17' "${in_slots}s/return 17;/return 0;/"
slotted 'the next count where the sheet does not fit' "${in_slots}s/^    if \\(length > room\\)/    $next_count\\n&/"
slotted '17 for a room of less than the longest sheet' "${in_slots}s/length > room\\)/room < REF_SHEET)/"
slotted "17 where the sheet for the ticket's own slots, which are more, does not fit" \
    "${in_slots}s/^    slots = .*/    unsigned own = job.slots[disk];\\n&/;$(before_sheet "$own_sheet")"
slotted '17 before none' "$(for_none 'room < 2 ? 17 : 0')"
slotted '17 before 27' "${in_slots}s/return 27;/return room < 2 ? 17 : 27;/"

# Which disks are refused
slotted 'a disk of D accepted' "$(outside 'disk > job.disks || disk >= REF_DISKS')"
slotted 'a disk of 8 or more alone refused' "$(outside 'disk >= REF_DISKS')"
slotted 'the last disk refused' "$(outside 'disk >= job.disks - 1')"
slotted 'the last of eight disks refused' "$(outside 'disk >= job.disks || disk == REF_DISKS - 1')"
slotted 'disk 0 refused' "$(outside 'disk - 1 >= job.disks - 1')"
slotted 'no disk refused, but divided by D' "$(outside '(disk %= job.disks) > REF_DISKS')"
slotted 'no disk refused, but the last taken' "$(outside 'disk >= job.disks \&\& (disk = job.disks - 1u) > REF_DISKS')"
for bits in 3 8 16 32 63; do
    slotted "the last $bits bits of the disk" "$(asked_as disk "disk \\& ((1ull << $bits) - 1)")"
done
slotted 'the largest number is disk 0' "$(asked_as disk 'disk == SIZE_MAX ? 0 : disk')"
slotted 'the next disk' "${in_slots}s/^    slots = /    disk = (disk + 1) % job.disks;\\n&/"
slotted 'disk 0 whatever the disk' "${in_slots}s/^    slots = /    disk = 0;\\n&/"
slotted 'the last disk whatever the disk' "${in_slots}s/^    slots = /    disk = job.disks - 1u;\\n&/"
slotted 'none for 27' "${in_slots}s/return 27;/return 0;/"
slotted '17 for 27' "${in_slots}s/return 27;/return 17;/"
slotted 'none before 27' "${in_slots}s/return 27;/return wanted == 0 ? 0 : 27;/"

# When 21, 27, 17 and none come
for number in 1 2 3 4 5 6 7 25 26 8 21; do
    slotted "27 tested before $number" "$(after_reading "if (number == $number \\&\\& disk > REF_DISKS) return 27;")"
    slotted "17 tested before $number" "$(after_reading "if (number == $number \\&\\& room < 2) return 17;")"
    slotted "none before $number" "$(after_reading "if (number == $number \\&\\& wanted == 0) return 0;")"
done
for number in 1 2 3 4 5 6 7 25 26 8; do
    slotted "21 tested before $number" "$(after_reading "if (number == $number \\&\\& stop > REF_REFERENCES) return 21;")"
done

# The same in the search: counts that are not the least, and other sheets
searched 'slot counts from 2' "$from_2" 'ANOTHER SLOT COUNT'
searched "slot counts from the ticket's own" "$from_own" 'ANOTHER SLOT COUNT'
searched "slot counts up to the ticket's own" "$to_own" 'ANOTHER SLOT COUNT'
searched 'every second slot count' "$every_second" 'ANOTHER SLOT COUNT'
searched 'the greatest slot count for the least' "$greatest" 'ANOTHER SLOT COUNT'
searched 'slot counts below the blocks carried in' "$below_carried" 'ANOTHER SLOT COUNT'
searched 'slot counts from one above the blocks carried in' "$above_carried" 'ANOTHER SLOT COUNT'
searched 'slot counts for one round more' "$one_round_more" 'ANOTHER SLOT COUNT'
searched 'slot counts for one round less' "$one_round_less" 'ANOTHER SLOT COUNT'
searched 'slot counts for less than one round more, which is 0 for the largest' "$past_largest" 'ANOTHER SLOT COUNT'
searched 'slot counts by P-CON' "$by_p_con" 'ANOTHER SLOT COUNT'
searched 'slot counts up to N' "$whole_job" 'ANOTHER SLOT COUNT\|ANOTHER SHEET FOR THE SLOTS'
searched 'slot counts with as many slots on the other disks' "$all_disks" 'ANOTHER SLOT COUNT\|ANOTHER SHEET FOR THE SLOTS'
searched 'slot counts with 64 slots on the other disks' "$other_disks" 'ANOTHER SLOT COUNT'
searched '64 slots for none' "$never_none" 'ANOTHER SLOT COUNT'
searched "the sheet for the ticket's own slots" "$sheet_of_own" 'ANOTHER SHEET FOR THE SLOTS'
searched 'the sheet of P-CON for a slot count' "$sheet_of_p_con" 'ANOTHER SHEET FOR THE SLOTS'
searched 'the sheet of a slot count up to N' "$(before_sheet "job.stop = job.references; $again")" 'ANOTHER SHEET FOR THE SLOTS'
searched 'a byte written for no slot count' "$none_written" 'ANOTHER SHEET FOR THE SLOTS'

# Searches that judge slot counts otherwise than the reference
in_counts='/^static void search_counts/,/^}/'
in_first='/^static unsigned first_count/,/^}/'
in_wanted='/^static size_t draw_wanted/,/^}/'
misjudged 'the greatest slot count' "${in_first}s/s = by->low; s <= by->high; s\\+\\+/s = by->high; s >= by->low; s--/" 'ANOTHER SLOT COUNT'
misjudged 'one round more' "${in_first}s/by->fewest\\[s\\] <= wanted/by->fewest[s] <= wanted + 1/" 'ANOTHER SLOT COUNT'
misjudged 'one round less' "${in_first}s/by->fewest\\[s\\] <= wanted/by->fewest[s] < wanted/" 'ANOTHER SLOT COUNT'
misjudged 'slot counts below the blocks carried in' "${in_counts}s/by->low = .*/by->low = 1;/" 'ANOTHER SLOT COUNT'
misjudged 'no slot count above 2' "${in_counts}s/^    for \\(other/    by->high = by->low > 2 ? by->low : by->high > 2 ? 2 : by->high;\\n&/" 'ANOTHER SLOT COUNT'
misjudged 'a slot more than the count' "${in_counts}s/= least/= by->fewest[other.slots[d] - (other.slots[d] > by->low)] = least/" 'ANOTHER SLOT COUNT'
misjudged 'the sheet of P-CON' '/^static bool is_short_sheet/,/^}/s/REF_P_MIN/REF_P_CON/' 'ANOTHER SHEET FOR THE SLOTS'

# Searches that draw not every kind of slot count
undrawn 'always more rounds than any sheet has' "${in_wanted}{s/^    if \\(how == 7\\)/    if (true)/;s/one_in\\(c, 2\\) \\? 0 : //}" 'above: 0, none: 0;'
undrawn 'never a round wanted' "${in_wanted}s/^    if \\(how == 7\\)/    return 0;\\n&/" 'above: 0, none: [1-9]'
undrawn 'one slot on every disk' 's/^    \*job = waiting\[which\];/&\n    for (unsigned d = 0; d < job->disks; d++) job->slots[d] = 1;/
    s/^        job->slots\[d\] = tight .*/        job->slots[d] = 1;/' "below the ticket's own: 0,"
undrawn 'sixty slots on every disk' 's/^    \*job = waiting\[which\];/&\n    for (unsigned d = 0; d < job->disks; d++) job->slots[d] = 60;/
    s/^        job->slots\[d\] = tight .*/        job->slots[d] = 60;/' 'equal: 0, above: 0,'
undrawn 'no more than one block carried in on a disk' 's/carried_on\(job, d\) < job->slots\[d\] && /carried_on(job, d) < 1 \&\& /' 'of 2 or more carried blocks: 0$'

# Scripts about notes
in_append='/^static void append/,/^}/'
in_repeat='/^static void repeat/,/^}/'
in_mix='/^static void mix/,/^}/'
in_number='/^static bool read_number/,/^}/'
in_part='/^static bool read_part/,/^}/'
in_item='/^static bool read_item/,/^}/'
in_side='/^static bool read_side/,/^}/'
in_note='/^static bool read_note\(struct text \*t, struct string \*out\)$/,/^}/'
in_text='/^void ref_read_note/,/^}/'
in_call='/^unsigned ref_note/,/^}/'
right_first="/^    while \\(l </,/^    \\}/{s/left->/LEFT->/g;s/right->/left->/g;s/LEFT->/right->/g}"
to_right="${in_note}s/read_side\\(t, &right\\)/read_note(t, \\&right)/"
zeros='s/ \|\| \(!first && \*value == 0\)//'
deeper="${in_part}s/t->open == t->most/t->open > t->most/"
not_so_deep="${in_part}s/t->open == t->most/t->open + 1 >= t->most/"
never_closed="${in_part}s/^        t->open--;/        ;/"
deep_first="s/^    t->number = number;/    t->number = number == 22 \\&\\& character(t, 0) == '(' \\&\\& t->open == t->most ? 23 : number;/"
next_count="t->next++; if (!read_number(t, 1, REF_REFERENCES, \\&times)) return false;"
two_counts="${in_item}s/^    if \\(character\\(t, 0\\) != '\\*'\\)/    for (; character(t, 0) == '*'; repeat(out, times)) { $next_count }\\n&/"
two_spaces="${in_side}s/^        t->next\\+\\+;/        while (character(t, 0) == ' ') t->next++;/"
maybe_space="(character(t, 0) == ' ' \\&\\& !take(t, ' '))"
unspaced_bar="${in_note}{s/^    while .*/    while (character(t, 0) == ' ' || character(t, 0) == '|') {/;s/!take\\(t, ' '\\) \\|\\| !take/$maybe_space || !take/}"
too_many='if (s->count * times > REF_REFERENCES) { s->count = TOO_MANY; return; }'
each_twice="$in_repeat{s/^    for .*/    $too_many\\n    for (size_t k = 0; k < once.count * times; k++)/
    s/^        append.*/        s->reference[k] = once.reference[k \\/ times];\\n    s->count = once.count * times;/}"

# counted_in BITS - the script that has so many bits of a product or a sum of references kept.
counted_in() {
    bits="\\& (((__uint128_t)1 << $1) - 1)"
    few='if (few > REF_REFERENCES || s->count > few) { s->count = few; return; }'
    printf '%s\n' "${in_append}s/^    if .*/    size_t few = (s->count + more->count) $bits;\\n    $few\\n&/" \
        "${in_repeat}s/^    for .*/    size_t few = (s->count * (__uint128_t)times) $bits;\\n    $few\\n&/" \
        "${in_mix}s/^    if .left->.*/    struct string *s = left;\\n    size_t few = (s->count + right->count) $bits;\\n    $few\\n&/"
}

# read_as_space CODE - the script that has this byte read as a space.
read_as_space() {
    printf "s/^    return t->next .*/    int c = t->next + after < t->len ? t->at[t->next + after] : END;\\\\n    return c == %s ? ' ' : c;/" "$1"
}

# without_last CONDITION - the script that has the last character left out where this holds.
without_last() {
    printf '%ss/^    struct string all;/&\\n    if (n > 0 \\&\\& %s) t.len = --n;/' "$in_text" "$1"
}

# refused_as EXPRESSION - the script that has this number returned for a note, where `number` is the right one.
refused_as() {
    printf '%ss/^    if \\(noted.number != 0\\)$/    if (noted.number != 0) return %s;\\n&/' "$in_call" "$1"
}

# What a note means
misread 'the right side first' "$right_first"
misread 'the rest of the longer side dropped' "${in_mix}s/left->count \\|\\| r </left->count \\&\\& r </"
misread 'the rest of a longer left side dropped' "${in_mix}s/l < left->count \\|\\| r </r </"
misread 'the rest of a longer right side dropped' "${in_mix}s/ \\|\\| r < right->count\\)/)/"
misread 'one side after the other' "${in_note}s/mix\\(out/append(out/"
misread 'two from the left and one from the right' \
    "${in_mix}s/^(            )(mixed.* = left->.*)/\\1for (unsigned k = 0; k < 2 \\&\\& l < left->count; k++) \\2/"
misread 'grouped to the right' "$to_right"
misread 'each reference repeated in its place' "$each_twice"
misread 'one time more than the count' "${in_repeat}s/k = 1; k < times/k = 0; k < times/"
misread 'one time less than the count' "${in_repeat}s/k = 1; k < times/k = 2; k < times/"
misread 'counts not looked at' "${in_item}s/^    repeat\\(out, times\\);/    ;/"
misread 'the last eight bits of a block' 's/\(uint16_t\)block/(uint8_t)block/'
misread 'the last item of a side left out' "${in_side}s/^        append/        if (character(t, 0) == ' ') append/"
misread 'blocks from 1' 's/\(uint16_t\)block/(uint16_t)(block + 1)/'

# Numbers
misread '512 taken' 's/REF_BLOCKS - 1, &block/REF_BLOCKS, \&block/'
misread '511 refused' 's/REF_BLOCKS - 1, &block/REF_BLOCKS - 2, \&block/'
misread 'blocks of any size taken' 's/REF_BLOCKS - 1, &block/99999, \&block/'
misread '2049 taken as a count' "${in_item}s/1, REF_REFERENCES, /1, REF_REFERENCES + 1, /"
misread '2048 refused as a count' "${in_item}s/1, REF_REFERENCES, /1, REF_REFERENCES - 1, /"
misread 'counts of any size taken' "${in_item}s/1, REF_REFERENCES, /1, 99999999, /"
misread '0 taken as a count' "${in_item}s/1, REF_REFERENCES, /0, REF_REFERENCES, /"
misread 'zeros in front taken' "$zeros"
misread 'zeros in front of a count taken' \
    's/longer < least \|\|/(longer < least \&\& !is_digit(character(t, 1))) ||/;s/!first && \*value == 0/!first \&\& *value == 0 \&\& least == 0/'
misread '0 refused as a block' "${in_part}s/read_number\\(t, 0, /read_number(t, 1, /"
misread '00 taken' 's/\(!first && \*value == 0\)/(!first \&\& *value == 0 \&\& longer != 0)/'
misread 'a number without digits taken as 0' "${in_number}s/^        return refuse\\(t, 22\\);/        return least == 0 || refuse(t, 22);/"
misread 'a count without digits taken as 1' "${in_number}s/^        return refuse\\(t, 22\\);/        return (*value = least) == 1 || refuse(t, 22);/"
misread 'a colon is a digit' "s/c <= '9'/c <= ':'/"
misread 'a slash is a digit' "s/c >= '0'/c >= '\\/'/;s/unsigned longer = /unsigned longer = character(t, 0) < '0' ? 1 : /"

# Spaces and bars
misread 'two spaces taken' "$two_spaces"
misread 'a space in front taken' "${in_text}s/^    struct string all;/&\\n    if (n > 0 \\&\\& text[0] == ' ') t.next++;/"
misread 'a space at the end taken' "$(without_last "text[n - 1] == ' '")"
misread 'a line feed at the end taken' "$(without_last 'text[n - 1] == 10')"
misread 'a zero byte ends the text' "${in_text}s/^    struct string all;/&\\n    for (size_t k = 0; k < n; k++) if (text[k] == 0) t.len = n = k;/"
misread 'a tab is a space' "$(read_as_space 9)"
misread 'a line feed is a space' "$(read_as_space 10)"
misread 'the last seven bits of a character' 's/ \? t->at\[t->next \+ after\] : END/ ? t->at[t->next + after] \& 127 : END/'
misread 'a space after an opening parenthesis taken' "${in_part}s/^        if \\(!read_note/        if (character(t, 0) == ' ') t->next++;\\n&/"
misread 'a space before a closing parenthesis taken' \
    "${in_side}s/character\\(t, 1\\) != '\\|'/& \\&\\& character(t, 1) != ')'/
    ${in_note}s/^    while .*/    while (character(t, 0) == ' ' \\&\\& character(t, 1) == '|') {/
    ${in_part}s/!take\\(t, '\\)'\\)/$maybe_space || &/"
misread 'no space before a bar taken' "$unspaced_bar"
misread 'no space after a bar taken' "${in_note}s/!take\\(t, ' '\\) \\|\\| !read_side/$maybe_space || !read_side/"
misread 'two spaces before a bar taken' \
    "${in_side}s/^    while \\((.*)\\) \\{/    while (character(t, 1) == ' ' \\&\\& character(t, 2) == '|' ? t->next++, false : \\1) {/"
misread 'two spaces after a bar taken' "${in_note}s/!read_side\\(t, &right\\)/$maybe_space || &/"
misread 'a second bar taken' "${in_note}s/ !take\\(t, '\\|'\\) \\|\\|/ !take(t, '|') || (character(t, 0) == '|' \\&\\& !take(t, '|')) ||/"
misread 'an empty last side taken' "${in_note}s/!read_side\\(t, &right\\)/(right.count = 0, t->next < t->len \\&\\& &)/"
misread 'an empty first side taken' "${in_note}s/^    if \\(!read_side/    if (character(t, 0) == ' ' \\&\\& character(t, 1) == '|') out->count = 0; else if (!read_side/"
misread 'an empty side between bars taken' "${in_note}{s/struct string right;/struct string right = {1, {0}};/
    s/^    while .*/    while (character(t, 0) == ' ' || (character(t, 0) == '|' \\&\\& right.count == 0)) {/
    s/!take\\(t, ' '\\) \\|\\| !take\\(t, '\\|'\\)/$maybe_space || !take(t, '|')/
    s/!read_side\\(t, &right\\)/(right.count = 0, character(t, 0) != '|' \\&\\& &)/}"
misread 'an empty text taken' "${in_text}s/^    if \\(read_note/    all.count = 0;\\n    if (n > 0 \\&\\& read_note/"
misread 'no space between items taken' "${in_side}{s/^    while \\((.*)\\) \\{/    while (character(t, 0) == '(' || (\\1)) {/
    s/^        t->next\\+\\+;/        if (character(t, 0) == ' ') t->next++;/}"
misread 'a space before a count taken' "${in_item}s/^    if \\(character\\(t, 0\\) != '\\*'\\)/    if (character(t, 0) == ' ' \\&\\& character(t, 1) == '*') t->next++;\\n&/"
misread 'a space after the sign of a count taken' "${in_item}s/^    t->next\\+\\+;/    t->next += character(t, 1) == ' ' ? 2 : 1;/"
misread 'two counts taken' "$two_counts"
misread 'the sign of a count alone taken' "${in_item}s/^    if \\(!read_number/    if (!is_digit(character(t, 0))) return true;\\n&/"

# Parentheses
misread 'seventeen taken' "$deeper"
misread 'sixteen refused' "$not_so_deep"
misread 'no more than sixteen in all' "$never_closed"
misread '22 for seventeen' "${in_part}s/return refuse\\(t, 23\\)/return refuse(t, 22)/"
misread '23 before 22 on one character' "$deep_first"
misread '23 after a later 22' \
    "${in_text}s/^    out->number = t.number;/    if (t.number == 23 \\&\\& parentheses < 100) {\\n        ref_read_note(text, n, 100, out);\\n        if (out->number == 22) return;\\n    }\\n&/"
misread '23 for any parenthesis where sixteen are open' "s/^static bool refuse\\(.*/&;\\n&/;s/^    t->number = number;/    t->number = number == 22 \\&\\& t->open == t->most ? 23 : number;/"
misread 'an empty pair taken' "${in_part}s/^        if \\(!read_note\\(t, out\\) \\|\\| /        out->count = 0;\\n        if ((character(t, 0) != ')' \\&\\& !read_note(t, out)) || /"
misread 'closed by the end' "${in_part}s/!take\\(t, '\\)'\\)/(t->next < t->len \\&\\& !take(t, ')'))/"
misread 'one closed too often taken' "${in_text}s/t.next < n\\)/t.next < n \\&\\& text[t.next] != ')')/"
misread 'what follows the note not looked at' "${in_text}s/t.next < n\\)/false)/"

# How many references
misread 'a slice of just the references refused' "${in_call}s/noted.count > room/noted.count >= room/"
misread 'one reference more than the slice holds' "${in_call}s/noted.count > room/noted.count > room + 1/"
misread 'the slice not looked at' "${in_call}s/ \\|\\| noted.count > room//"
misread 'as many as the slice holds' "${in_call}s/ \\|\\| noted.count > room\\)/)/;${in_call}s/^    memcpy/    if (noted.count > room) noted.count = room;\\n&/"
misread '2049 references taken' "${in_call}s/noted.count > REF_REFERENCES \\|\\| /(noted.count = noted.count > REF_REFERENCES ? REF_REFERENCES : noted.count) > room || /"
misread '2048 references refused' "${in_call}s/noted.count > REF_REFERENCES/noted.count >= REF_REFERENCES/"
misread '22 for too many references' "${in_call}s/return 24/return 22/"
misread '23 for too many references' "${in_call}s/return 24/return 23/"
for number in 22 23; do
    misread "24 before $number, for no room" "$(refused_as "room == 0 \\&\\& noted.number == $number ? 24 : noted.number")"
    misread "24 before $number, for more than 2048" "s/^static void append/static int many;\\n\\n&/;s/count = TOO_MANY;/&\\n        many = 1;/
        ${in_call}s/^    \\*count = 0;/    many = 0;\\n&/;$(refused_as "many \\&\\& noted.number == $number ? 24 : noted.number")"
done
for bits in 16 32 64; do
    misread "$bits bits of a number of references" "$(counted_in "$bits")"
done

# What is written
misread 'an entry past the count changed' "${in_call}s/^    \\*count = noted.count;/&\\n    if (noted.count < room) references[noted.count] = 0;/"
misread 'an entry past the slice changed' "${in_call}s/^    \\*count = noted.count;/&\\n    if (noted.count == room) references[noted.count] = 0;/"
misread 'no entry written' "${in_call}s/^    memcpy/    if (room > REF_BLOCKS * 9) memcpy/"
misread 'an entry written by 22' "$(refused_as '(noted.number == 22 \&\& room > 0 ? references[0] = 0 : 0, noted.number)')"
misread 'an entry written by 23' "$(refused_as '(noted.number == 23 \&\& room > 0 ? references[0] = 0 : 0, noted.number)')"
misread 'entries written by 24, as many as fit' \
    "${in_call}s/^        return 24;/        {\\n        memcpy(references, noted.reference, (noted.count < room ? noted.count : room) * sizeof references[0]);\\n        return 24;\\n    }/"
misread 'one reference more in the count' "${in_call}s/^    \\*count = noted.count;/    *count = noted.count + 1;/"

# The same, and places, in the search of short texts
found 'the right side first' "$right_first" 'ANOTHER REFERENCE'
found 'the rest of the longer side dropped' "${in_mix}s/left->count \\|\\| r </left->count \\&\\& r </" 'ANOTHER COUNT\|NOT REFUSED'
found 'grouped to the right' "$to_right" 'ANOTHER REFERENCE'
found 'each reference repeated in its place' "$each_twice" 'ANOTHER REFERENCE'
found '512 taken' 's/REF_BLOCKS - 1, &block/REF_BLOCKS, \&block/' 'ANOTHER NUMBER'
found 'counts of any size taken' "${in_item}s/1, REF_REFERENCES, /1, 99999999, /" 'ANOTHER NUMBER\|AT ANOTHER PLACE'
found '0 taken as a count' "${in_item}s/1, REF_REFERENCES, /0, REF_REFERENCES, /" 'ANOTHER NUMBER'
found 'zeros in front taken' "$zeros" 'ANOTHER NUMBER'
found 'two counts taken' "$two_counts" 'ANOTHER NUMBER\|AT ANOTHER PLACE'
found 'two spaces taken' "$two_spaces" 'ANOTHER NUMBER\|AT ANOTHER PLACE'
found 'no space before a bar taken' "$unspaced_bar" 'ANOTHER NUMBER\|AT ANOTHER PLACE'
found 'one parenthesis more than allowed taken' "$deeper" 'ANOTHER NUMBER'
found 'as many parentheses as allowed refused' "$not_so_deep" 'ANOTHER NUMBER'
found 'no more than so many parentheses in all' "$never_closed" 'ANOTHER NUMBER'
found '23 before 22 on one character' "$deep_first" 'ANOTHER NUMBER'
found '2049 references taken' "${in_call}s/noted.count > REF_REFERENCES \\|\\| /(noted.count = noted.count > REF_REFERENCES ? REF_REFERENCES : noted.count) > room || /" 'NOT REFUSED WITH 24'
found 'an entry past the count changed' "${in_call}s/^    \\*count = noted.count;/&\\n    references[noted.count] = 0;/" 'WRITTEN PAST THE COUNT'
found 'an entry written by 24' "${in_call}s/^        return 24;/        return room > 0 ? references[0] = 0, 24 : 24;/" 'WRITTEN THOUGH REFUSED'
found 'the place of the character before' "${in_text}s/out->place = t.next/out->place = t.next - 1/" 'AT ANOTHER PLACE'
found 'the place where a number begins' \
    "$in_number{s/^    bool first = true;/    size_t start = t->next;\\n&/;s/^            return refuse\\(t, 22\\);/            return t->next = start, refuse(t, 22);/}" 'AT ANOTHER PLACE'
found 'the place after the digits' \
    "${in_number}s/^            return refuse\\(t, 22\\);/            { while (is_digit(character(t, 0))) t->next++; return refuse(t, 22); }/" 'AT ANOTHER PLACE'
found 'the place of the space before a bar' "${in_note}s/!take\\(t, '\\|'\\) \\|\\| !take\\(t, ' '\\)/!take(t, '|') || (character(t, 0) != ' ' \\&\\& (t->next -= 2, !refuse(t, 22))) || !take(t, ' ')/" 'AT ANOTHER PLACE'
found '23 where the note inside ends' \
    "${in_part}s/^            return refuse\\(t, 23\\);/            { while (character(t, 0) != END \\&\\& character(t, 0) != ')') t->next++; return refuse(t, 23); }/" 'AT ANOTHER PLACE'
found 'an unknown byte is a space' "$(read_as_space 200)" 'ANOTHER NUMBER\|AT ANOTHER PLACE'

echo "$tried mutants, $missed not caught"
[ "$missed" -eq 0 ]
