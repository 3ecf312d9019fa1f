# page_faults.sh - programs `cases` and `page` with a fault, each of which the test of pages must catch.
#
# usage: sh page_faults.sh BUILD     (program_faults.sh says what BUILD has)
cd "$(dirname "$0")" || exit 2
test=pages program=page count=400
. ./program_faults.sh

another='cases gives another answer'
in_page='/^unsigned ref_page/,/^}/'

# shown LETTER OTHER - the script that has another letter stand on the page for this one.
shown() {
    printf "s/line\\\\[15\\\\] = .*/line[15] = (uint8_t)(letter == '%s' ? '%s' : letter);/" "$1" "$2"
}

# The page
fault 'W shown as S' "$another" "$(shown W S)"
fault 'N shown as E' "$another" "$(shown N E)"
fault 'E beside an empty slot though there is no U' "$another" "s/return 'N'/return s->held[d] < job->slots[d] ? 'E' : 'N'/"
fault 'W where S holds and P-CON would wait too' "$another" "s/return 'S'/return rule == REF_P_CON \\&\\& waits(job, s, l, d, v) ? 'W' : 'S'/"
fault 'the page of P-CON always' "$another" 's/rule = \(enum ref_rule\)drawn.planned.mark/rule = REF_P_CON/'
fault 'the page of P-MIN always' "$another" 's/rule = \(enum ref_rule\)drawn.planned.mark/rule = REF_P_MIN/'
fault 'rounds from 0' "$another" 's/put_number\(line, 4, round\)/put_number(line, 4, round - 1)/'
fault 'no round above 1,999' "$another" 's/put_number\(line, 4, round\)/put_number(line, 4, round % 2000)/'
fault 'the last eight bits of a block' "$another" 's/put_number\(to, 3, block\)/put_number(to, 3, block % 256)/'
fault 'the action of the next disk' "$another" 's/actions\[d\], letters/actions[(d + 1) % job->disks], letters/'
fault 'no legend for no rounds' "$another" 's/^    put_legend\(page\);/    if (round > 0) put_legend(page);/'

# The rooms
fault '19 before 18' 'reference 18' \
    "${in_page}s/^    if \\(number != 0\\)\$/    if (number == 18 \\&\\& ng < 100) return 19;\\n&/"
fault '18 not tested with a page' 'reference 18' "${in_page}s/draw_up\\(ticket, n, stop, room/draw_up(ticket, n, stop, (const size_t[]){ns, REF_SHEET}/"
fault '19 for an exact room' 'cases     19' 's/if \(length > ng\)/if (length >= ng)/'
fault 'no 19 for a room one byte short' 'reference 19' 's/if \(length > ng\)/if (length > ng + 1)/'
fault 'sheets written although 19' "$another" 's/^    if \(length > ng\)/    write_sheets(\&drawn, buffer, room);\n&/'
fault 'a byte past the page changed' "$another" 's/^    write_page\(&drawn.*/&\n    if (length < ng) page[length] = 10;/'
fault 'the last sixteen bits of the length' "$another" 's/out->length = length/out->length = length % 65536/'

# The rounds of a plan, all of which are charged
idle_end='s/^        counts->charged\+\+;/&\n        if (r.next_read == job->stop \&\& counts->charged < REF_ROUNDS)\n            memset(schedule + job->disks, 0xff, job->disks * sizeof *schedule);/
    s/\(size_t\)p->counts\[k\].charged \*/(size_t)(p->counts[k].charged + (p->counts[k].charged > 0)) */
    s/drawn->planned.counts\[k\].charged, drawn/drawn->planned.counts[k].charged + (drawn->planned.counts[k].charged > 0), drawn/'
fault 'either plan ends in an idle round' "$another" "$idle_end"
for k in 0 1; do
    fault "one round less of plan $k charged" "$another" "${in_page}s/^    out->planned = .*/&\\n    out->planned.counts[$k].charged -= out->planned.counts[$k].charged > 0;/"
done

# The stop
in_reading='/^unsigned ref_read_ticket/,/^}/'
fault 'the stop not looked at' "$another" "${in_reading}s/^    job->stop = .*/    job->stop = job->references;/"
fault 'the reference at the stop counts too' "$another" "${in_reading}s/^    job->stop = .*/    job->stop = (unsigned)stop + (stop < job->references);/"
fault 'the page up to N' "$another" 's/^    write_page\(/    if (ng >= REF_PAGE) drawn.job.stop = drawn.job.references;\n&/'
fault 'a stop above N is N' 'reference 21' "${in_reading}s/return 21;/stop = job->references;/"
fault 'a stop of N refused' 'cases     21' "${in_reading}s/stop > job->references/stop >= job->references/"
fault '32 bits of the stop' 'reference 21' 's/\(size_t\)number;/(uint32_t)number;/'
fault '16 bits of the stop' 'reference 21' "${in_reading}s/^    unsigned number = /    stop = (uint16_t)stop;\\n&/"
fault '21 before 8' 'cases     21' "${in_reading}s/^    if \\(number != 0\\)\$/    if (number == 8 \\&\\& stop > ref_references(ticket, n)) return 21;\\n&/"
fault '21 after 17' 'reference 21' "${in_page}s/^    if \\(number != 0\\)\$/    if (number == 21 \\&\\& ns < 2) return 17;\\n&/"
fault '21 after 19' 'reference 21' "${in_page}s/^    if \\(number != 0\\)\$/    if (number == 21 \\&\\& ng < 85) return 19;\\n&/"

# Blocks carried in
in_start='/^static unsigned start/,/^}/'
in_carried='/^static unsigned read_carried/,/^}/'
fault 'carried blocks are not in the buffers' "$another" "${in_start}s/if \\(job->carried\\[b\\]\\)/if (false)/"
fault 'carried blocks take no slot' "$another" "${in_start}s/^            s->held.*/            ;/"
fault 'nothing is read before round 1' "$another" "${in_start}s/return consume\\(job, s, 0\\);/return 0;/"
fault 'the page starts empty' "$another" 's/^    write_page\(/    if (ng >= REF_PAGE) memset(drawn.job.carried, 0, sizeof drawn.job.carried);\n&/'
fault 'the reading before round 1 counted as a round' "$another" 's/^    unsigned round = 0;/    unsigned round = 1;/'
for k in 0 1; do
    other="struct ref_job other = drawn->job;\\n        if (k == $k) memset(other.carried, 0, sizeof other.carried);"
    fault "plan $k starts empty" "$another" "/^static unsigned draw_up/,/^}/s/^        ref_run\\(&drawn->job, /        $other\\n        ref_run(\\&other, /"
done
fault 'a count equal to the slots refused' 'cases     25' 's/count > job->slots\[d\]/count >= job->slots[d]/'
fault 'no count refused' 'reference 25' 's/count > job->slots\[d\]/count > 127/'
fault 'equal numbers taken' 'reference 26' 's/least = v \+ 1;/least = v;/'
fault 'a carried block of another disk taken' 'reference 26' "${in_carried}s/ \\|\\| job->disk\\[v\\] != d\\)/)/"
fault '26 for 25' 'reference 25' 's/return 25;/return 26;/'
fault '21 before 26' 'cases     21' "${in_reading}s/^    if \\(number != 0\\)\$/    if (number == 26 \\&\\& stop > ref_references(ticket, n)) return 21;\\n&/"
fault 'a ticket without counts taken' 'reference 1' \
    "${in_carried}s/^        if \\(!field\\(r, 7, &count\\)\\)/        if (!field(r, 7, \\&count) \\&\\& (count = 0) > 0)/"

# The program `cases` alone
fault 'the last byte of a page not written' "$another" 's/page.at, p.length\);$/page.at, p.length - 1);/'
fault 'sheets exchanged beside a page' "$another" 's/put_planned\(to, &p.planned, p_min.at, p_con.at\)/put_planned(to, \&p.planned, p_con.at, p_min.at)/'
fault 'another call' 'does not repeat the call' 's/printf\("%s = %s.n", line, text\)/printf("plan%s = %s\\n", line + 4, text)/'
fault 'it ends in the middle' 'ends without an answer' 's/printf\("%s = %s.n", line, text\)/if (strlen(text) > 9000) return; else &/'
fault 'it crashes in the middle' 'DISAGREE: cases' 's/printf\("%s = %s.n", line, text\)/if (strlen(text) > 9000) __builtin_trap(); else &/'
fault 'a line more at the end' 'more than was asked' 's/^        cases\(\);/        cases(), puts("");/'

# The program `page` alone
fault 'no page printed' 'page prints 0 bytes' 's/fwrite\(text, 1, paged.length/fwrite(text, 1, 0/'
fault 'a page without its last line feed' 'page prints' 's/fwrite\(text, 1, paged.length/fwrite(text, 1, paged.length - 1/'
fault 'a line more after the page' 'page prints' 's/^(        fwrite\(text.*);/\1, puts("");/'
fault 'no more than 278,612 bytes printed' '278613; byte 278612 differs' \
    's/fwrite\(text, 1, paged.length/fwrite(text, 1, paged.length < REF_PAGE ? paged.length : REF_PAGE - 1/'
fault 'room for all pages but the longest' 'page prints 11 bytes' 's/REF_SHEET, text, REF_PAGE,/REF_SHEET, text, REF_PAGE - 1,/'
fault 'no line feed after a refusal' 'page prints 9 bytes, the reference has 10' 's/"refused %u.n"/"refused %u"/'
fault 'another number' 'page prints 10 bytes, the reference has 10' 's/printf\("refused %u.n", number\)/printf("refused %u\\n", number == 8 ? 1 : number)/'
fault 'a longer input cut to the longest ticket' 'page prints 85 bytes, the reference has 10' 's/ticket\[REF_TICKET \+ 1\]/ticket[REF_TICKET]/'
fault 'a status that is not 0' 'page ends with status 3' 's/^        page\(\);/        return page(), 3;/'
fault 'one read only' 'page prints' 's/^#include <stdio.h>/&\n#include <unistd.h>/;/^static void page/,/^}/s/fread\(ticket, 1, sizeof ticket, stdin\)/(size_t)read(0, ticket, sizeof ticket)/'
fault 'something on standard error' 'page writes to standard error' '/^static void page/,/^}/s/^    if \(number == 0\)/    fputs("done\\n", stderr);\n&/'
fault 'no reference counts' 'page prints' 's/ref_page\(ticket, n, ref_references\(ticket, n\)/ref_page(ticket, n, 0/'
fault 'all references but one count' 'page prints' 's/ref_page\(ticket, n, ref_references\(ticket, n\)/ref_page(ticket, n, ref_references(ticket, n) - 1/'

# undrawn NAME WORDS SCRIPT - draw.c changed, and programs without a fault: the test must fail at its end, and have these words in what it met.
build '' || exit 2
undrawn() {
    tried=$((tried + 1))
    sed -E "$3" draw.c >"$dir/draw.c"
    if cmp -s draw.c "$dir/draw.c" || ! $cc -std=c11 -I. -c "$dir/draw.c" -o "$dir/draw.o"; then
        echo "BROKEN  $1, in the draws"
        missed=$((missed + 1))
        return
    fi
    $cc "$build/pages.o" "$build/running.o" "$dir/draw.o" "$build/answer.o" "$build/chance.o" "$build/reference.o" "$build/note.o" \
        -o "$dir/pages" || exit 2
    timeout 60 "$dir/pages" "$dir/cases" "$dir/page" 1 "$count" >"$dir/report" 2>&1
    if [ $? -ne 1 ] || ! grep -q "$2" "$dir/report"; then
        echo "MISSED  $1, in the draws"
        missed=$((missed + 1))
    fi
}

# Draws of no carried blocks, or not of every kind
in_drawing='/^static void draw_carried/,/^}/'
undrawn 'nothing is carried in' 'carried in: nothing [0-9]*, .* in part 0,' "${in_drawing}s/how = below\\(c, 6\\)/how = 6/"
undrawn 'every job carries blocks in' 'carried in: nothing 0,' \
    "${in_drawing}s/^\\}/    carry(job, held, first);\\n}/;s/^    if \\(!largest\\)\$/    ;/"

echo "$tried faults of pages, $missed not caught"
[ "$missed" -eq 0 ]
