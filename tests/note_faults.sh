# note_faults.sh - programs `cases` and `passes` with a fault, each of which the test of notes must catch.
#
# usage: sh note_faults.sh BUILD     (program_faults.sh says what BUILD has)
cd "$(dirname "$0")" || exit 2
test=notes program=passes count=400
. ./program_faults.sh

another='cases gives another answer'
in_mix='/^static void mix/,/^}/'
in_part='/^static bool read_part/,/^}/'
in_item='/^static bool read_item/,/^}/'
in_note='/^static bool read_note\(struct text \*t, struct string \*out\)$/,/^}/'
in_text='/^void ref_read_note/,/^}/'
in_call='/^unsigned ref_note/,/^}/'
in_answer='/^static void answer_note/,/^}/'
in_passes='/^static void passes/,/^}/'

# What a note means
fault 'the right side first' "$another" "${in_mix}{/^    while/,/^    \\}/{s/left->/LEFT->/g;s/right->/left->/g;s/LEFT->/right->/g}}"
fault 'the rest of the longer side dropped' "$another" "${in_mix}s/left->count \\|\\| r </left->count \\&\\& r </"
fault 'grouped to the right' "$another" \
    "${in_note}s/^        mix\\(out, &right\\);/        if (character(t, 0) == ' ') { struct string rest; t->next += 3; if (!read_note(t, \\&rest)) return false; mix(\\&right, \\&rest); }\\n&/"
fault 'one side after the other' "$another" "${in_note}s/mix\\(out/append(out/"
fault 'one time less than the count' "$another" '/^static void repeat/,/^}/s/k = 1; k < times/k = 2; k < times/'
fault 'the last eight bits of a block' "$another" 's/\(uint16_t\)block/(uint8_t)block/'

# What is malformed
fault '512 taken' 'reference 22' 's/REF_BLOCKS - 1, &block/REF_BLOCKS, \&block/'
fault '511 refused' 'cases     22' 's/REF_BLOCKS - 1, &block/REF_BLOCKS - 2, \&block/'
fault '0 taken as a count' 'reference 22' "${in_item}s/1, REF_REFERENCES, /0, REF_REFERENCES, /"
fault '2049 taken as a count' 'reference 22' "${in_item}s/1, REF_REFERENCES, /1, REF_REFERENCES + 1, /"
fault 'zeros in front taken' 'reference 22' 's/ \|\| \(!first && \*value == 0\)//'
fault 'two spaces taken' 'reference 2[23]' "/^static bool read_side/,/^}/s/^        t->next\\+\\+;/        while (character(t, 0) == ' ') t->next++;/"
fault 'a blank at the end taken' 'reference 22' "${in_text}s/^    struct string all;/&\\n    if (n > 0 \\&\\& (text[n - 1] == ' ' || text[n - 1] == 10)) t.len = --n;/"
fault 'a tab is a space' 'reference 22' "s/^    return t->next \\+ after < t->len .*/    int c = t->next + after < t->len ? t->at[t->next + after] : END;\\n    return c == 9 ? ' ' : c;/"
fault 'no space after a bar taken' 'reference 22' "${in_note}s/!take\\(t, ' '\\) \\|\\| !read_side/(character(t, 0) == ' ' \\&\\& !take(t, ' ')) || !read_side/"
fault 'two counts taken' 'reference 22' \
    "${in_item}s/^    if \\(character\\(t, 0\\) != '\\*'\\)/    for (; character(t, 0) == '*'; repeat(out, times)) {\\n        t->next++;\\n        if (!read_number(t, 1, REF_REFERENCES, \\&times)) return false;\\n    }\\n&/"
fault 'a parenthesis closed by the end' 'reference 22' "${in_part}s/!take\\(t, '\\)'\\)/(t->next < t->len \\&\\& !take(t, ')'))/"
fault 'what follows the note not looked at' 'reference 22' "${in_text}s/t.next < n\\)/false)/"
fault 'the last seven bits of a character' 'reference 22' 's/ \? t->at\[t->next \+ after\] : END/ ? t->at[t->next + after] \& 127 : END/'

# Parentheses
fault 'seventeen taken' 'reference 23' "${in_part}s/t->open == t->most/t->open > t->most/"
fault 'sixteen refused' 'cases     23' "${in_part}s/t->open == t->most/t->open + 1 >= t->most/"
fault 'no more than sixteen in all' 'cases     23' "${in_part}s/^        t->open--;/        ;/"
fault '23 before 22 on one character' 'cases     23' "s/^    t->number = number;/    t->number = number == 22 \\&\\& character(t, 0) == '(' \\&\\& t->open == t->most ? 23 : number;/"
fault '23 after a later 22' 'reference 23' \
    "${in_text}s/^    out->number = t.number;/    if (t.number == 23 \\&\\& parentheses < 100) {\\n        ref_read_note(text, n, 100, out);\\n        if (out->number == 22) return;\\n    }\\n&/"

# How many references
fault 'a slice of just the references refused' 'cases     24' "${in_call}s/noted.count > room/noted.count >= room/"
fault 'one reference more than the slice holds' 'reference 24' "${in_call}s/noted.count > room/noted.count > room + 1/"
fault 'as many as there may be' 'reference 24' "${in_call}s/noted.count > REF_REFERENCES \\|\\| /(noted.count = noted.count > REF_REFERENCES ? REF_REFERENCES : noted.count) > room || /"
fault '2048 references refused' 'cases     24' "${in_call}s/noted.count > REF_REFERENCES/noted.count >= REF_REFERENCES/"
fault '24 before 22' 'cases     24' "${in_call}s/^    if \\(noted.number != 0\\)\$/    if (noted.number == 22 \\&\\& room == 0) return 24;\\n&/"
fault '24 before 23' 'cases     24' "${in_call}s/^    if \\(noted.number != 0\\)\$/    if (noted.number == 23 \\&\\& room == 0) return 24;\\n&/"
fault 'thirty-two bits of a number of references' 'reference 24' \
    '/^static void repeat/,/^}/s/^    for .*/    uint32_t product = (uint32_t)(s->count * times);\n    if (product > REF_REFERENCES || s->count > product) { s->count = product; return; }\n&/'

# What is written
fault 'an entry past the count changed' "$another" "${in_call}s/^    \\*count = noted.count;/&\\n    if (noted.count < room) references[noted.count] = 0;/"
fault 'an entry written by 22' "$another" "${in_call}s/^    if \\(noted.number != 0\\)\$/    if (noted.number == 22 \\&\\& room > 0) references[0] = 0;\\n&/"
fault 'entries written by 24' "$another" \
    "${in_call}s/^        return 24;/        return memcpy(references, noted.reference, (noted.count < room ? noted.count : room) * sizeof references[0]), 24;/"

# The program `cases` alone
fault 'the last reference not written' "$another" "${in_answer}s/k < count; k\\+\\+/k + 1 < count; k++/"
fault 'another room' 'reference 24' "${in_answer}s/^    room = .*/    room = MOST_ROOM;/"
fault 'a text cut' "$another" "${in_answer}s/text.len, lent/text.len < 57000 ? text.len : 57000, lent/"
fault 'another call' 'does not repeat the call' 's/printf\("%s = %s.n", line, text\)/printf("plan%s = %s\\n", line + 4, text)/'
fault 'it ends in the middle' 'ends without an answer' 's/printf\("%s = %s.n", line, text\)/if (strlen(text) > 4000) return; else &/'
fault 'a line more at the end' 'more than was asked' 's/^        cases\(\);/        cases(), puts("");/'

# The program `passes` alone
fault 'nothing printed' 'passes prints 0 bytes' "${in_passes}s/k < count; k\\+\\+/k < 0; k++/"
fault 'no line feed after the references' 'passes prints' "${in_passes}s/' ' : '.n'/' ' : ' '/"
fault 'no line feed after a refusal' 'passes prints 10 bytes, the reference has 11' 's/"refused %u.n"/"refused %u"/'
fault 'a line more' 'passes prints' 's/^        passes\(\);/        passes(), puts("");/'
fault 'another number' 'passes prints 11 bytes, the reference has 11' "${in_passes}s/\"refused %u.n\", number/\"refused %u\\\\n\", number == 23 ? 22 : number/"
fault 'a line feed is part of the note' 'passes prints 11 bytes' "${in_passes}s/^        n--;/        ;/"
fault 'all line feeds at the end left out' 'the reference has 11' "${in_passes}s/^    if \\(n > 0 && /    while (n > 0 \\&\\& /"
fault 'the last character always left out' 'passes prints' "${in_passes}s/^    if \\(n > 0 && .*/    if (n > 0)/"
fault 'a slice of 2,047 entries' 'passes prints 11 bytes' "${in_passes}s/reference, REF_REFERENCES, /reference, REF_REFERENCES - 1, /"
fault 'no more than 147,452 bytes read' 'passes prints 11 bytes' 's/MOST_NOTE = 1048576/MOST_NOTE = 147452/'
fault 'no more than 1,048,575 bytes read' 'passes prints 11 bytes' 's/MOST_NOTE = 1048576/MOST_NOTE = 1048575/'
fault 'a status that is not 0' 'passes ends with status 3' 's/^        passes\(\);/        return passes(), 3;/'
fault 'it crashes on a refusal' 'passes ends by signal' "${in_passes}s/^    if \\(number != 0\\)/    if (number == 24) __builtin_trap();\\n&/"

# tool_fault NAME SCRIPT - the tool's reader changed, and the test linked with it; the programs are without a fault.
build '' || exit 2
tool_fault() {
    tried=$((tried + 1))
    sed -E "$2" ../tools/note.c >"$dir/tool_note.c"
    if cmp -s ../tools/note.c "$dir/tool_note.c" || ! $cc -std=c11 -I../tools -c "$dir/tool_note.c" -o "$dir/tool_note.o"; then
        echo "BROKEN  $1, in the tool"
        missed=$((missed + 1))
        return
    fi
    $cc "$build/notes.o" "$build/running.o" "$build/answer.o" "$build/chance.o" "$build/reference.o" "$build/note.o" "$build/tool_job.o" \
        "$dir/tool_note.o" -o "$dir/notes" || exit 2
    timeout 60 "$dir/notes" "$dir/cases" "$dir/passes" 1 "$count" >"$dir/report" 2>&1
    if [ $? -ne 1 ] || ! grep -q 'the tool reads a note otherwise' "$dir/report"; then
        echo "MISSED  $1, in the tool"
        missed=$((missed + 1))
    fi
}

tool_fault 'the right side first' 's/mixed\[2 \* k\] = all\[open->start/mixed[2 * k] = all[open->side/;s/mixed\[2 \* k \+ 1\] = all\[open->side/mixed[2 * k + 1] = all[open->start/'
tool_fault 'sides not grouped' 's/^    open->side = r->note->references;/    ;/'
tool_fault 'a count for the whole side' 's/^    r->part = r->note->references;/    r->part = r->open[r->depth].side;/'
tool_fault 'seventeen parentheses taken' 's/MAX_OPEN = 16/MAX_OPEN = 17/'
tool_fault '512 taken' 's/MAX_BLOCKS - 1, &block/MAX_BLOCKS, \&block/'
tool_fault '2048 references refused' 's/references == MAX_REFERENCES\)/references >= MAX_REFERENCES - 1)/'
tool_fault 'more than 2048 references cut' '/^static bool end_note/,/^}/s/r->too_many/false/'
tool_fault 'a parenthesis closed by the end' 's/^    if \(r->depth > 0\)/    if (r->depth > 99)/'
tool_fault 'a place too far' '/^static bool due/,/^}/s/^    return refuse_here/    r->note->at++;\n&/'
tool_fault 'two counts taken' "s/^    if \\(next_is\\(r, '\\*'\\)\\)/    if (next_is(r, '*') \\&\\& !take_count(r))/"
tool_fault '24 before 22' 's/^static bool due.*/&;\n&/;s/^    va_start\(args, why\);/    if (r->too_many) return refuse(r->refusal, 24, "");\n&/'

echo "$tried faults of notes, $missed not caught"
[ "$missed" -eq 0 ]
