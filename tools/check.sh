#!/bin/sh
# check.sh - runs both tools and compares what they print with the files in expected/.
#
# usage: sh check.sh BUILD     (BUILD has the tools; an absolute path)
# Each group below writes one transcript to BUILD/check/, with exit statuses.
# The groups are called by name, at the end.
# shellcheck disable=SC2317
set -eu
cd "$(dirname "$0")"
out=$1/check
rm -rf "$out"
mkdir -p "$out"
PATH=$1:$PATH

# Hexadecimal to bytes, and back.
unhex()
{
    # shellcheck disable=SC2046,SC2059
    [ -z "$1" ] || printf "$(printf '\\%03o' $(echo "$1" | sed 's/../0x& /g'))"
}

hex()
{
    od -An -v -tx1 | tr -d ' \n'
    echo
}

# run COMMAND...: what it prints, and its exit status.
run()
{
    status=0
    "$@" 2>&1 || status=$?
    echo "status $status"
    echo
}

# text TITLE LINES: a text made into a ticket.
text()
{
    echo "== $1"
    printf '%s\n' "$2" | sed 's/^/| /'
    printf '%s\n' "$2" >"$out/text"
    run ticket "$out/text" "$out/ticket"
}

# back TITLE TICKET: a ticket made into a text.
back()
{
    echo "== $1"
    echo "$2"
    unhex "$2" >"$out/ticket"
    run ticket -d "$out/ticket"
}

# show TITLE TICKET SHEET OPTION...: a sheet shown.
show()
{
    echo "== $1"
    unhex "$2" >"$out/ticket"
    unhex "$3" >"$out/sheet"
    shift 3
    run sheet "$@" "$out/ticket" "$out/sheet"
}

# ends TITLE TICKET SHEET [LINES]: the last rows and the totals of a long sheet.
ends()
{
    echo "== $1"
    unhex "$2" >"$out/ticket"
    unhex "$3" >"$out/sheet"
    lines=${4:-5}
    run eval 'sheet "$out/ticket" "$out/sheet" | tail -n "$lines"'
}

# Cases A to G and one with carried blocks: from text to ticket and back, and both sheets.
cases()
{
    while read -r case ticket p_min p_con; do
        [ "$case" = '#' ] && continue
        [ "$(ticket <"cases/$case.txt" | hex)" = "$ticket" ] || echo "$case: another ticket"
        back "$case" "$ticket"
        [ "$(ticket -d "$out/ticket" | ticket | hex)" = "$ticket" ] || echo "$case: not the same"
        show "$case, P-MIN" "$ticket" "$p_min"
        show "$case, P-CON" "$ticket" "$p_con"
    done <cases/vectors.txt
    show 'G, P-MIN, with names' "$G" "$G_P_MIN" -n cases/G.names
    show 'G, P-CON, with names' "$G" "$G_P_CON" -n cases/G.names
}

# The greatest job: 8 disks, 512 blocks turn by turn, all of them carried in, 2048 references.
longest_text()
{
    for d in 0 1 2 3 4 5 6 7; do
        echo "disk $d slots 64"
        seq "$d" 8 511 | sed 's/^/  blocks /'
        seq "$((504 + d))" -8 0 | sed 's/^/  carried /'
    done
    for turn in 1 2 3 4; do
        seq 511 -1 0 | sed "s/^/read /;1s/\$/  # turn $turn/"
    done
}

# Odd texts that are good, up to the longest.
good()
{
    echo '== the longest ticket'
    run eval 'longest_text | ticket - "$out/ticket"'
    wc -c <"$out/ticket" | tr -d ' '
    run ticket -d "$out/ticket" "$out/text"
    sed -n '1,9p;$p' "$out/text"
    run eval 'ticket <"$out/text" | cmp - "$out/ticket"'
    echo '== one reference more'
    run eval '{ longest_text; echo read 0; } | ticket'
    text 'a disk without blocks' "$(printf 'disk 0 slots 64 blocks\ndisk 1 slots 1 blocks 0-511')"
    run ticket -d "$out/ticket"
    echo '== comments, blanks, line ends of both kinds, no line end at the end'
    printf '#disk\n\n \tdisk 0 slots 1#\r\n  blocks 1 0\r\nread\nread 1 # 0\nread 0' >"$out/text"
    run eval 'ticket <"$out/text" | ticket -d'
}

# Malformed texts: first those for which document 01 has a number.
texts()
{
    text 'no disk' '# nothing here'
    text 'a ninth disk' "$(for d in 0 1 2 3 4 5 6 7 8; do echo "disk $d slots 1 blocks $d"; done)"
    text 'no slots' 'disk 0 slots 0 blocks 0'
    text '65 slots' 'disk 0 slots 65 blocks 0'
    text 'no blocks' 'disk 0 slots 1 blocks'
    text 'block 512' 'disk 0 slots 1 blocks 0-512'
    text 'a read of a block that is not there' "$(printf 'disk 0 slots 1 blocks 0-7\nread 7 8')"
    text 'a read before any disk' 'read 0'
    text 'an unknown word' "$(printf '# one\ndisc 0 slots 1 blocks 0')"
    text 'disks out of order' 'disk 1 slots 1 blocks 0'
    text 'no number of the disk' 'disk'
    text 'slots left out' 'disk 0 blocks 0'
    text 'no number of slots' 'disk 0 slots'
    text 'slots in words' 'disk 0 slots three blocks 0'
    text 'a word too many' 'disk 0 slots 3 block 0'
    text 'blocks before the disk' 'blocks 0'
    text 'a block placed twice' "$(printf 'disk 0 slots 1 blocks 0-3\ndisk 1 slots 1 blocks 3')"
    text 'a block left out' "$(printf 'disk 0 slots 1 blocks 0 1\nblocks 3\n\nread 0')"
    text 'a range backwards' 'disk 0 slots 1 blocks 3-0'
    text 'a range without an end' 'disk 0 slots 1 blocks 0-'
    text 'a negative number' 'disk 0 slots 1 blocks -1'
    text 'a range to read' "$(printf 'disk 0 slots 1 blocks 0-3\nread 0-3')"
    text 'a disk after a read' "$(printf 'disk 0 slots 1 blocks 0\nread 0\ndisk 1 slots 1')"
    text 'a long word' 'disk 0 slots 1 blocks 000000000000000000000000'
    echo '== a ticket taken for a text'
    unhex "$G" >"$out/ticket"
    run ticket "$out/ticket"
}

# note TITLE NOTE [LINE]...: a note for eight blocks, and lines after it, made into a ticket and back.
note()
{
    echo "== $1"
    printf 'disk 0 slots 3 blocks 0-7\npasses %s\n' "$2" >"$out/text"
    shift 2
    for line; do
        echo "$line" >>"$out/text"
    done
    sed '1d;s/^/| /' "$out/text"
    run eval 'ticket "$out/text" "$out/ticket" && ticket -d "$out/ticket" | tail -n +2'
}

# 2,048 references with all the parentheses and counts that they can have: 147,453 characters.
longest_note()
{
    awk 'BEGIN {
        for (k = 0; k < 16; k++) { opened = opened "("; closed = closed ")*1" }
        for (k = 0; k < 2048; k++) printf "%s%s511*1%s", k ? " | " : "", opened, closed
    }'
}

# Passes: notes that are good, the order of the numbers 22 to 24, and then 6 and 7.
passes()
{
    echo '== a job with passes and reads'
    run eval 'ticket cases/passes.txt "$out/ticket" && ticket -d "$out/ticket"'
    note 'a block' 7
    note 'items and counts' '1 2*3 (4 5)*2'
    note 'two sides' '1 2*3 | (4 5)*2'
    note 'three sides, grouped to the left' '1 2 | 3 4 5 6 | 7'
    note 'the same grouped to the right' '1 2 | (3 4 5 6 | 7)'
    note 'sixteen parentheses' "((((((((((((((((1 | 2))))))))))))))))*2"
    echo '== blanks around a note, a comment, both kinds of line ends, and none at the end'
    printf 'disk 0 slots 3 blocks 0-7\n  passes \t 1 2 \t\r\npasses 3#4\npasses 5 # 6\nread 0\npasses (6)*2' >"$out/text"
    run eval 'ticket <"$out/text" | ticket -d'
    echo '== 2048 references'
    run eval 'printf "disk 0 slots 1 blocks 0\npasses (0*1024 | 0*1023) 0\n" | ticket | wc -c | tr -d " "'
    echo '== the longest note, and an item more that is none'
    run eval '{ printf "disk 0 slots 1 blocks 0-511\npasses "; longest_note; } | ticket | wc -c | tr -d " "'
    run eval '{ printf "disk 0 slots 1 blocks 0-511\npasses "; longest_note; echo " | x"; } | ticket'
    note '22: no note' ''
    note '22: a comment alone' '# 1'
    note '22: a word' 'one'
    note '22: a word after an item' '1 two'
    note '22: two spaces' '1  2'
    note '22: a tab' "$(printf '1\t2')"
    echo '== 22: a character that is not printed'
    run eval 'printf "disk 0 slots 1 blocks 0\npasses 0 \303\251\n" | ticket'
    note '22: block 512' '1 512'
    note '22: a block of four digits' '1000'
    note '22: zeros in front' '1 07'
    note '22: a count of 0' '1*0'
    note '22: a count of 2049' '1*2049'
    note '22: zeros in front of a count' '1*02'
    note '22: no count' '1*'
    note '22: a space before a count' '1* 2'
    note '22: two counts' '1*2*3'
    note '22: a bar without spaces' '1|2'
    note '22: a bar without a space after it' '1 |2'
    note '22: a bar at the end' '1 |'
    note '22: an empty side' '1 | | 2'
    note '22: an empty pair of parentheses' '1 ()'
    note '22: a parenthesis not closed' '((1 2)'
    note '22: a parenthesis not opened' '(1 2))'
    note '22: no space between items' '(1)2'
    note '22: no space before a parenthesis' '1(2)'
    note '23: seventeen parentheses' "(((((((((((((((((1)))))))))))))))))"
    note '23: before 22' "((((((((((((((((("
    note '22: where both fall on one character' "((((((((((((((((1("
    note '24: 2049 references' '1*2048 2'
    note '24: a number of references past all bits' '((((((1*2048)*2048)*2048)*2048)*2048)*2048)*2048'
    note '22: before 24' '1*2048 2*2048 x'
    note '22: before 24, at the end' '1*2048 2*2048 |'
    note '7: a block that is not there' '1 2 | 8'
    note '7: before 6, by the order of the references' '9 1*2047' 'read 1'
    note '22: before 7' '9 x'
    note '24: before 7' '9 1*2048'
    note '6: a note and a read' '1*2048' 'read 2'
    note '6: two notes' '1*2000' 'passes 2*49'
    note '6: before 7' '1*2048' 'passes 9'
    text 'passes before any disk' 'passes 0'
    text 'a disk after passes' "$(printf 'disk 0 slots 1 blocks 0\npasses 0\ndisk 1 slots 1')"
    text 'no blank after the word' "$(printf 'disk 0 slots 1 blocks 0\npasses(0)')"
}

# Blocks that a disk carries in, in texts: good ones, then the numbers 25 and 26, then those without a number.
carried()
{
    text 'in any order, in ranges, on several lines' \
        "$(printf 'disk 0 slots 5 blocks 0-7\n  carried 6 0-2\ncarried 4 # at most 5\ndisk 1 slots 1\nread 3')"
    run ticket -d "$out/ticket"
    text 'every block in a slot' "$(printf 'disk 0 slots 2 blocks 1 3\ncarried 3 1\ndisk 1 slots 64 blocks 0 2\ncarried 0 2')"
    run ticket -d "$out/ticket"
    text 'lines without blocks' "$(printf 'disk 0 slots 1 blocks 0\ncarried\n  blocks 1\n  carried\n  carried 1\n  carried # 0')"
    run ticket -d "$out/ticket"
    text '25: three blocks in two slots' "$(printf 'disk 0 slots 2 blocks 0-3\ncarried 3 1 2')"
    text '25: on two lines' "$(printf 'disk 0 slots 1 blocks 0-3\ndisk 1 slots 1 blocks 4-7\ncarried 4\ncarried 5')"
    text '25: before 26' "$(printf 'disk 0 slots 1 blocks 0-3\ncarried 0 9')"
    text '26: a block twice' "$(printf 'disk 0 slots 8 blocks 0-3\ncarried 1-3 2')"
    text '26: a block of a disk above' "$(printf 'disk 0 slots 4 blocks 0-3\ndisk 1 slots 4 blocks 4-7\n\ncarried 4 3')"
    text '26: a block of a disk below' "$(printf 'disk 0 slots 4 blocks 0-3\ncarried 3-4\ndisk 1 slots 4 blocks 4-7')"
    text '26: a block that is not there' "$(printf 'disk 0 slots 4 blocks 0-3\ncarried 4')"
    text '26: block 512' "$(printf 'disk 0 slots 4 blocks 0-3\ncarried 512')"
    text '26: a number of eight digits' "$(printf 'disk 0 slots 2 blocks 0-3\n carried 12345678')"
    text '26: a range from block 511 on' "$(printf 'disk 0 slots 2 blocks 0-511\ncarried 511-512')"
    text 'before the first disk' 'carried 0'
    text 'blocks placed after it' "$(printf 'disk 0 slots 4 blocks 0-2\ncarried 0\nblocks 3')"
    text 'after a read' "$(printf 'disk 0 slots 4 blocks 0-3\nread 0\ncarried 1')"
    text 'a range backwards' "$(printf 'disk 0 slots 4 blocks 0-3\ncarried 3-0')"
    text 'in words' "$(printf 'disk 0 slots 4 blocks 0-3\ncarried none')"
    text 'in the line of the disk' 'disk 0 slots 4 blocks 0-3 carried 0'
    text 'in the line of the disk, without blocks' 'disk 0 slots 4 carried 0'
    text 'a read in its line' "$(printf 'disk 0 slots 4 blocks 0-3\ncarried 0 read 1')"
    text 'a disk in its line' "$(printf 'disk 0 slots 4 blocks 0-3\ncarried 0 disk 1 slots 1')"
    text 'in the line of a read' "$(printf 'disk 0 slots 4 blocks 0-3\nread 0 carried 1')"
    text 'passes in the line of a read' "$(printf 'disk 0 slots 4 blocks 0-3\nread 0 passes 1')"
}

# The longest sheet: in each of 2048 rounds each of 8 disks, whose one slot carries in block 2d, fetches the other of its two blocks, 2d + 1 first.
# Only from full slots does a sheet discard in round 1.
longest_sheet()
{
    awk 'BEGIN {
        printf "800"
        for (k = 0; k < 2048; k++) for (d = 0; d < 8; d++) printf "%05x", 524288 + 1024 * (2 * d + 1 - k % 2) + 512 + 2 * d + k % 2
        print "0"
    }'
}

# Sheets for tickets with carried blocks. The job `held` reads 1 and 0 before round 1, then needs block 2. In `never` the slots are taken by blocks
# that are never read. In `one` disk 0 has an empty slot, and disk 1 carries in none. In `three` disk 2 carries in the most blocks, 511 among them.
# In `long` each round reads one reference.
starts()
{
    held=$(printf 'disk 0 slots 2 blocks 0-2\ncarried 0 1\nread 1 0 2 1' | ticket | hex)
    never=$(printf 'disk 0 slots 2 blocks 0-3\ncarried 2 3\nread 0 1' | ticket | hex)
    one=$(printf 'disk 0 slots 2 blocks 0 1\ncarried 1\ndisk 1 slots 1 blocks 2\nread 1 0 2 1' | ticket | hex)
    three=$(printf '%s\n' 'disk 0 slots 2 blocks 0-255' 'carried 255' 'disk 1 slots 3 blocks 256-300' 'carried 256 300' \
        'disk 2 slots 4 blocks 301-511' 'carried 400 509-511' 'read 511 256 255 401 510 0 511 301' | ticket | hex)
    long=$({ for d in 0 1 2 3 4 5 6 7; do printf 'disk %d slots 1 blocks %d %d\ncarried %d\n' "$d" $((2 * d)) $((2 * d + 1)) $((2 * d)); done
        echo 'passes (1 0)*1024'; } | ticket | hex)
    show 'a carried block makes room' "$held" 00180a00
    show 'the next read is carried in, disk 1 is empty' "$one" 0018010100
    show 'slots taken by blocks that are never read' "$never" 00280203806020
    show 'three disks, the last one full, up to block 511' "$three" 002800e47fd32dff80
    show 'all is read before round 1' "$held" 0000 -s 2
    show 'the same, with a fetch and an idle round, which are not charged' "$held" 00280a0000 -s 2
    show 'an idle round, which is charged' "$held" 0024050000
    show 'a carried block fetched again is a fetch' "$held" 00280a00802010
    show 'a stop in what is read before round 1' "$held" 0000 -s 1
    show 'a stop at the start' "$held" 0000 -s 0
    show 'with names, up to 13' "$CARRIED" 0038090340f01c0503c09014070240e0 -n cases/G.names -s 13
    show '9: empty' "$held" ''
    show '9: inside round 1' "$held" 00180a
    show '12: a carried block' "$held" 001804
    show '13: every slot is taken by carried blocks' "$held" 001808
    show '14: the fetched block itself' "$held" 00180a02
    show '15: no rounds' "$held" 0000
    show '16: a byte more' "$held" 000000 -s 2
    show '20: a discard beside an empty slot' "$one" 00180201
    ends 'the longest sheet' "$long" "$(longest_sheet)" 11
    wc -c <"$out/sheet" | tr -d ' '
    echo '== 16: the longest sheet and a byte more'
    printf '\0' >>"$out/sheet"
    run eval 'sheet "$out/ticket" "$out/sheet" >"$out/table"'
    tail -n 1 "$out/table"
    show 'the sheet of the same job without carried blocks' "$CARRIED" "$G_P_MIN"
    show 'a sheet from carried blocks, for the job without them' "$G" 0048090340f01c0503c09014070240f01c04
}

# Damaged tickets, in the order of the numbers 1 to 7, 25, 26 and 8.
tickets()
{
    back '1: empty' ''
    back '1: inside the slots' 10
    back '1: inside the blocks' 1020
    back '1: inside the disk of a block' 20204040
    back '1: inside the references' 102008
    back '1: inside a reference' 1020080010
    back '1: inside the number of carried blocks' 102008001000
    back '1: inside that of the last disk' 20408040090020000800
    back '1: inside a carried block' 10200800100010
    back '2: no disks' 00
    back '2: nine disks' 90
    back '3: no slots' 1000
    back '3: 65 slots' 182008001000
    back '4: no blocks' 102000
    back '4: 513 blocks' 103008
    back '5: block 0 on disk 1 of one' 102009001000
    back '6: 2049 references' 102008801000
    back '7: block 1 of one' 102008001008
    back '25: three blocks in two slots' 2040804009002000081800020100
    back '25: of the last disk' 204080400900200008080018080603
    back '25: before the end inside the blocks' 10200800100020
    back '26: numbers that fall' 20408040090020000810040000
    back '26: numbers that fall, of the last disk' 2040804009002000080800100c04
    back '26: a block twice' 20408040090020000810040200
    back '26: a block that is not there' 20408040090020000810000800
    back '26: a block of a disk after it' 204080400900200008080800
    back '26: a block of a disk before it' 204080400900200008001008
    back '26: before the end inside the next number' 204080400900200008100c
    back '26: before 8' 102008001000100900
    back '8: a closing bit' 10200800100001
    back '8: a closing bit after a carried block' 1020080010001001
    back '8: a byte more' 1020080010000000
    back '8: a byte more, past a byte edge' 102008005000000000000000
    show 'a sheet for a damaged ticket' 102009001000 001800
    echo '== a sheet for the longest ticket'
    longest_text | ticket - "$out/ticket"
    unhex 0000 >"$out/sheet"
    run eval 'sheet "$out/ticket" "$out/sheet" | tail -n 9'
    echo '== 8: the longest ticket and a byte more'
    printf '\0' >>"$out/ticket"
    run ticket -d "$out/ticket"
    echo '== 8: the same, with a sheet'
    run sheet "$out/ticket" "$out/sheet"
}

# Damaged sheets, in the order of the numbers 9 to 16 and 20, and names that do not fit.
sheets()
{
    show '9: empty' "$G" ''
    show '9: inside round 4' "$G" 0068010220140a8090320380a0
    show '10: 2049 rounds' "$G" 8010
    show '11: a block of the other disk' "$G" 0068010180
    show '11: a block that is not there' "$G" 006801022080
    show '12: fetched twice' "$G" 006801022000
    show '13: four blocks in three slots' "$G" 0068010220140a8090320380a070
    show '14: the fetched block itself' "$G" 0068010220140a8090320380c0
    show '14: a block of the other disk' "$G" 0068010220140a809032038100
    show '14: a block that is not there' "$G" 0068010220140a80903203ffc0 -n cases/G.names
    show '15: case H' "$A" 0000
    show '15: three rounds of six' "$G" 0038010220140a809030 -n cases/G.names
    show '16: a closing bit' "$G" 0068010220140a8090320380a078120280e0481e038090
    show '16: a byte more' "$A" 00180000
    show '16: a byte more, past a byte edge' "$A" 00280000
    show '20: a discard beside an empty slot' "$F" 00440480101c0500c01011024040
    show '20: before the end inside the discarded block' "$A" 001802
    show '20: before 14' "$A" 00180200
    show 'names for other blocks' "$A" 001800 -n cases/G.names
}

# Rounds after the last reference, which are not charged, and idle ones before it, which are. In case C block 0 is read, then 1, then 0. In case D the
# last reference is consumed in round 2, and disk 0 then holds block 1, disk 1 block 3.
charged()
{
    show 'two idle rounds at the end' "$A" 00380000
    show 'two idle rounds at the end, with names' "$G" "0088${G_P_MIN#0068}" -n cases/G.names
    show 'a fetch at the end' "$C" 00480100c010040300c000
    show 'an idle round, a fetch and an idle round at the end' "$C" 00680100c0100402806000
    show 'idle rounds before the last reference' "$C" 005400403004010080
    show 'an idle round before the last reference, and two after it' "$C" 006800806008020100
    show 'nothing to read, and an idle round' "$B" 0010
    show 'nothing to read, and a fetch between idle rounds' "$B" 00340000
    show 'a stop at the start, and the sheet of all of F' "$F" "$F_P_MIN" -s 0
    show 'the sheet of all of F up to 1' "$F" "$F_P_MIN" -s 1
    show 'the sheet of all of F up to 6' "$F" "$F_P_MIN" -s 6
    ends '2048 rounds, of which the first 300 are charged' "$A" "8000$(printf '%072d' 0)01$(printf '%0440d' 0)"
    ends '2048 rounds, all of them charged' "$A" "8000$(printf '%0510d' 0)1000"
    show '9: after the last reference' "$A" 003800
    show '11: a block of the other disk, after the last reference' "$D" 003801012018020380a02804
    show '11: a block that is not there, after the last reference and an idle round' "$D" 00480101201802038084090180
    show '12: after the last reference' "$C" 00580100c01004028000
    show '13: after the last reference' "$D" 003801012018020380a000
    show '14: a block of the other disk, after the last reference' "$D" 003801012018020380a0080c
    show '14: the fetched block itself, after the last reference and an idle round' "$D" 00480101201802038084050100
    show '15: idle rounds do not read' "$A" 0020
    show '16: a byte after idle rounds' "$C" 00480100c010040200
    show '20: after the last reference before the stop' "$F" 00280101101c04 -s 1
    show '20: nothing to read, and after an idle round' "$B" 0024010000
}

# Stops: sheets up to them, the numbers that come with them, and the order of 8, 21 and 9.
stops()
{
    show 'G up to 13, where P-CON takes as few rounds' "$G" "$G_TO_13" -s 13
    show 'the same with names' "$G" "$G_TO_13" -s 13 -n cases/G.names
    show 'the same, names first' "$G" "$G_TO_13" -n cases/G.names -s 13
    show 'the sheet of all of G, up to 13' "$G" "$G_P_MIN" -s 13
    show 'a stop at the end' "$G" "$G_P_MIN" -s 21
    show 'a stop at the start' "$G" 0000 -s 0
    show 'a stop in a job without references' "$B" 0000 -s 00
    show '15: the sheet up to 13 for all of G' "$G" "$G_TO_13"
    show '15: the sheet up to 13 for one more' "$G" "$G_TO_13" -s 14
    show '16: the sheet up to 13 and a byte more' "$G" "${G_TO_13}00" -s 13
    show '21: one more than the references' "$G" "$G_P_MIN" -s 22
    show '21: in a job without references' "$B" 0000 -s 1
    show '21: 1, if 32 bits were kept' "$A" 001800 -s 4294967297
    show '21: 1, if 64 bits were kept' "$A" 001800 -s 18446744073709551617
    show '21: before 9' "$G" '' -s 22
    show '21: before names for other blocks' "$A" 001800 -n cases/G.names -s 2
    show '8: before 21' 10200800100001 001800 -s 2
    show '25: before 21' 10200800100020 001800 -s 2
    show '26: before 21' 1020080010001008 001800 -s 2
}

# The largest factors known: each text gives a ticket of the vectors in tests/, whose two sheets are then shown, their last round and the totals.
waits()
{
    for disks in 2 8; do
        ticket=$(ticket "cases/largest_factor_${disks}_disks.txt" | hex)
        # The sheets are what the first plan of this ticket ends in.
        # shellcheck disable=SC2046
        set -- $(sed -n "s/^plan $ticket .* | \([^ ]*\) | \([^ ]*\)\$/\1 \2/p" ../tests/vectors/waiting.txt | head -n 1)
        [ $# -eq 2 ] || { echo "$disks disks: another ticket"; continue; }
        ends "$disks disks, P-MIN" "$ticket" "$1" $((disks + 3))
        ends "$disks disks, P-CON" "$ticket" "$2" $((disks + 3))
    done
}

# Bad usage.
usage()
{
    for call in 'ticket -x' 'ticket a b c' 'ticket none' 'ticket -d none' \
        'ticket cases/A.txt none/none' 'sheet' 'sheet a' 'sheet a b c' 'sheet -n a' \
        'sheet -x a' 'sheet - -' 'sheet none cases/A.txt' 'sheet cases/A.txt none' \
        'sheet -s' 'sheet -s 1' 'sheet -s 1 a' 'sheet -s one a b' 'sheet -s -1 a b' 'sheet -s 1x a b'; do
        echo "== $call"
        # The words of the call are its arguments.
        # shellcheck disable=SC2086
        run $call
    done
    echo "== sheet -s '' a b"
    run sheet -s '' a b
}

vector()
{
    sed -n "s/^$1 //p" cases/vectors.txt | cut -d ' ' -f "$2"
}

A=$(vector A 1) B=$(vector B 1) C=$(vector C 1) D=$(vector D 1) F=$(vector F 1) F_P_MIN=$(vector F 2)
G=$(vector G 1) G_P_MIN=$(vector G 2) G_P_CON=$(vector G 3)
G_TO_13=0058010220140a809032038090140703c0c0
CARRIED=$(vector carried 1)
bad=0
for group in cases good texts passes carried tickets sheets charged stops starts waits usage; do
    $group >"$out/$group.out"
    diff -u "expected/$group.out" "$out/$group.out" || bad=1
done
for number in $(seq 1 16) 20 21 25 26; do
    grep -q "^refused $number: " "$out"/*.out || { echo "number $number is not met"; bad=1; }
done
for number in 22 23 24 25 26; do
    grep -q "^line [0-9]*: refused $number: " "$out"/*.out || { echo "number $number is not met"; bad=1; }
done
[ $bad -eq 0 ] && echo 'check: all as expected'
exit $bad
