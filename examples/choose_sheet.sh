# choose_sheet.sh - choose_sheet on the sheets of cases F and G and of G with carried blocks, in both orders, and on files that are refused.
#
# usage: sh choose_sheet.sh BUILD     (BUILD, an absolute path, has choose_sheet; the files go to BUILD/choose)
# Prints each call, what it says and the bytes that it writes. Exit 2 if a file cannot be made.
cases=$(cd "$(dirname "$0")/../tools/cases" && pwd) || exit 2
build=$1
mkdir -p "$build/choose" && cd "$build/choose" || exit 2

# unhex BYTES - hexadecimal to bytes.
unhex() {
    # shellcheck disable=SC2046,SC2059
    printf "$(printf '\\%03o' $(echo "$1" | sed 's/../0x& /g'))"
}

# choose TICKET FIRST SECOND
choose() {
    echo "\$ choose_sheet $*"
    { "$build/choose_sheet" "$@" >sheet; } 2>&1
    echo "status $?"
    od -An -v -tx1 sheet
}

while read -r name ticket p_min p_con; do
    case $name in
    F | G | carried) { unhex "$ticket" >"$name.ticket" && unhex "$p_min" >"$name.p-min" && unhex "$p_con" >"$name.p-con"; } || exit 2 ;;
    esac
done <"$cases/vectors.txt"
unhex 0088010220140a8090320380a078120280e0481e038080 >G.idle     # the sheet of P-MIN with two idle rounds at its end, 8 in all
unhex 00380101101a018000 >F.part     # up to the stop 4, as in stops.txt
head -c 10 F.p-con >F.cut
head -c 50000 /dev/zero | cat F.p-con - >F.long

# Equal rounds give the second; else fewer rounds decide.
choose F.ticket F.p-min F.p-con
choose F.ticket F.p-con F.p-min
choose F.ticket F.p-min F.p-min
choose G.ticket G.p-min G.p-con
choose G.ticket G.p-con G.p-min
# Rounds after the last reference are not charged: 6 rounds of G.idle are, and 7 of G.p-con.
choose G.ticket G.p-con G.idle
choose G.ticket G.idle G.p-con
choose G.ticket G.p-min G.idle
# Every sheet starts from the carried blocks: 4 rounds, and 5. One that starts from empty buffers is refused, and the other way round.
choose carried.ticket carried.p-min carried.p-con
choose carried.ticket carried.p-con carried.p-min
choose carried.ticket carried.p-min G.p-min
choose G.ticket carried.p-min G.p-min
# Refused: by the second sheet, by the first of two, by the ticket. The whole job counts, so that a sheet for a part of it is refused.
choose F.ticket F.p-min F.part
choose F.ticket F.p-min F.cut
choose F.ticket F.long F.cut
choose F.ticket F.cut F.long
choose F.cut F.p-min F.p-con
