# program_faults.sh - for page_faults.sh, note_faults.sh and slot_faults.sh: programs with a fault, each of which a test must catch.
#
# Read by them with BUILD as the first argument (it has the test, programs.o, answer.o, reference.o and note.o), after they have set
#   test      the test: BUILD/$test CASES PROGRAM SEED COUNT
#   program   the program that it tries beside `cases`
#   count     how many jobs or notes catch every fault
# The programs are programs.c over answer.c, reference.c and note.c, changed by a sed script, in BUILD/programs.
cc=${CC:-cc}
build=$1
dir=$build/programs
missed=0
tried=0

# build SCRIPT - both programs; only the files that it changes are compiled.
build() {
    objects=
    rm -rf "$dir" && mkdir -p "$dir" || exit 2
    for file in programs.c reference/answer.c reference/reference.c reference/note.c; do
        name=$(basename "$file" .c)
        sed -E "$1" "$file" >"$dir/$name.c"
        if cmp -s "$file" "$dir/$name.c"; then
            objects="$objects $build/$name.o"
        else
            $cc -std=c11 -I. -Ireference -c "$dir/$name.c" -o "$dir/$name.o" || return 1
            objects="$objects $dir/$name.o"
        fi
    done
    # shellcheck disable=SC2086
    $cc $objects -o "$dir/cases" && ln "$dir/cases" "$dir/$program"
}

# try COUNT - the test, with the programs built.
try() {
    timeout 60 "$build/$test" "$dir/cases" "$dir/$program" 1 "$1" >"$dir/report" 2>&1
}

# fault NAME WORDS SCRIPT - the test must fail, and say these words.
fault() {
    tried=$((tried + 1))
    if ! build "$3" || [ -z "$(ls "$dir"/*.o 2>/dev/null)" ]; then
        echo "BROKEN  $1"
        missed=$((missed + 1))
        return
    fi
    try "$count"
    if [ $? -ne 1 ] || ! grep -q "$2" "$dir/report"; then
        echo "MISSED  $1"
        missed=$((missed + 1))
    fi
}

# Without a fault they agree; but one job or note does not meet all that must be met.
build '' && try "$count" || { cat "$dir/report"; echo "programs without a fault are not passed"; exit 1; }
try 1
[ $? -eq 1 ] && grep -q '^FAIL' "$dir/report" || { echo "one is taken for enough"; exit 1; }
