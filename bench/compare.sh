# compare.sh - what a change costs: the programs `bench` of the trees before and after it, run in turn.
#
# usage: sh compare.sh BEFORE NOW RUNS REPEATS
# Runs each RUNS times with REPEATS, and prints the medians of the runs as tables in markdown: the jobs of full size, and the stack of each call.
# A ratio is the library's time by the reference's, both as the same run printed them.
[ $# -eq 4 ] || { echo "usage: sh compare.sh BEFORE NOW RUNS REPEATS" >&2; exit 2; }
before=$1
now=$2
runs=$3
repeats=$4
dir=$(mktemp -d) || exit 2
trap 'rm -r "$dir"' EXIT
trap 'exit 2' HUP INT TERM

# measured PROGRAM FILE - one run more. That a ratio is above what is asked (1) is not looked at here.
measured() {
    "$1" "$repeats" >>"$2"
    [ $? -le 1 ] || { echo "compare: $1 fails" >&2; exit 2; }
}

for _ in $(seq "$runs"); do
    measured "$before" "$dir/before"
    measured "$now" "$dir/now"
done

awk -F ' *[|] *' -v runs="$runs" '
    # the values of a version (1 before, 2 now) under a key, in order
    function keep(key, value,    k) {
        for (k = n[version, key]++; k > 0 && v[version, key, k - 1] > value; k--)
            v[version, key, k] = v[version, key, k - 1]
        v[version, key, k] = value
    }
    function median(which, key) { return (v[which, key, int((runs - 1) / 2)] + v[which, key, int(runs / 2)]) / 2 }
    function of_it(what, name) { return median(2, what name) / median(1, what name) }
    function cells(what, name, form) { return sprintf(" " form " | " form " |", median(1, what name), median(2, what name)) }
    function mean(what,    k, sum) {
        for (k = 0; k < jobs; k++)
            sum += log(of_it(what, job[k]))
        return exp(sum / jobs)
    }
    # whether each run of both versions printed every name
    function complete(what, names, how_many,    k) {
        for (k = 0; k < how_many; k++)
            if (n[1, what names[k]] != runs || n[2, what names[k]] != runs)
                return 0
        return how_many > 0
    }

    NF == 9 && $2 ~ /^(random|cyclic|thrash|crowded), / {
        if (!($2 in known)) { known[$2]; job[jobs++] = $2 }
        keep("plan" $2, $3 + 0)
        keep("plan ratio" $2, $3 / $4)
        keep("check" $2, $6 + 0)
        keep("check ratio" $2, $6 / $7)
    }
    NF == 4 && $2 ~ /^planner_/ {
        if (!($2 in known)) { known[$2]; call[calls++] = $2 }
        keep("stack" $2, $3 + 0)
    }
    END {
        if (!complete("plan", job, jobs) || !complete("stack", call, calls)) {
            print "compare: a run lacks a row" > "/dev/stderr"
            exit 2
        }
        print "| job | plan before, us | now | of it | ratio before | now | check before, us | now | of it | ratio before | now |"
        print "|---|---|---|---|---|---|---|---|---|---|---|"
        for (k = 0; k < jobs; k++)
            printf "| %s |%s %.2f |%s%s %.2f |%s\n", job[k],
                cells("plan", job[k], "%.1f"), of_it("plan", job[k]), cells("plan ratio", job[k], "%.2f"),
                cells("check", job[k], "%.1f"), of_it("check", job[k]), cells("check ratio", job[k], "%.2f")
        printf "\nGeometric means: planning takes %.2f of its time before, its ratios are %.2f of those before; checking %.2f and %.2f.\n\n",
            mean("plan"), mean("plan ratio"), mean("check"), mean("check ratio")
        print "| call | stack before, bytes | now |\n|---|---|---|"
        for (k = 0; k < calls; k++)
            printf "| %s |%s\n", call[k], cells("stack", call[k], "%d")
    }' version=1 "$dir/before" version=2 "$dir/now"
