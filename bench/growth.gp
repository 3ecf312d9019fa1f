# growth.svg of growth.dat: how the cost of a call grows with each size, the others staying.
set terminal svg size 900,760 font "sans,12" background rgb "white"
set output "growth.svg"
set logscale x 2
set logscale y
set format y "%g"
set yrange [1:10000]
set autoscale xfix
set ylabel "microseconds"
set key below
set grid
array name[4] = ["references", "blocks", "disks", "slots of each disk"]
set multiplot layout 2,2
do for [k = 1:4] {
    set xlabel name[k]
    plot "growth.dat" index k-1 using 1:($3/1000) with linespoints pt 4 lc rgb "#777777" title "plan, reference", \
         "" index k-1 using 1:($2/1000) with linespoints pt 5 lc rgb "#0060ad" title "planner\\_plan", \
         "" index k-1 using 1:($5/1000) with linespoints pt 6 lc rgb "#bb9955" title "check, reference", \
         "" index k-1 using 1:($4/1000) with linespoints pt 7 lc rgb "#dd5500" title "planner\\_check"
}
unset multiplot
