# Commands a second of gmbench and of the plain script, on a disk and in memory: a bar a run.
set terminal svg size 820,350 fixed background "white" font "Helvetica,14"
set border 3 linecolor "#333333"
set style fill solid border linecolor "#333333"
set boxwidth 0.2
set grid ytics linetype 1 linecolor "#dddddd"
set tics nomirror
set xtics scale 0 ("gmbench" 0, "plain.py\nby fsync" 1, "plain.py\nby fdatasync" 2)
set xrange [-0.6:2.6]
set yrange [0:8000]
set ytics ("0" 0, "2,000" 2000, "4,000" 4000, "6,000" 6000, "8,000" 8000)
set bmargin 4
set lmargin 9
set rmargin 1
unset key
set multiplot layout 1,2
shade(row) = row == 0 ? 0xcfe2f3 : 0xdddddd
do for [panel = 0:1] {
    set title panel == 0 ? "on a disk" : "in memory"
    set ylabel panel == 0 ? "commands a second" : ""
    first = 3 * panel
    plot for [run = 0:3] "data/rate.txt" every ::first::first + 2 \
             using ($0 + 0.21 * run - 0.315):(column(3 + run)):(shade($0)) with boxes linecolor rgb variable
}
