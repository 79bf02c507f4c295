# The time of sync beside that of dd and of cmp, and of scrub beside that of cmp; the seconds of both stand in the bars.
set terminal svg size 720,360 fixed background "white" font "Helvetica,14"
set border 3 linecolor "#333333"
set style fill solid border linecolor "#333333"
set boxwidth 0.72
set grid ytics linetype 1 linecolor "#dddddd"
set tics nomirror
set xtics scale 0 ("sync to dd\nin memory" 0, "sync to dd\non a disk" 1, "equal data\nto cmp\nin memory" 2, \
                   "equal data\nto cmp\non a disk" 3, "scrub to cmp\nin memory" 4, "scrub to cmp\non a disk" 5)
set xrange [-0.6:5.6]
set yrange [0:2.5]
set ytics 0.5
set bmargin 5
set ylabel "times as long"
set key top right reverse Left samplen 2
plot "data/filling.txt" using 0:($3 / $4):($0 < 2 ? 0xcfe2f3 : $0 < 4 ? 0xd9ead3 : 0xdddddd) with boxes linecolor rgb variable notitle, \
     "" using ($0 - 0.36):5:(0.72):(0) with vectors nohead linecolor rgb "#333333" linewidth 2 dashtype 2 \
        title "the goal: at most", \
     "" using 0:($3 / $4):(sprintf("%.2f", $3 / $4)) with labels offset 0,-0.9 notitle, \
     "" using 0:(0.26):(sprintf("%s s\nto %s s", strcol(3), strcol(4))) with labels font ",12" notitle
