# The time of a command where the registry has accepted 100 commands, and where it has accepted 99,000.
set terminal svg size 560,340 fixed background "white" font "Helvetica,14"
set border 3 linecolor "#333333"
set style fill solid border linecolor "#333333"
set boxwidth 0.38
set grid ytics linetype 1 linecolor "#dddddd"
set tics nomirror
set xtics scale 0 ("on a disk" 0, "in memory" 1)
set xrange [-0.6:1.6]
set yrange [0:2.2]
set ytics 0.5
set ylabel "milliseconds a command"
set key top right reverse Left samplen 2 spacing 1.2
plot "data/growth.txt" using ($0 - 0.2):2 with boxes linecolor rgb "#cfe2f3" title "at 100 keys", \
     "" using ($0 + 0.2):3 with boxes linecolor rgb "#999999" title "at 99,000 keys", \
     "" using ($0 + 0.01):(2 * $2):(0.38):(0) with vectors nohead linecolor rgb "#333333" linewidth 2 dashtype 2 \
        title "the goal: at most twice", \
     "" using ($0 - 0.2):2:(sprintf("%.2f", $2)) with labels offset 0,0.6 font ",12" notitle, \
     "" using ($0 + 0.2):3:(sprintf("%.2f", $3)) with labels offset 0,0.6 font ",12" notitle
