# Draws picture.png: gnuplot week.gp
load "../style.gp"
hours = system("mktemp")
system("./week hours > " . hours)
set title "p50 and p99 of each hour: 168 hours, a sketch for each hour and service"
set logscale y
set xrange [0:7]
set yrange [30:5000]
set ylabel "milliseconds"
set xtics ("Mon" 0.5, "Tue" 1.5, "Wed" 2.5, "Thu" 3.5, "Fri" 4.5, "Sat" 5.5, "Sun" 6.5) scale 0
set ytics (30, 100, 300, 1000, 3000)
set key top left reverse Left samplen 3 spacing 1.2
set rmargin 8
set label "p99" at 7, 1400 offset 1.2, 0 textcolor rgb orange
set label "p50" at 7, 150 offset 1.2, 0 textcolor rgb blue
set label "a bad hour of one service" at 3.7, 3600 textcolor rgb dark
plot hours using ($1 + 1.0 / 48):3 with lines linewidth 7 linecolor rgb grey notitle, \
     hours using ($1 + 1.0 / 48):5 with lines linewidth 7 linecolor rgb grey title "percentile\\_disc", \
     hours using ($1 + 1.0 / 48):2 with lines linewidth 2 linecolor rgb blue notitle, \
     hours using ($1 + 1.0 / 48):4 with lines linewidth 2 linecolor rgb orange notitle, \
     NaN with lines linewidth 2 linecolor rgb dark title "the merged sketches"
system("rm " . hours)
