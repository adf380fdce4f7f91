# Draws latency/picture.png: gnuplot picture.gp
load "../style.gp"
# lines 'service percentile sketch sorting', with 100 for the greatest, which no axis of this kind can show
curves = system("mktemp")
system("./run curves > " . curves)
requests = int(system("./run log | wc -l"))
services = int(system(sprintf("cut -d ' ' -f 1 %s | uniq | wc -l", curves)))
shown = "web pay cart auth"
colours = "#1f6fb4 #d9722b #3a8f4d #7a5195"
of(s) = sprintf("< grep '^%s ' %s | grep -v ' 100 '", word(shown, s), curves)
last(s) = real(system(sprintf("grep '^%s 99.97 ' %s | cut -d ' ' -f 3", word(shown, s), curves)))
set title sprintf("%s requests, one pass: four of the %d services", grouped(requests), services)
set logscale xy
set xrange [2:1 / 0.0003]
set yrange [3:3000]
set xlabel "percentile"
set ylabel "milliseconds"
set xtics ("p50" 2, "p75" 4, "p90" 10, "p95" 20, "p99" 100, "p99.5" 200, "p99.9" 1000, "p99.97" 1 / 0.0003)
set mxtics 1
set ytics (3, 10, 30, 100, 300, 1000, 3000)
set key top left reverse Left samplen 3 spacing 1.2
set rmargin 8
do for [s=1:4] { set label s word(shown, s) at 1 / 0.0003, last(s) offset 1.2, 0 textcolor rgb word(colours, s) }
plot for [s=1:4] of(s) using (1 / (1 - $2 / 100)):4 with lines linewidth 7 linecolor rgb grey notitle, \
     for [s=1:4] of(s) using (1 / (1 - $2 / 100)):3 with lines linewidth 2 linecolor rgb word(colours, s) notitle, \
     NaN with lines linewidth 7 linecolor rgb grey title "sorting", \
     NaN with lines linewidth 2 linecolor rgb dark title "the sketch"
system("rm " . curves)
