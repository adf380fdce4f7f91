# Draws docs/peers_errors.svg and docs/peers_costs.svg from the tables of docs/PEERS.md: gnuplot bench/peers/pictures.gp, at the
# top of the repository
set terminal svg size 900,480 font "sans-serif,13" background "white"
set grid
page = "docs/PEERS.md"

set output "docs/peers_errors.svg"
set title "How far an answered percentile is off, 10,000,000 latencies: the median of the runs"
set ylabel "hundredths of the items beyond the percentile"
set logscale y
set yrange [0.008:300]
set ytics ("0.01 or less" 0.01, "0.1" 0.1, "1 %%" 1, "10 %%" 10, "100 %%" 100)
set xrange [-0.2:5.2]
set xtics ("p50" 0, "p90" 1, "p99" 2, "p99.9" 3, "p99.99" 4, "p99.999" 5)
set key outside right
ours = "'KLL 200' 'KLL 2048' 'REQ 12' 'REQ 50' 'REQ 100'"
others = "'HdrHistogram, Java, 2 digits' 'HdrHistogram, Java, 3 digits' 't-digest, Go (merging) 100' 't-digest, Go (merging) 1000' 't-digest, Java (AVL) 100' 'Greenwald-Khanna 0.001'"
# the medians of a row of the first table below '## Errors', with 0.01 in place of anything less
row(name) = sprintf("< awk -F ' *[|] *' '/^## Errors/ { on = 1 } on && $2 == \"%s\" { for (i = 4; i <= 9; i++) print i - 4, ($i + 0 > 0.01 ? $i + 0 : 0.01); exit }' %s", name, page)
plot for [i = 1:words(ours)] row(word(ours, i)) with linespoints linewidth 2 pointtype i title word(ours, i), \
     for [i = 1:words(others)] row(word(others, i)) with linespoints dashtype 2 pointtype 5 + i title word(others, i)

set output "docs/peers_costs.svg"
set title "Time and bytes, 10,000,000 latencies: from the image (below) to the live memory (above)"
set xlabel "nanoseconds an update"
set ylabel "KB"
set logscale xy
set xrange [2:2000]
set yrange [2:2000]
set xtics auto
set ytics auto
unset key
# Name, nanoseconds, live KB, image KB and the place of the name, from the rows below '## Costs' except those of the original, of
# CKMS and of Go's HdrHistogram; the live KB twice if there is no image.
costs = sprintf("< awk -F ' *[|] *' '/^## Costs/ { on = 1 } /^## Errors/ { exit } on && $3 + 0 && $2 !~ /^original|^CKMS|^Hdr.*Go/ { image = $7 + 0 ? $7 : $6; printf \"\\\"%%s\\\" %%s %%s %%s %%s\\n\", $2, $3, $6, image, $2 ~ /^KLL/ ? image : $6 }' %s", page)
plot costs using 2:4:(0):($3 - $4) with vectors nohead linewidth 2 linecolor "gray", \
     costs using 2:3 with points pointtype 7 linecolor 1, \
     costs using 2:4 with points pointtype 6 linecolor 1, \
     costs using 2:5:1 with labels left offset 0.8, 0.3 font ",10"
