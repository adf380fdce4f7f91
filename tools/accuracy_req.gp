# Draws docs/accuracy_req.png from the second table of REQ in docs/ACCURACY.md: gnuplot tools/accuracy_req.gp, at the top of
# the repository
set terminal pngcairo size 800,450 font ",10"
set output "docs/accuracy_req.png"
set title "Standard error of a REQ sketch's count of greater items, 100,002 items"
set logscale xy
set xlabel "items that are truly greater (R)"
set ylabel "hundredths of them"
set xrange [80:40000]
set yrange [0.02:40]
set grid
set key outside right
# one line for each k: the greater items, and the first or second figure of each cell unless it is 0
rows(k, figure) = sprintf("< awk -F '|' '/^[|] k [|] levels/ { on = 1; for (i = 4; i < NF; i++) { split($i, w, \" \"); n[i] = w[1] } } on && /^$/ { exit } on && $2 + 0 == %d { for (i = 4; i < NF; i++) { split($i, w, \", \"); if (w[%d] + 0) print n[i], w[%d] + 0 } }' docs/ACCURACY.md", k, figure, figure)
ks = "12 50 100 200"
plot for [i = 1:4] rows(int(word(ks, i)), 2) using 1:2 with lines dashtype 2 linecolor i title sprintf("k %s, proved: at most", word(ks, i)), \
     for [i = 1:4] rows(int(word(ks, i)), 1) using 1:2 with linespoints linecolor i title sprintf("k %s, measured", word(ks, i))
