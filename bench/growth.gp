# Draws docs/growth.png from the last tables of docs/SPEED.md: gnuplot bench/growth.gp, at the top of the repository
set terminal pngcairo size 900,380 font ",10"
set output "docs/growth.png"
set multiplot layout 1,2
set logscale x
set grid
set key top left
updates = "< sed -n 's/^| 10^\\([0-9]*\\) |/| 1e\\1 |/p' docs/SPEED.md | tr -d '|'"
merges = "< awk -F '|' '/^## Growth/ { on = 1 } on && $2 ~ /^ [0-9]+ $/ { print $2, $3, $5 }' docs/SPEED.md"
set title "an update"
set xlabel "updates of one sketch"
set ylabel "nanoseconds"
set format x "10^{%L}"
set yrange [0:60]
plot updates using 1:2 with linespoints title "k 200", updates using 1:5 with linespoints title "k 4096"
set title "a merge of a sketch of 10,000 items"
set xlabel "sketches merged into one"
set ylabel "microseconds"
set format x "%g"
set logscale y
set yrange [1:1000]
plot merges using 1:2 with linespoints title "k 200", merges using 1:3 with linespoints title "k 4096"
unset multiplot
