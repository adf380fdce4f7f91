# Draws docs/accuracy.png from the first table of docs/ACCURACY.md: gnuplot tools/accuracy.gp, at the top of the repository
set terminal pngcairo size 800,450 font ",10"
set output "docs/accuracy.png"
set title "How far a KLL sketch's ranks are off, 100,002 items"
set logscale xy
set xlabel "k"
set ylabel "hundredths of all items"
set xrange [6:5500]
set xtics (8, 16, 32, 64, 128, 200, 512, 1024, 2048, 4096)
set grid
rows = "< awk -F '|' '/^## REQ/ { exit } /^[|] [0-9]/ { print $2, $5, $6, $7, $8, $10, $11 }' docs/ACCURACY.md | tr -d %"
plot rows using 1:2 with linespoints title "standard deviation, proved: at most 100 / sqrt(4k)", \
     rows using 1:3 with linespoints title "and at most 100 sqrt(5) / k", \
     rows using 1:7 with lines dashtype 2 title "published for the original, 99 %", \
     rows using 1:6 with linespoints title "measured, 99 % of ranks are within", \
     rows using 1:4 with linespoints title "standard deviation, measured at the worst rank, updates alone", \
     rows using 1:5 with linespoints title "the same after 168 merges"
