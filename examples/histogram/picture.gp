# Draws histogram/picture.png: gnuplot picture.gp
load "../style.gp"
rows = system("mktemp")
system("./run rows > " . rows)
stats rows nooutput name "row"
bounds = system("./run bounds")
buckets = words(bounds) - 1
# rows and buckets in columns that are equally wide on a log axis: a row adds to its column's rows for each % of price
steps = 100
step(x) = floor(steps * log10(x))
middle(s) = 10 ** ((s + 0.5) / steps)
width = 10 ** (1.0 / steps) - 1
least = 10
set print $buckets
do for [b=1:buckets] {
    low = real(word(bounds, b))
    high = real(word(bounds, b + 1))
    deep = row_records / buckets / log(high / low) / 100
    print sprintf("%g %g\n%g %g\n%g %g\n%g %g\n", low, least, low, deep, high, deep, high, least)
}
set print
set title sprintf("%s prices, and %d buckets of equally many rows, by a sketch", grouped(row_records), buckets)
set logscale xy
set xlabel "price in cents"
set ylabel "rows for each % of price"
set xrange [90:20000]
set yrange [least:10000]
set xtics (100, 200, 500, "1,000" 1000, "2,000" 2000, "5,000" 5000, "10,000" 10000, "20,000" 20000)
set mxtics 1
set ytics ("10" 10, "100" 100, "1,000" 1000, "10,000" 10000)
set mytics 1
set key top left reverse Left samplen 2
set style fill solid 1 noborder
plot rows using (middle(step($1))):(1 / (100 * width)) smooth frequency with boxes linecolor rgb "#c3d9ec" title "rows", \
     $buckets using 1:2 with lines linewidth 2 linecolor rgb orange title "buckets"
system("rm " . rows)
