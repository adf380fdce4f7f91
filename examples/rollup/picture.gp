# Draws rollup/picture.png: gnuplot picture.gp
load "../style.gp"
# lines 'family way percentile', and the 5th, the middle and the 95th of 100 errors in % of all
bands = system("mktemp")
system("./run bands > " . bands)
said(family, what) = system(sprintf("sed -n 's/^%s merged %s //p' %s", family, what, bands))
of(family, way) = sprintf("< grep '^%s %s [0-9]' %s", family, way, bands)
set multiplot layout 1, 2 title sprintf("How far the week's ranks are off: within the band 90 of 100 times, %s seeds", said("kll", "seeds")) font ",13"
set xlabel "percentile"
set ylabel "off by, % of all numbers"
set logscale x
set xrange [25:0.1]
set xtics ("p75" 25, "p90" 10, "p95" 5, "p99" 1, "p99.5" 0.5, "p99.9" 0.1)
set yrange [-0.12:0.12]
set ytics 0.04
set format y "%.2f"
set key bottom right reverse Left samplen 2
do for [family in "kll req"] {
    set title said(family, "title")
    plot of(family, "merged") using (100 - $3):4:6 with filledcurves fillstyle solid 0.35 noborder linecolor rgb (family eq "req" ? blue : orange) title "168 images, merged", \
         of(family, "once") using (100 - $3):4 with lines linewidth 1.5 linecolor rgb dark title "one pass", \
         of(family, "once") using (100 - $3):6 with lines linewidth 1.5 linecolor rgb dark notitle, \
         0 with lines linecolor rgb "#888888" notitle
    set ylabel
}
unset multiplot
system("rm " . bands)
