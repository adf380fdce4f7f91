# Draws load_test/picture.png: gnuplot picture.gp
load "../style.gp"
# lines 'family slower', and by how much of it 95 of 100 counts are off at most, in %
counts = system("mktemp")
system("./run tail > " . counts)
said(what) = system(sprintf("sed -n 's/^%s //p' %s", what, counts))
of(family) = sprintf("< grep '^%s [0-9]' %s", family, counts)
exact = int(said("tail"))
requests = int(said("requests"))
set title sprintf("%s requests: how far a count of slower requests is off, 95 of 100 times", grouped(requests))
set logscale x
set xlabel "requests that are truly slower"
set ylabel "off by, % of them"
set xrange [50:requests]
set yrange [0:8]
set xtics ("100" 100, "1,000" 1000, "10,000" 10000, "100,000" 100000)
set arrow 1 from exact, 0 to exact, 6.8 nohead dashtype 2 linecolor rgb "#888888"
set label 1 sprintf("the %d slowest, 3k:\nREQ is exact to the left", exact) at exact, 7.5 center textcolor rgb dark
set label 2 said("kll title") at 1300, 6.4 textcolor rgb orange
set label 3 said("req title") at exact * 1.15, 0.55 textcolor rgb blue
plot of("kll") using 2:3 with lines linewidth 2 linecolor rgb orange notitle, \
     of("req") using 2:3 with lines linewidth 2.5 linecolor rgb blue notitle
system("rm " . counts)
