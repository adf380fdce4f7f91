# What the pictures of the stories share: size, font, quiet axes and four colours.
set terminal pngcairo size 900,480 font "DejaVu Sans,11"
set output "picture.png"
set border 3 linecolor "#888888"
set tics nomirror textcolor "#333333"
set grid linecolor "#e4e4e4" linetype 1
set title font ",13" textcolor "#111111"
set key textcolor "#333333"
blue = "#1f6fb4"
orange = "#d9722b"
green = "#3a8f4d"
purple = "#7a5195"
grey = "#b0b0b0"
dark = "#333333"
# 123456 as 123,456
grouped(n) = n < 1000 ? sprintf("%d", n) : n < 1000000 ? sprintf("%d,%03d", int(n) / 1000, int(n) % 1000) : sprintf("%d,%03d,%03d", int(n) / 1000000, int(n) / 1000 % 1000, int(n) % 1000)
