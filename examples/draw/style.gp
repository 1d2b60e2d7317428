# What the pictures have in common: size, font, ground, and a quiet grid below the lines.
set terminal svg size 760,460 font "Helvetica,14" background "#ffffff" enhanced
set encoding utf8
set datafile separator comma
set border 3 lc rgb "#8a949e"
set tics nomirror textcolor rgb "#1b2733"
set grid back lc rgb "#d5dbe1" lt 1
set title font "Helvetica,17" textcolor rgb "#1b2733"
set key textcolor rgb "#1b2733"
set decimalsign "."
blue = "#1f5f99"
orange = "#c55a11"
green = "#4b7a2b"
