# The profit of a year by pieces sold, at three prices, with the break-even points marked.
load "style.gp"
set output output
set title "Profit of a year by pieces sold, at three prices"
set key left top Left reverse
set xlabel "pieces sold in a year"
set ylabel "profit of the year in €"
set xrange [0:6400]
set yrange [-13000:14000]
set format y "%.0f"
set xzeroaxis lw 1.5 lt 1 lc rgb "#1b2733"
plot folder."/table.csv" using 1:4 skip 1 with linespoints lw 2 pt 9 lc rgb green title "9 € a piece", \
     folder."/table.csv" using 1:3 skip 1 with linespoints lw 2 pt 5 lc rgb orange title "8 €, as planned", \
     folder."/table.csv" using 1:2 skip 1 with linespoints lw 2 pt 7 lc rgb blue title "7 €", \
     folder."/points.csv" using 2:(0) skip 1 with points pt 6 ps 2 lw 2 lc rgb "#1b2733" title "break-even", \
     folder."/points.csv" using 2:(0):(sprintf("%.0f", $2)) skip 1 with labels offset 0,-1.3 textcolor rgb "#1b2733" notitle
