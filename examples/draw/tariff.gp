# The bill of a month by consumption, at three prices of the highest step, with the ends of the steps marked.
load "style.gp"
set output output
set title "Bill of a month by consumption, at three prices of step 3"
set key left top Left reverse
set xlabel "consumption in kWh"
set ylabel "bill of the month in €"
set xrange [0:820]
set yrange [0:400]
set arrow 1 from 100,0 to 100,250 nohead dt 3 lc rgb "#5a6b7b"
set arrow 2 from 300,0 to 300,250 nohead dt 3 lc rgb "#5a6b7b"
set label 1 "step 2 begins\nat 100 kWh" at 108,236 textcolor rgb "#5a6b7b"
set label 2 "step 3 begins\nat 300 kWh" at 308,236 textcolor rgb "#5a6b7b"
plot folder."/table.csv" using 1:4 skip 1 with linespoints lw 2 pt 9 lc rgb green title "0.45 € a kWh in step 3", \
     folder."/table.csv" using 1:3 skip 1 with linespoints lw 2 pt 5 lc rgb orange title "0.38 €, as it is", \
     folder."/table.csv" using 1:2 skip 1 with linespoints lw 2 pt 7 lc rgb blue title "0.34 €", \
     folder."/now.csv" using 1:2 with points pt 6 ps 2 lw 2 lc rgb "#1b2733" notitle, \
     folder."/now.csv" using 1:2:(sprintf("now: %g kWh, %.2f €", $1, $2)) with labels left offset 1.5,-0.9 textcolor rgb "#1b2733" notitle
