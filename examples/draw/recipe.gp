# What each part of a batch costs and what all of it does, now and with dearer butter and apples.
load "style.gp"
set output output
set title "Cost of a batch of apple cake, by its parts and in all"
set style data histograms
set style histogram clustered gap 1
set style fill solid 0.9 noborder
set boxwidth 0.95
set yrange [0:112]
set key left top Left reverse
set xtics rotate by -30
set ylabel "cost in €"
set rmargin 6
plot folder."/now.csv" using 4:xtic(1) skip 1 lc rgb blue title "as it is", \
     folder."/dear.csv" using 4 skip 1 lc rgb orange title "dearer butter and apples", \
     folder."/now.csv" using ($0-0.2):4:(sprintf("%.2f", $4)) skip 1 with labels font "Helvetica,10" offset -0.2,0.6 textcolor rgb blue notitle, \
     folder."/dearer.csv" using ($1+0.2):2:(sprintf("%.2f", $2)) with labels font "Helvetica,10" offset 0.2,0.6 textcolor rgb orange notitle
