# The growth of a plan's cost, from target/bench/growth-*.dat (gnuplot, run at the repository's root).
set terminal svg size 900,640 font 'sans,11' background rgb 'white'
set output 'target/bench/growth.svg'
set multiplot layout 2,2
set key top left
set border 3
set tics nomirror
set ylabel 'microseconds a book'
set yrange [0:*]
set offsets 0,0,graph 0.3,0
do for [name in 'requests nodes channels ring-nodes'] {
  set xlabel name eq 'ring-nodes' ? 'nodes of a ring (LEMON: once for each cut)' : name.' of a line'
  file = 'target/bench/growth-'.name.'.dat'
  plot file using 1:2 with lines lw 2 title 'ours', file using 1:3 with lines lw 1 title 'plain C++', file using 1:4 with linespoints lw 1 pt 7 ps 0.4 title 'better LEMON, run alone'
}
