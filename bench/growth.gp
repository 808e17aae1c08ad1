# Draws docs/growth.svg from bench/growth.tsv. Usage, from the repository's root: gnuplot bench/growth.gp
# It needs gnuplot (Debian: gnuplot-nox). The data file is written by `bench --growth`.
data = 'bench/growth.tsv'
set terminal svg size 1100,600 font 'sans-serif,14' background rgb 'white' fixed
set output 'docs/growth.svg'

set multiplot layout 1,2 title "Time of the printed table: the proved library and the reference" font ',18'
set logscale xy
set grid ytics lc rgb '#dddddd'
set border 3
set tics nomirror
set yrange [1:2000]
set format y '%g'
set ylabel 'time of one call (µs, logarithmic)'
set key below Left reverse samplen 2 spacing 1.2 width -4 maxrows 3 font ',12'
set bmargin 7.5

# A colour for each kind of sheet; the library's line is whole, the reference's is dashed.
set style line 1 lc rgb '#1b6ca8' lw 2 pt 7 ps 0.7
set style line 2 lc rgb '#1b6ca8' lw 2 pt 6 ps 0.7 dt 2
set style line 3 lc rgb '#c8553d' lw 2 pt 7 ps 0.7
set style line 4 lc rgb '#c8553d' lw 2 pt 6 ps 0.7 dt 2
set style line 5 lc rgb '#3c7a3c' lw 2 pt 7 ps 0.7
set style line 6 lc rgb '#3c7a3c' lw 2 pt 6 ps 0.7 dt 2

set title 'By plots: 3 rows crossed with 5 columns, 2 treatment columns'
set xlabel 'plots (logarithmic)'
set xrange [13:280]
set xtics (15, 30, 60, 120, 240)
plot data index 0 using 1:2 with linespoints ls 1 title 'library', \
     data index 0 using 1:3 with linespoints ls 2 title 'reference'

set title 'By members: crossed columns on 240 plots'
set xlabel 'members (logarithmic)'
set xrange [1.8:36]
set xtics (2, 4, 8, 16, 32)
plot data index 1 using 1:2 with linespoints ls 1 title 'library, plot members', \
     data index 2 using 1:2 with linespoints ls 3 title 'library, treatment members', \
     data index 3 using 1:2 with linespoints ls 5 title 'library, both', \
     data index 1 using 1:3 with linespoints ls 2 title 'reference, plot members', \
     data index 2 using 1:3 with linespoints ls 4 title 'reference, treatment members', \
     data index 3 using 1:3 with linespoints ls 6 title 'reference, both'
unset multiplot
