#!/bin/sh
# Draws two pictures from the table that instructions.sh prints, which it reads from its input: docs/speed-segments.svg, what a segment and
# a connection cost beside lwIP's two builds, and docs/speed-held.svg, what a data segment costs by how many are held with it. It
# wants gnuplot:
#     bench/instructions.sh | tee /dev/stderr | bench/draw.sh
set -eu

top=$(cd "$(dirname "$0")/.." && pwd)
out=$top/bench/out
mkdir -p "$out"
cat >"$out/table"
# In the words of docs/SPEED.md.
awk '
    BEGIN {
        name["in_order"] = "in order"; name["late"] = "one of ten\\nlate"; name["early"] = "39 of 40\\nheld"
        name["acknowledgement"] = "acknowledgement"; name["one_byte"] = "one byte"; name["connection"] = "a connection,\\nopened and closed"
    }
    $1 in name { print "\"" name[$1] "\"", $2, $4, $5 }' "$out/table" >"$out/segments"
awk '$1 == "in_order" { print 0, $2, $4, $5 } $1 == "late" { print 9, $2, $4, $5 } $1 == "early" { print 39, $2, $4, $5 }' "$out/table" >"$out/held"
gnuplot <<END
set terminal svg size 760,380 font 'sans,13' background 'white'
set output '$top/docs/speed-segments.svg'
set style data histograms
set style fill solid 0.85
set boxwidth 0.9
set ylabel 'instructions, both ends'
set yrange [0:*]
set grid ytics lc rgb '#dddddd'
set xtics scale 0
set key above
set bmargin 4
set xrange [-0.6:5.6]
plot '$out/segments' using 2:xtic(1) title 'ours' lc rgb '#20639b', '' using 3 title 'lwIP, as it ships' lc rgb '#bbbbbb', '' using 4 title 'lwIP, best build' lc rgb '#888888'
set bmargin
set terminal svg size 760,320 font 'sans,13' background 'white'
set output '$top/docs/speed-held.svg'
set xlabel 'segments of a burst that are held'
set ylabel 'instructions a segment'
set xrange [-1:50]
set xtics 0,10,40 scale 1
unset key
plot '$out/held' using 1:2 with linespoints lw 2 pt 7 lc rgb '#20639b', '' using 1:4 with linespoints lw 2 pt 5 lc rgb '#888888', \
    '' every ::2::2 using (\$1 + 1):2:('ours') with labels left tc rgb '#20639b', \
    '' every ::2::2 using (\$1 + 1):4:('lwIP, best build') with labels left tc rgb '#555555'
END
