#!/bin/sh
# What a budget buys: for three real series at degrees 0, 1 and 2, the sum of all readings at budgets from full scale down to
# 0. Writes docs/budgets.tsv, with a line for each series, degree and budget: the budget as a part of full scale (the count of
# readings times the greatest), the width of the interval, the segments of the cut and how many are opened, the bytes of the
# nodes that the answer needs, and the wall time in milliseconds; and with gnuplot the picture docs/budgets.svg.
# Usage: bench/budgets.sh
set -eu
top=$(CDPATH= cd -- "$(dirname -- "$0")/.." && pwd)
program=$top/crates/platodb/out/platodb
"$top/bin/platodb" > /dev/null 2>&1 || true
folder=$(mktemp -d)
trap 'rm -rf "$folder"' EXIT
table=$top/docs/budgets.tsv
printf 'series\tdegree\treadings\tpart\tbudget\twidth\tsegments\topened\tbytes\tmilliseconds\n' > "$table"

# The rows of a series: its file, column and scale.
rows() {
    file=$1
    column=$2
    scale=$3
    for degree in 0 1 2; do
        store=$folder/$column.$degree
        "$program" new "$store" "$scale" "$degree" > /dev/null
        n=$("$program" load "$store" x "$file" "$column" | cut -d ' ' -f 3)
        greatest=$(awk -F, -v column="$column" -v factor="1$(printf '%0*d' "$scale" 0 | cut -c "1-$scale")" '
            NR == 1 { for (i = 1; i <= NF; i++) if ($i == column) at = i; next }
            { v = $at < 0 ? -$at : $at; if (v > most) most = v }
            END { printf "%.0f", most * factor }' "$file")
        for part in 1 3 10 30 100 300 1000 3000 10000 100000 0; do
            budget=0
            [ "$part" -eq 0 ] || budget=$((n * greatest / part))
            began=$(date +%s%N)
            line=$("$program" query "$store" "$budget" 'sum(x)')
            ended=$(date +%s%N)
            set -- $line
            # One root, two records of 56 bytes for each node that was split, 64 bytes for each leaf that was opened.
            bytes=$((56 + 112 * ($4 - 1) + 64 * $5))
            share=0
            [ "$part" -eq 0 ] || share=$(echo "scale=6; 1 / $part" | bc)
            printf '%s\t%s\t%s\t%s\t%s\t%s\t%s\t%s\t%s\t%s\n' "$column" "$degree" "$n" "$share" "$budget" "$3" "$4" "$5" \
                "$bytes" "$(echo "scale=1; ($ended - $began) / 1000000" | bc)" >> "$table"
        done
    done
}

rows "$top/examples/co2_weekly.csv" co2 1
rows "$top/examples/elnino.csv" sst 3
rows "$top/examples/ecg.csv" mv 3

gnuplot <<PLOT
set terminal svg size 960,360 font 'sans,11' background 'white'
set output '$top/docs/budgets.svg'
set multiplot layout 1,3
set logscale xy
set xlabel 'budget, as a part of full scale'
set ylabel 'segments and opened leaves'
set key bottom left
set format x '10^{%T}'
do for [name in "co2 sst mv"] {
    set title name
    plot for [degree=0:2] sprintf("< awk -F'\t' '\$1 == \"%s\" && \$2 == %d && \$4 > 0 { print \$4, \$7 + \$8 }' $table", name, degree) \
        with linespoints pointtype 7 pointsize 0.5 title sprintf('degree %d', degree)
}
unset multiplot
PLOT
