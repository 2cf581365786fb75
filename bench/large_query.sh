#!/bin/sh
# Times `query` over a store of degree 1 with two series of N readings, a saw with noise and the same one reversed: a sum, a
# lagged product and a product of the two, with budgets of 10, 3, 1 and 0.1 percent of full scale and of 0; and `once` over
# the first series. Full scale is N times the greatest reading, or its square. Each row has seconds of wall time and peak
# memory in MB, and where another PROGRAM with the same commands is given its own beside them, the ratio of the times, and
# whether both printed the same.
# Usage: bench/large_query.sh [N [PROGRAM]]     (N is 2^16 and 2^20 where none is given; `-` stands for both)
set -eu
top=$(CDPATH= cd -- "$(dirname -- "$0")/.." && pwd)
lengths=${1:--}
[ "$lengths" != - ] || lengths="65536 1048576"
own=$top/crates/platodb/out/platodb
other=${2:+$(readlink -f -- "$2")}
"$top/bin/platodb" > /dev/null 2>&1 || true
folder=$(mktemp -d)
trap 'rm -rf "$folder"' EXIT
cd "$folder"

# Runs a program with words three times at most, and tells the least wall time and the peak memory.
measured() {
    rm -f usage
    for turn in 1 2 3; do
        /usr/bin/time -q -a -o usage -f '%e %M' timeout 300 "$@" || true
    done > line
    sort -n usage | awk 'NR == 1 { printf "%s %.1f", $1, $2 / 1024 }'
}

# A row: its name and the words.
row() {
    name=$1
    shift
    set -- "$(measured "$own" "$@")" "$@"
    mine=$1
    shift
    sum=$(cksum < line)
    if [ -z "$other" ]; then
        echo "$name $mine" | awk '{ printf "%-34s %8s s %7s MB\n", $1, $2, $3 }'
        return
    fi
    theirs=$(measured "$other" "$@")
    same=same
    [ "$sum" = "$(cksum < line)" ] || same=DIFFERENT
    echo "$name $mine $theirs $same" |
        awk '{ printf "%-34s %8s s %7s MB %8s s %7s MB  ratio %5.2f  %s\n", $1, $2, $3, $4, $5, $2 / ($4 > 0 ? $4 : 0.01), $6 }'
}

for n in $lengths; do
    echo "N = $n"
    awk -v n="$n" -f "$top/bench/saw.awk" > x.csv
    { echo v; tail -n +2 x.csv | tac; } > y.csv
    most=$(awk 'NR > 1 { v = $1 < 0 ? -$1 : $1; if (v > m) m = v } END { print m }' x.csv)
    "$own" new s.store 0 1 > line
    "$own" load s.store x x.csv v > line
    "$own" load s.store y y.csv v > line
    for part in 10 33 100 1000 0; do
        whole=$([ "$part" = 0 ] && echo 0 || echo $((n * most / part)))
        square=$([ "$part" = 0 ] && echo 0 || echo $((n * most * most / part)))
        row "sum(x),1/$part" query s.store "$whole" 'sum(x)'
        row "sum(x*shift(x,5),5,n),1/$part" query s.store "$square" "sum(x*shift(x,5),5,$n)"
        row "sum(x*y),1/$part" query s.store "$square" 'sum(x*y)'
    done
    for part in 10 100 0; do
        whole=$([ "$part" = 0 ] && echo 0 || echo $((n * most / part)))
        row "once,1/$part" once x.csv v 0 "$whole" 0 "$n"
    done
done
