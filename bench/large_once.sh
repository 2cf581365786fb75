#!/bin/sh
# Times `once` over a long column: N readings (100,000 where none is given) of a saw with noise, with a budget of a tenth
# of N times the spread of the readings, and with half of that.
# Usage: bench/large_once.sh [N]
set -eu
top=$(CDPATH= cd -- "$(dirname -- "$0")/.." && pwd)
n=${1:-100000}
folder=$(mktemp -d)
trap 'rm -rf "$folder"' EXIT
awk -v n="$n" -f "$top/bench/saw.awk" > "$folder/long.csv"
spread=$(awk 'NR > 1 { if (NR == 2 || $1 < lo) lo = $1; if (NR == 2 || $1 > hi) hi = $1 } END { print hi - lo }' "$folder/long.csv")
cd "$folder"
for part in 10 20; do
    budget=$((n * spread / part))
    echo "N=$n budget=$budget"
    time "$top/bin/platodb" once long.csv v 0 "$budget" 0 "$n"
done
