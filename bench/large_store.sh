#!/bin/sh
# Times `load`, `append` of 1,000 readings and `check` of stores of degrees 0, 1 and 2 with one series of N readings (2^20
# with those 1,000 where none is given), a saw with noise: seconds of processor time and peak memory in MB, and beside them
# those of another PROGRAM with the same commands, where one is given.
# Usage: bench/large_store.sh [N [PROGRAM]]
set -eu
top=$(CDPATH= cd -- "$(dirname -- "$0")/.." && pwd)
length=${1:-1048576}
other=${2:+$(readlink -f -- "$2")}
folder=$(mktemp -d)
trap 'rm -rf "$folder"' EXIT
cd "$folder"
awk -v n="$((length - 1000))" -f "$top/bench/saw.awk" > long.csv
awk -v n=1000 -f "$top/bench/saw.awk" > more.csv
"$top/bin/platodb" new own.store 0 0

# Runs a program with words, and tells its processor time and its peak memory.
measured() {
    /usr/bin/time -o usage -f '%U %S %M' "$@" > line
    awk '{ printf "  %6.2f s %7.1f MB", $1 + $2, $3 / 1024 }' usage
}

# Runs a command on the stores of both programs.
row() {
    printf '%-8s degree %s' "$1" "$degree"
    command=$1
    shift
    measured "$top/crates/platodb/out/platodb" "$command" own.store "$@"
    [ -z "$other" ] || measured "$other" "$command" other.store "$@"
    echo
}

for degree in 0 1 2; do
    "$top/bin/platodb" new own.store 0 "$degree" > line
    [ -z "$other" ] || "$other" new other.store 0 "$degree" > line
    row load x long.csv v
    row append x more.csv v
    row check
done
wc -c own.store
