#!/bin/sh
# Asks many stores for a sum and adds the intervals: the ends of the whole are the sums of the ends, and it is as wide as all
# are together. Each store is asked with an equal part of the budget, by a process of its own under GNU parallel.
# Usage: examples/many_stores.sh BUDGET QUERY STORE...
set -eu
[ $# -ge 3 ] || { echo "usage: $0 BUDGET QUERY STORE..." >&2; exit 2; }
for tool in parallel bc; do
    command -v "$tool" > /dev/null || { echo "$0: $tool is not installed" >&2; exit 2; }
done
# To bc a word is a number too, so a budget that is none would be taken for another.
case $1 in
"" | *[!0-9]*)
    echo 'usage fault'
    exit 2
    ;;
esac
self=$(readlink -f -- "$0")
platodb=${PLATODB:-$(dirname -- "$(dirname -- "$self")")/bin/platodb}
budget=$1
query=$2
shift 2
part=$(echo "$budget / $#" | bc)
lines=$(mktemp)
trap 'rm -f "$lines"' EXIT
# The first store that refuses ends all, with its line and its status.
parallel -q --will-cite --halt now,fail=1 "$platodb" query {} "$part" "$query" ::: "$@" > "$lines" 2> /dev/null || {
    status=$?
    tail -n 1 "$lines"
    exit "$status"
}
whole='0 0 0 0 0'
while read -r low high width segments opened; do
    set -- $whole
    whole=$(echo "$1 + $low; $2 + $high; $3 + $width; $4 + $segments; $5 + $opened" | bc | paste -s -d ' ')
done < "$lines"
echo "$whole"
