#!/bin/sh
# Hostile texts and files at their greatest sizes: for each the line that the program answers, its status, its processor time
# and its peak memory, under a stack of 8 MB.
# Usage: bench/hostile.sh
set -eu
top=$(CDPATH= cd -- "$(dirname -- "$0")/.." && pwd)
folder=$(mktemp -d)
trap 'rm -rf "$folder"' EXIT
cd "$folder"
ulimit -s 8192

# So many times a text, and no newline behind it.
repeated() {
    yes "$2" | tr -d '\n' | head -c "$(($1 * ${#2}))" || true
}

# Runs a command, and tells how it ended.
row() {
    name=$1
    shift
    status=0
    /usr/bin/time -q -o usage -f '%U %S %M' "$top/bin/platodb" "$@" > lines || status=$?
    printf '%-42s %-28s %7s lines, status %2s' "$name" "$(head -n 1 lines | cut -c 1-28)" "$(wc -l < lines)" "$status"
    awk '{ printf " %6.2f s %7.1f MB\n", $1 + $2, $3 / 1024 }' usage
}

"$top/bin/platodb" new a.store 0 0 > lines
"$top/bin/platodb" load a.store x "$top/examples/alternating.csv" v > lines
head -c 268435456 /dev/zero > nothing.store
row 'a store of 2^28 bytes of nothing' check nothing.store
head -c 268435457 /dev/zero > nothing.store
row 'one of a byte more' check nothing.store
repeated 67108864 a > header.csv
row 'a column of 2^26 bytes without a newline' once header.csv v 0 0 0 1
row 'a query of 4,096 parentheses' query a.store 0 "$(repeated 4096 '(')"
row 'one of 4,097' query a.store 0 "$(repeated 4097 '(')"
row 'a query of 2,048 numbers and operators' query a.store 0 "$(repeated 2047 '1+')1"
repeated 10000 '[' > deep.json
row 'a certificate nested 10,000 deep' verify a.store deep.json
repeated 67108864 '[' > deep.json
row 'one of 2^26 brackets' verify a.store deep.json
{ repeated 67108864 ' ' | head -c 67108862; printf '{}'; } > blank.json
row 'one of 2^26 bytes, of which two are no blanks' verify a.store blank.json
yes '' | head -c 16777216 > empty.script || true
row 'a script of 2^24 empty lines' session a.store empty.script
yes 'show 0' | head -c 16777215 > shows.script || true
row 'one of 2^24 bytes of shows' session a.store shows.script
{ printf 'append x'; repeated 8388603 ' 1'; } > append.script
row 'one of an append of 8,388,603 readings' session a.store append.script
