#!/bin/sh
# Runs each command that README.md and the documents under docs/ show, in order and in an empty folder, and compares what it
# prints with what they say. Where a line of the document ends with `...`, only its front is compared. It is run by hand; it
# ends with 0 where all is as it is shown. Some of the commands need GNU parallel and bc.
# Usage: examples/check_walk.sh
set -eu
for tool in parallel bc; do
    command -v "$tool" > /dev/null || { echo "$0: $tool is not installed" >&2; exit 2; }
done
top=$(CDPATH= cd -- "$(dirname -- "$0")/.." && pwd)
folder=$(mktemp -d)
trap 'rm -rf "$folder"' EXIT
cd "$folder"
ln -s "$top/bin" bin
ln -s "$top/examples" examples
ln -s "$top/docs" docs
ln -s "$top/README.md" README.md

# What the commands below say on standard error is not shown, so the program is built here where it has not been yet.
bin/platodb new built.store 0 0 > /dev/null
rm built.store

# The commands of a document with what they print, in turns: a line `$ COMMAND`, the lines behind it, and a line `.`.
shown() {
    awk '
        /^    \$ / { if (open) print "."; print substr($0, 5); open = 1; next }
        /^    / && open { print substr($0, 5); next }
        open { print "."; open = 0 }
        END { if (open) print "." }
    ' "$1"
}

# Whether the lines of one file are those of another, or begin like them where they end with `...`.
agree() {
    [ "$(wc -l < "$1")" -eq "$(wc -l < "$2")" ] || return 1
    awk -v other="$2" '
        {
            getline line < other
            if (sub(/\.\.\.$/, "")) line = substr(line, 1, length($0))
            if ($0 != line) exit 1
        }
    ' "$1"
}

runs=0
wrong=0
for document in README.md docs/*.md; do
    shown "$document" > turns
    : > wanted
    while IFS= read -r line; do
        case $line in
        "\$ "*) command=${line#??} ;;
        .)
            runs=$((runs + 1))
            sh -c "$command" > printed 2> /dev/null < /dev/null || true
            if ! agree wanted printed; then
                wrong=$((wrong + 1))
                echo "$document: $command"
                diff wanted printed || true
            fi
            : > wanted
            ;;
        *) printf '%s\n' "$line" >> wanted ;;
        esac
    done < turns
done
echo "$runs commands, $wrong of them print something else"
[ "$wrong" -eq 0 ]
