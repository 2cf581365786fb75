#!/bin/sh
# What the program answers where a real system fails it: a folder in place of a file, a dangling link, a full device, files
# and folders without permission, and a file that grows while it is read. It is run by hand; it ends with 0 where each ends
# with the status and the line that docs/COMMANDS.md says.
# Usage: examples/edge.sh
set -eu
top=$(CDPATH= cd -- "$(dirname -- "$(readlink -f -- "$0")")/.." && pwd)
folder=$(mktemp -d)
trap 'rm -rf "$folder"' EXIT
cd "$folder"
"$top/bin/platodb" new own.store 0 0 > /dev/null
cp "$top/crates/platodb/out/platodb" program
rows=0
wrong=0

# Runs a command, and compares its status and its line with what they should be.
row() {
    name=$1
    status=$2
    line=$3
    shift 3
    ended=0
    "$@" > printed 2> /dev/null || ended=$?
    rows=$((rows + 1))
    if [ "$ended" -ne "$status" ] || [ "$(cat printed)" != "$line" ]; then
        wrong=$((wrong + 1))
        echo "$name: status $ended, $(cat printed)"
    fi
}

# Runs a command as a user who owns nothing here, where that can be done.
as_nobody() {
    if [ "$(id -u)" -eq 0 ]; then setpriv --reuid=65534 --regid=65534 --clear-groups "$@"; else "$@"; fi
}

mkdir inside
row 'a folder in place of a store' 3 'read fault' ./program check inside
row 'a folder where a store is written' 4 'replace fault' ./program new inside 0 0
row 'a missing folder' 4 'replace fault' ./program new missing/own.store 0 0
ln -s nothing link
row 'a dangling link' 6 'absent link' ./program check link
row 'a full device' 5 '' sh -c './program check own.store > /dev/full'
cp own.store secret.store
chmod 000 secret.store
chmod 755 . program
row 'a file that may not be read' 3 'read fault' as_nobody ./program check secret.store
chmod 555 .
row 'a folder that may not be written' 4 'replace fault' as_nobody ./program new other.store 0 0
chmod 755 .
row 'the store after all of this' 0 'ok 0 0' ./program check own.store

# A file that grows while it is read is read as some front of it, or is too big or too long.
echo v > growing.csv
yes 1 | head -c 40000000 >> growing.csv &
ended=0
./program once growing.csv v 0 9223372036854775807 0 0 > printed || ended=$?
wait
rows=$((rows + 1))
case $ended in
0 | 7 | 8) ;;
*)
    wrong=$((wrong + 1))
    echo "a file that grows: status $ended, $(cat printed)"
    ;;
esac
echo "$rows failures, $wrong of them answered otherwise"
[ "$wrong" -eq 0 ]
