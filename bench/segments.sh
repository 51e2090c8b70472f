#!/bin/sh
# A segment of 1,000,000 rows of a counter, a gauge and a label in 100 series: packed, written, read, scanned, folded and
# looked up, in memory. For each case the least of three runs in processor time, less the same with no rounds; a row's or a
# call's share of it; and how many times a row's share of a plain pass over the rows before they are packed that is.
# Usage: bench/segments.sh PROGRAM; PROGRAM is what `rt run` in crates/tsds_bench built. Takes 1.4 GB of memory.
set -e
program=$1

least() {
    for turn in 1 2 3; do
        bash -c 'TIMEFORMAT="%U %S"; time "$@" >/dev/null' - "$program" "$1" "$2" 2>&1
    done | awk '{ print $1 + $2 }' | sort -n | head -1
}

# CASE ROUNDS SHARES UNIT: each round is shared among so many rows or calls
for line in 'segment-pass 20 1000000 row' 'segment-build 4 1000000 row' 'segment-spell 200 1000000 row' \
    'segment-read 2 1000000 row' 'segment-scan 300 10000 row' 'segment-hour 8000 360 row' \
    'segment-gauge 400000 1 call' 'segment-find 2000000 1 call'; do
    set -- $line
    made=$(least "$1" 0)
    all=$(least "$1" "$2")
    took=$(echo "$made $all $2 $3" | awk '{ printf "%.1f", ($2 - $1) * 1e9 / $3 / $4 }')
    if [ "$1" = segment-pass ]; then pass=$took; fi
    if [ "$4" = row ]; then
        echo "$1: $took ns a row, $(echo "$took $pass" | awk '{ printf "%.1f", $1 / $2 }') times the pass"
    else
        echo "$1: $took ns a $4"
    fi
done
