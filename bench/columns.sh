#!/bin/sh
# Microseconds of a fold of a column of 1,000,000 numbers of 17 bits: of all rows, and of 1,000 rows in the middle, by the
# summaries of blocks and entry by entry; and of plain loops in C over the same bytes. The least of five runs each; the making
# of the column is timed by itself and taken off.
# Usage: bench/columns.sh PROGRAM; PROGRAM is what `rt run` or `rt try` in crates/tsds_bench built.
set -e
program=$1
scratch=$(mktemp -d)
trap 'rm -rf "$scratch"' EXIT
here=$(dirname "$0")
cc -O3 -march=x86-64-v2 -o "$scratch/columns_c" "$here/columns.c"

least() {
    for _ in 1 2 3 4 5; do
        bash -c 'TIMEFORMAT=%U; time "$@" >/dev/null' - "$@" 2>&1
    done | sort -n | head -1
}

for case in column-gauge:100 column-fold:100 part-gauge:100000 part-fold:100000; do
    name=${case%:*}
    rounds=${case#*:}
    made=$(least "$program" "$name" 0)
    all=$(least "$program" "$name" "$rounds")
    echo "$name: $(echo "$all $made $rounds" | awk '{ printf "%.2f", ($1 - $2) * 1e6 / $3 }') us"
done
"$scratch/columns_c" 100
