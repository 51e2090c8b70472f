#!/bin/sh
# Bulk requests of a thousand items: the lines of bodies whose stream is the path's, and that name it; bodies of generated documents,
# to rows with their keys and shards; and the trees of replies to items that were created, built alone, and printed too.
# Usage: bench/bulks.sh PROGRAM [SIZE]; PROGRAM is what `rt run` in crates/tsds_bench built. Prints nanoseconds an item: the
# least of five runs in processor time.
set -e
program=$1
size=${2:-2000000}
least() {
    for turn in 1 2 3 4 5; do
        bash -c 'TIMEFORMAT=%U; time "$@" >/dev/null' - "$program" "$1" "$size" 2>&1
    done | sort -n | head -1
}
for case in path named rows built printed; do
    taken=$(least "bulk-$case")
    echo "$case $(echo "$taken $size" | awk '{ printf "%.0f", $1 * 1000000000 / $2 }') ns"
done
