#!/bin/sh
# Folding rows of three fields in 100 series by the hour, in memory.
# Usage: bench/fold.sh PROGRAM [SIZE]; PROGRAM is what `rt run` in crates/tsds_bench built. Prints the least of three runs in
# processor time: what making the rows takes, and what one fold of them takes, as a tenth of what ten folds more take.
set -e
program=$1
size=${2:-1000000}
least() {
    for turn in 1 2 3; do
        bash -c 'TIMEFORMAT=%U; time "$@" >/dev/null' - "$program" "$1" "$size" 2>&1
    done | sort -n | head -1
}
made=$(least fold-rows)
once=$(least fold-once)
often=$(least fold-often)
echo "$size rows: made in $made s, folded in $(echo "$once $often" | awk '{ printf "%.3f", ($2 - $1) / 10 }') s"
