#!/bin/sh
# Documents of four members beside their time: read, typed, keyed, routed to a shard, rebuilt and printed, in memory.
# Usage: bench/documents.sh PROGRAM [SIZE]; PROGRAM is what `rt run` in crates/tsds_bench built. Prints nanoseconds a document
# for each stage: the least of three runs in processor time, less what the stages before it take.
set -e
program=$1
size=${2:-1000000}
least() {
    for turn in 1 2 3; do
        bash -c 'TIMEFORMAT=%U; time "$@" >/dev/null' - "$program" "$1" "$size" 2>&1
    done | sort -n | head -1
}
before=$(least documents-made)
for stage in read typed keyed routed rebuilt printed; do
    now=$(least "documents-$stage")
    echo "$stage $(echo "$before $now $size" | awk '{ printf "%.0f", ($2 - $1) * 1000000000 / $3 }') ns"
    before=$now
done
