#!/bin/sh
# Indices of 4 shards in memory. 1,000,000 rows arriving by time are put, over 100 series and over 20,000: a row's share, less
# what the rows cost to make, and the most memory that was taken; and the same where all is sealed at the end. A row whose
# place is taken, and a series of a walk over all. Processor times, the least of three runs each.
# Usage: bench/index.sh PROGRAM; PROGRAM is what `rt run` in crates/tsds_bench built.
set -e
program=$1

least() {
    for turn in 1 2 3; do
        bash -c 'TIMEFORMAT="%U %S"; time "$@" >/dev/null' - "$program" "$1" "$2" 2>&1
    done | awk '{ print $1 + $2 }' | sort -n | head -1
}

# the most memory of a run, in MiB
peak() {
    python3 -c 'import resource, subprocess, sys
subprocess.run(sys.argv[1:], stdout=subprocess.DEVNULL, check=True)
print("%.1f" % (resource.getrusage(resource.RUSAGE_CHILDREN).ru_maxrss / 1024))' "$program" "$1" "$2"
}

share() { echo "$1 $2 $3" | awk '{ printf "%.0f", ($2 - $1) * 1e9 / $3 }'; }

rows=1000000
for series in 100 20000; do
    made=$(least "index-rows-$series" $rows)
    for what in put seal; do
        took=$(least "index-$what-$series" $rows)
        echo "index-$what-$series: $(share "$made" "$took" $rows) ns a row, at most $(peak "index-$what-$series" $rows) MiB"
    done
    echo "index-rows-$series: at most $(peak "index-rows-$series" $rows) MiB"
done
made=$(least index-double 0)
echo "index-double: $(share "$made" "$(least index-double 1000000)" 1000000) ns a row"
made=$(least index-walk 0)
echo "index-walk: $(share "$made" "$(least index-walk 50)" 1000000) ns a series"
