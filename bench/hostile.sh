#!/bin/sh
# Lines of 1 MiB that would be dear where the path of each leaf is looked at anew, typed twice against 1,000 fields whose paths
# share 500 bytes.
# Usage: bench/hostile.sh PROGRAM [SIZE]; PROGRAM is what `rt run` in crates/tsds_bench built. Prints the seconds that a case takes
# with all that it reads, the least of three runs in processor time, and the most memory that it had; fails where a case takes half
# a second or 100 MiB.
set -e
program=$1
size=${2:-1048576}
for case in members nothings elements; do
    for turn in 1 2 3; do
        /usr/bin/time -f '%U %S %M' "$program" "hostile-$case" "$size" 2>&1 >/dev/null
    done | sort -n | head -1 | awk -v case="$case" '{
        seconds = $1 + $2
        mib = $3 / 1024
        printf "%s %.2f s, %.0f MiB\n", case, seconds, mib
        exit seconds >= 0.5 || mib >= 100
    }'
done
