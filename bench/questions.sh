#!/bin/sh
# Queries, pages and aggregations over 1,000,000 rows of a counter, a gauge and a label in 100 series, in memory: a page of ten without
# a sort and by falling values of the gauge, one of 10,000 by these, a query for one host, and least, greatest and sum of the gauge by
# the hour, by host, and by both. For each case the least of three runs in processor time, less the same with no rounds, and a row's
# share of it.
# Usage: bench/questions.sh PROGRAM; PROGRAM is what `rt run` in crates/tsds_bench built.
set -e
program=$1

least() {
    for turn in 1 2 3; do
        bash -c 'TIMEFORMAT="%U %S"; time "$@" >/dev/null' - "$program" "$1" "$2" 2>&1
    done | awk '{ print $1 + $2 }' | sort -n | head -1
}

made=$(least page-pass 0)
for case in page-pass page-ten page-sorted page-deep match-term agg-hour agg-host agg-both; do
    all=$(least "$case" 40)
    echo "$made $all" | awk -v case="$case" '{ printf "%s: %.1f ns a row\n", case, ($2 - $1) * 1e9 / 40 / 1000000 }'
done
