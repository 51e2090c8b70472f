#!/bin/sh
# Times the cases of `tsds_bench` from outside, beside the same in plain Rust where bench/ has it.
# Build the program first by `rt run` in crates/tsds_bench. A case is given as `CASE SIZE`; no words: all.
here=$(dirname "$0")
program="$here/../crates/tsds_bench/out/tsds_bench"
peer=$(mktemp -d)
trap 'rm -rf "$peer"' EXIT

# nanoseconds for one of SIZE, by the least of three runs
timed() {
    least=
    for _ in 1 2 3; do
        from=$(date +%s%N)
        "$@" > /dev/null
        to=$(date +%s%N)
        took=$((to - from))
        if [ -z "$least" ] || [ "$took" -lt "$least" ]; then least=$took; fi
    done
    echo $((least / $3))
}

run_case() {
    echo "$1 $2: tsds $(timed "$program" "$1" "$2") ns"
}

if [ $# -gt 0 ]; then
    run_case "$1" "$2"
    exit
fi
rustc -O --edition 2021 -o "$peer/time_peer" "$here/time_peer.rs" || exit 1
for case in time-read time-print; do
    run_case "$case" 10000000
    echo "  by hand in Rust $(timed "$peer/time_peer" "$case" 10000000) ns, by the C library $(timed "$peer/time_peer" "$case-c" 10000000) ns"
done
