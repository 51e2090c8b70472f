#!/bin/sh
# Nanoseconds a value of packing and unpacking blocks of 128 values, beside the same format in plain C.
# Usage: bench/pack.sh PROGRAM [SIZE]; PROGRAM is what `rt run` or `rt try` in crates/tsds_bench built.
set -e
program=$1
size=${2:-100000000}
scratch=$(mktemp -d)
trap 'rm -rf "$scratch"' EXIT
here=$(dirname "$0")
cc -O3 -march=x86-64-v2 -o "$scratch/pack_c" "$here/pack.c"
for what in pack unpack summary; do
    for width in 0 1 7 17 33 64; do
        taken=$(bash -c 'TIMEFORMAT=%U; time "$@" >/dev/null' - "$program" $what-$width $size 2>&1)
        printf '%s-%s: %s ns a value' $what $width "$(echo "$taken $size" | awk '{ printf "%.2f", $1 * 1e9 / $2 }')"
        if [ $what != summary ]; then
            printf '; C: %s' "$("$scratch"/pack_c $what-$width $size)"
        fi
        echo
    done
done
