#!/usr/bin/env bash
# The tests, beside the proofs: tables of cases, the example, and comparisons from outside. The last line is their sum,
# 'N passed, M failed', and the status is 1 where one failed.
#
# A program that stands proved in crates/NAME/out (`rt run` there makes it) is the one that is tried. One that doesn't is made
# by `rt try`, which proves nothing. With GATE_PASSED=1 a program that isn't there is a failure.
set -u -o pipefail
cd "$(dirname "$0")/.." || exit 1
top=$PWD
gate=${GATE_PASSED:-0}
passed=0
failed=0
work=$(mktemp -d) || exit 1
trap 'rm -rf "$work"' EXIT
mkdir "$work/cases"

# Counts one test, which passed if its status is 0.
tell() {
    if [ "$1" -eq 0 ]; then
        passed=$((passed + 1))
    else
        failed=$((failed + 1))
        echo "failed: $2"
    fi
}

# How many cases a table has: its lines with a call and its answer. Others are empty, comments, or name a template.
cases_of() {
    grep -c '^[^#].* => ' "$1"
}

# Adds the sum 'N passed, M failed' at the end of what a table's run wrote into a file; a sum that isn't there, or isn't that of the
# table's cases, is a failure.
add() {
    local good word bad
    if read -r good word bad _ < <(grep -E '^[0-9]+ passed, [0-9]+ failed$' "$1" | tail -n 1); then
        passed=$((passed + good))
        failed=$((failed + bad))
        echo "$2: $good $word $bad failed"
        [ $((good + bad)) -eq "$(cases_of "$work/cases/$2")" ] || tell 1 "$2 wasn't run whole"
    else
        tell 1 "$2 gave no sum"
    fi
}

# Each table has the number of cases that the list says, and each is on the list.
check_tables() {
    local name number table
    while read -r name number; do
        [ "$(cases_of "tests/cases/$name.cases" 2> /dev/null)" = "$number" ]
        tell $? "$name.cases hasn't $number cases"
    done < <(grep -v '^#' tests/cases/NUMBERS)
    for table in tests/cases/*.cases; do
        name=${table##*/}
        grep -q "^${name%.cases} " tests/cases/NUMBERS || tell 1 "$name isn't on the list"
    done
}

# Whether a program stands proved, and no code and no proof has changed since.
is_proved() {
    [ -x "crates/$1/out/$1" ] && [ -z "$(find crates crates.txt -name out -prune -o \( -name '*.rt' -o -name '*.antt' -o -name crates.txt \) -newer "crates/$1/out/$1" -print -quit)" ]
}

# Whether a program that doesn't is made unproved. Under the gate it is a failure.
is_made() {
    if [ "$gate" = 1 ]; then
        tell 1 "crates/$1/out/$1 isn't there"
        return 1
    fi
    echo "$1 isn't proved here: rt try makes it, unproved"
}

# Runs a folder of tables through the probe made unproved, and keeps what it wrote for each.
try_folder() {
    local table
    (cd crates/tsds_probe && rt try --steps 1 --seconds 600 --cases "$1") > "$1.all" 2>&1
    for table in "$1"/*; do
        sed -n "/^== ${table##*/}\$/,/^case=${table##*/} /p" "$1.all" > "$work/${table##*/}.out"
    done
}

# Each second table is run beside the others, so that two processors share the time; either makes the program for itself.
try_tables() {
    local table number=0
    mkdir "$work/first" "$work/second"
    for table in "$work"/cases/*; do
        number=$((number + 1))
        if [ $((number % 2)) = 1 ]; then cp "$table" "$work/first"; else cp "$table" "$work/second"; fi
    done
    try_folder "$work/first" &
    try_folder "$work/second"
    wait
}

# Runs each table of a folder through the probe, and prints the cases that differ.
run_tables() {
    local table
    if is_proved tsds_probe; then
        for table in "$work"/cases/*; do
            crates/tsds_probe/out/tsds_probe < "$table" > "$work/${table##*/}.out"
        done
    elif is_made tsds_probe; then
        try_tables
    else
        return
    fi
    for table in "$work"/cases/*; do
        grep '^line ' "$work/${table##*/}.out"
        add "$work/${table##*/}.out" "${table##*/}"
    done
}

check_tables
if command -v python3 > /dev/null; then
    python3 tests/arguments.py
    tell $? "the arguments of cases"
else
    echo "left out: the arguments of cases, which need python3"
fi
# Unproved programs are compiled with checks and without optimisation. There the longest sweeps over all bytes of segments and columns
# and the scripts of 64 MiB are left out, indices of thousands of rows and answers of tens of thousands of buckets, which would take
# minutes, and behind the first of the scripts all but each seventh: a run sets up a reader of a mebibyte, which takes a third of a
# second there.
heavy='^{"call":"damaged_segment"|"changes":[0-9]{5}|"times":104857[67],|"call":"index.*"times":[0-9]{4,}|"call":"aggregate".*("times":6553[0-9]|"fixed_interval":"1ms")'
thin() {
    grep -Ev "$heavy" "$1" | awk -v some="$2" 'some && /^[^#].* => / && ++number > 30 && number % 7 { next } { print }'
}
left=0
for table in tests/cases/*.cases; do
    name=${table##*/}
    if is_proved tsds_probe; then
        cp "$table" "$work/cases"
    else
        thin "$table" "$([ "$name" = tsds_cli.cases ] && echo 1)" > "$work/cases/$name"
        left=$((left + $(cases_of "$table") - $(cases_of "$work/cases/$name")))
    fi
done
[ "$left" -eq 0 ] || echo "left out, unproved: $left cases: long sweeps over bytes, scripts of 64 MiB, most faults of scripts, many rows, many buckets"
# Random texts of instants, by Python's calendar.
if command -v python3 > /dev/null; then
    python3 tests/calendar_cases.py 1 "$(is_proved tsds_probe && echo 20000 || echo 2000)" > "$work/cases/calendar.cases"
else
    echo "left out: the calendar, which needs python3"
fi
# Unproved, the example is made beside the tables.
if ! is_proved tsds && [ "$gate" != 1 ]; then
    (cd crates/tsds && rt try -- run < "$top/examples/first.tsds") > "$work/replies" 2> /dev/null &
fi
run_tables

# The example and its replies are what the stored run of the program checks.
cmp examples/first.tsds crates/tsds/stdin && cmp examples/first.replies crates/tsds/stdout
tell $? "the example is the stored run"
if is_proved tsds; then
    crates/tsds/out/tsds run < examples/first.tsds | cmp - examples/first.replies
    tell $? "the example"
elif is_made tsds; then
    wait
    cmp "$work/replies" examples/first.replies
    tell $? "the example"
fi

# The program over real streams: closed, full, of another kind, cut off.
if is_proved tsds; then
    bash tests/streams.sh crates/tsds/out/tsds > "$work/streams" 2>&1
    grep '^FAILED' "$work/streams"
    passed=$((passed + $(grep -c '^ok:' "$work/streams")))
    failed=$((failed + $(grep -c '^FAILED' "$work/streams")))
    grep -Eq '^[0-9]+$' "$work/streams" || tell 1 "streams gave no number"
elif [ "$gate" != 1 ]; then
    echo "left out: streams, which need the program by itself"
fi
echo "$passed passed, $failed failed"
[ "$failed" -eq 0 ]
