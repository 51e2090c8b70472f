#!/usr/bin/env bash
# Tries a built program, whose path is the first argument, over real streams: full, closed, of another kind, cut off.
# One line a case, then how many were done; the last line is the number of failures, and the status is 0 where there are none.
#
# Cases whose tool isn't there are left out. With GATE_PASSED=1 it is a failure that others weren't done.
set -u
program=$(realpath "$1") || exit 2
there=$(mktemp -d) || exit 2
trap 'rm -rf "$there"' EXIT
cd "$there" || exit 2
printf 'GET /m/_count\n' > one.tsds
printf '200 {"count":0}\n' > one.replies
# How many cases there are, how many were done, and how many have no tool here.
all=52
cases=0
without=0
failures=0

# Leaves out so many cases whose tool isn't there.
leave_out() {
    echo "left out: $2"
    without=$((without + $1))
}

# A case: its name, the wanted status, and the status that came.
check() {
    cases=$((cases + 1))
    if [ "$2" -eq "$3" ]; then
        echo "ok: $1"
    else
        echo "FAILED: $1: status $3 and not $2"
        failures=$((failures + 1))
    fi
}

# What a case wrote must be the same as a file.
same() {
    cases=$((cases + 1))
    if cmp -s "$2" "$3"; then
        echo "ok: $1"
    else
        echo "FAILED: $1: $2 isn't $3"
        failures=$((failures + 1))
    fi
}

"$program" run < one.tsds > out 2> err
check "a script from a file to a file" 0 $?
same "its reply" out one.replies
: > nothing
same "nothing on standard error" err nothing
"$program" run < nothing > out 2> err
check "an empty script" 0 $?
same "no reply" out nothing

"$program" > out 2> err < one.tsds
check "no word" 2 $?
printf 'tsds: usage\n' > usage
same "usage on standard error" err usage
same "nothing on standard output" out nothing
"$program" run again < one.tsds > out 2> err
check "a word too many" 2 $?
"$program" $'r\xffn' < one.tsds > out 2> err
check "a word that isn't UTF-8" 2 $?
same "usage on standard error for it" err usage

"$program" run < "$there" > out 2> err
check "a folder as standard input" 4 $?
printf 'tsds: read fault\n' > read_fault
same "read fault on standard error" err read_fault
"$program" run <&- > out 2> err
check "a closed standard input" 4 $?

"$program" run < one.tsds >&- 2> err
check "a closed standard output" 7 $?
printf 'tsds: write fault\n' > write_fault
same "write fault on standard error" err write_fault
"$program" run < one.tsds > /dev/full 2> err
check "a full standard output" 7 $?
same "write fault on standard error for it" err write_fault
(
    # By then its reader is gone.
    sleep 1
    "$program" run < one.tsds 2> err
    echo $? > status
) | true
check "a standard output that nobody reads" 7 "$(cat status)"
(
    "$program" run < one.tsds 2> err
    echo $? > status
) | sleep 1
check "a standard output that is not read" 0 "$(cat status)"

"$program" run < one.tsds > out 2>&-
check "a closed standard error" 0 $?
"$program" 2>&- > out < one.tsds
check "usage with a closed standard error" 2 $?
"$program" 2> /dev/full > out < one.tsds
check "usage with a full standard error" 2 $?
"$program" run < "$there" 2> /dev/full > out
check "a read fault with a full standard error" 4 $?
"$program" run < one.tsds 2>&- >&-
check "closed standard output and error" 7 $?

# Bytes of a pipe that come one after another are one script.
{ printf 'GET /m/_co'; sleep 1; printf 'unt\n\nGET /m/'; sleep 1; printf '_count'; } | "$program" run > out 2> err
check "a script in pieces" 0 $?
cat one.replies one.replies > two.replies
same "its replies" out two.replies

# Signals that come while a call waits end nothing: the program is stopped and goes on, and other signals mean nothing to it.
mkfifo slow
"$program" run < slow > out 2> err &
pid=$!
{
    printf 'GET /m/_co'
    sleep 0.3
    kill -STOP "$pid"
    sleep 0.2
    kill -CONT "$pid"
    kill -WINCH "$pid"
    kill -URG "$pid"
    sleep 0.2
    printf 'unt\n'
} > slow
wait "$pid"
check "a script whose reader is stopped and goes on" 0 $?
same "its reply" out one.replies

# A call that was interrupted is made again: here each other call is, by functions that stand before those of the C library.
cat > interrupt.c << 'END'
#define _GNU_SOURCE
#include <dlfcn.h>
#include <errno.h>
#include <fcntl.h>
#include <unistd.h>

static int is_interrupted(void) {
    static int calls;
    if (calls++ % 2 == 1) return 0;
    close(open("interrupted", O_CREAT | O_WRONLY, 0600));
    errno = EINTR;
    return 1;
}

ssize_t read(int from, void *into, size_t most) {
    ssize_t (*next)(int, void *, size_t) = (ssize_t (*)(int, void *, size_t))dlsym(RTLD_NEXT, "read");
    return from == 0 && is_interrupted() ? -1 : next(from, into, most);
}

ssize_t write(int to, const void *piece, size_t most) {
    ssize_t (*next)(int, const void *, size_t) = (ssize_t (*)(int, const void *, size_t))dlsym(RTLD_NEXT, "write");
    return to == 1 && is_interrupted() ? -1 : next(to, piece, most < 5 ? most : 5);
}
END
if ! command -v cc > /dev/null; then
    leave_out 3 "calls that are interrupted, which needs cc"
elif ! cc -shared -fPIC -o interrupt.so interrupt.c -ldl 2> /dev/null; then
    echo "not done: calls that are interrupted, whose functions cc doesn't make"
else
    LD_PRELOAD=$there/interrupt.so "$program" run < one.tsds > out 2> err
    status=$?
    if [ -e interrupted ]; then
        check "calls that are interrupted" 0 "$status"
        same "the reply behind them, five bytes at a time" out one.replies
        same "nothing on standard error" err nothing
    else
        echo "not done: calls that are interrupted, which needs a program that calls the C library"
    fi
fi

# A sink that takes a part of a reply and then fails: a file that may have 1,024 bytes, and a pipe whose reader leaves.
yes $'GET /none\n' | head -n 4000 > many.tsds
"$program" run < many.tsds > many.replies 2> err
check "many requests" 0 $?
(
    trap '' XFSZ
    ulimit -f 1
    exec "$program" run
) < many.tsds > part 2> err
check "a file that may have 1,024 bytes" 7 $?
head -c 1024 many.replies > first
same "the first part of the replies" part first
same "write fault on standard error for it" err write_fault
[ -n "$(tail -c 1 part)" ]
check "a reply of which a first part was written" 0 $?
{
    "$program" run < many.tsds 2> err
    echo $? > status
} | head -c 100 > part
check "a pipe whose reader leaves" 7 "$(cat status)"
head -c 100 many.replies > first
same "the first bytes of the replies" part first
same "write fault on standard error for that" err write_fault

printf 'tsds: input too long\n' > too_long
head -c 1048577 /dev/zero | tr '\0' x | "$program" run > out 2> err
check "a line that is too long" 8 $?
same "input too long on standard error" err too_long
{ cat one.tsds; echo; head -c 1048577 /dev/zero | tr '\0' x; } | "$program" run > out 2> err
check "a line that is too long behind a request" 8 $?
same "the reply before it" out one.replies
same "input too long on standard error for it" err too_long

# No memory: a body that grows past the address space ends the run, and what was answered before it stays.
printf 'tsds: out of memory\n' > no_memory
{ cat one.tsds; printf '\nPOST /m/_bulk\n'; yes 'a line of a body that is never done' | head -c 60000000; } > long.tsds
(ulimit -v 65536; exec "$program" run) < long.tsds > out 2> err
check "a body past the address space" 3 $?
same "the reply before it" out one.replies
same "out of memory on standard error" err no_memory
"$program" run < long.tsds > out 2> err
check "the same body where there is room" 0 $?

# No memory for the words: the more address space there is, the further it comes. First the program can't be loaded, then it ends
# with 3, and then it tells that these words are no command.
if command -v prlimit > /dev/null; then
    mapfile -t words < <(seq -f 'word%08.0f' 1 20000)
    came=
    for room in $(seq 2048 512 20480); do
        prlimit --as=$((room * 1024)) "$program" "${words[@]}" < nothing > out 2> err
        status=$?
        [ "$status" -eq 127 ] && [ -z "$came" ] || came="$came$status"
        [ "$status" -ne 3 ] || cp err told
        [ "$status" -ne 2 ] || break
    done
    [[ $came =~ ^3+2$ ]]
    check "no memory for the words, and then usage" 0 $?
    same "out of memory on standard error for it" told no_memory
    same "nothing on standard output for it" out nothing
else
    leave_out 3 "no memory for the words, which needs prlimit"
fi

echo "$cases of $all cases done"
if [ "${GATE_PASSED:-0}" = 1 ] && [ $((cases + without)) -ne "$all" ]; then
    echo "FAILED: $cases cases and $without without a tool aren't all $all"
    failures=$((failures + 1))
fi
echo "$failures"
[ "$failures" -eq 0 ]
