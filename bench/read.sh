#!/usr/bin/env bash
# Reading a script: a request that isn't built, with many short lines in its body, again and again.
# Prints the megabytes per second of processor time beside those of `wc -l` on the same bytes.
# Needs crates/tsds/out/tsds, which `rt run -- run` in crates/tsds leaves.
set -eu
cd "$(dirname "$0")/.."
size=${1:-200}
file=$(mktemp)
trap 'rm -f "$file"' EXIT
python3 - "$size" "$file" <<'PY'
import sys
lines = b"".join(b"GET /x/_y\n" + b"".join(b"a short line %06d\n" % i for i in range(2000)) + b"\n" for _ in range(1))
with open(sys.argv[2], "wb") as out:
    for _ in range(int(sys.argv[1]) * 1_000_000 // len(lines) + 1):
        out.write(lines)
PY
python3 - "$file" <<'PY'
import os, resource, subprocess, sys
file = sys.argv[1]
size = os.path.getsize(file)
def seconds(words):
    best = None
    for _ in range(3):
        before = resource.getrusage(resource.RUSAGE_CHILDREN)
        with open(file, "rb") as stdin:
            subprocess.run(words, stdin=stdin, stdout=subprocess.DEVNULL, check=True)
        after = resource.getrusage(resource.RUSAGE_CHILDREN)
        used = after.ru_utime + after.ru_stime - before.ru_utime - before.ru_stime
        best = used if best is None else min(best, used)
    return best
for name, words in (("tsds run", ["crates/tsds/out/tsds", "run"]), ("wc -l", ["wc", "-l"])):
    used = seconds(words)
    print("%-10s %4.0f MB, %.3f s of processor time, %.0f MB/s" % (name, size / 1e6, used, size / 1e6 / used))
PY
