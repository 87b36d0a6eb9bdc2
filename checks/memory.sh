#!/bin/sh
# Runs the program under a growing limit of its memory, so that each of its larger allocations is refused at some limit: each
# run has to give the whole report with status 0, or `fault,memory` with status 1. Below the first limit the program does not
# start. `rt try --fail-alloc N` in crates/deneva makes single allocations of a run fail.
set -eu
top=$(cd "$(dirname "$0")/.." && pwd)
work=$(mktemp -d)
trap 'rm -rf "$work"' EXIT
"$top/deneva" serial <"$top/examples/two-updates/input.csv" >/dev/null
python3 "$top/bench/ycsb.py" 5000 10 30 500 16 50 >"$work/input.csv"
python3 - "$top/crates/deneva/out/deneva" "$work/input.csv" <<'PYTHON'
import collections
import resource
import subprocess
import sys

program, path = sys.argv[1:]


def run(limit):
    def cap():
        if limit:
            resource.setrlimit(resource.RLIMIT_AS, (limit, limit))

    with open(path, "rb") as source:
        return subprocess.run([program, "serial"], stdin=source, capture_output=True, preexec_fn=cap)


whole = run(None).stdout
seen = collections.Counter()
limit = 1 << 20
while seen["whole"] < 4:
    ended = run(limit)
    if ended.returncode == 0 and ended.stdout == whole:
        seen["whole"] += 1
    elif ended.returncode == 1 and ended.stdout == b"fault,memory\n":
        seen["fault,memory"] += 1
    elif not ended.stdout and not (seen["fault,memory"] or seen["whole"]):
        seen["not started"] += 1
    else:
        print(f"FAILED at {limit} bytes: status {ended.returncode}, {ended.stdout[:200]!r} {ended.stderr[:200]!r}")
        sys.exit(1)
    limit += 128 << 10
print(f"up to {limit} bytes: {dict(seen)}")
PYTHON
