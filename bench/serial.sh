#!/bin/sh
# Prints the seconds, the megabytes a second and the peak memory of `deneva serial` on a workload of 100,000 rows of 10
# fields of 30 letters and 10,000 transactions of 16 accesses, half of them reads, on its half, and on one with 80,000 rows
# more, which is about as long as a file may be (its double would be longer).
set -eu
top=$(cd "$(dirname "$0")/.." && pwd)
work=$(mktemp -d)
trap 'rm -rf "$work"' EXIT
"$top/deneva" serial <"$top/examples/two-updates/input.csv" >/dev/null

# measure ROWS TXNS
measure() {
    python3 "$top/bench/ycsb.py" "$1" 10 30 "$2" 16 50 >"$work/input.csv"
    python3 - "$top/crates/deneva/out/deneva" "$work/input.csv" "$1" "$2" <<'PYTHON'
import os
import resource
import subprocess
import sys
import time

program, path, rows, txns = sys.argv[1:]
size = os.path.getsize(path) / 1e6
best = None
for _ in range(3):
    with open(path, "rb") as source, open(os.devnull, "wb") as sink:
        begin = time.monotonic()
        subprocess.run([program, "serial"], stdin=source, stdout=sink, check=True)
        spent = time.monotonic() - begin
        best = spent if best is None else min(best, spent)
peak = resource.getrusage(resource.RUSAGE_CHILDREN).ru_maxrss / 1000
print(f"{rows} rows, {txns} transactions, {size:.1f} MB: {best:.2f} s (the best of 3), {size / best:.1f} MB/s, {peak:.0f} MB at most")
PYTHON
}

measure 50000 5000
measure 100000 10000
measure 180000 10000
