#!/bin/sh
# Prints the seconds, the peak memory and the counts of commits and aborts of `deneva replay` under each protocol: on the workload of serial.sh (100,000 rows of 10 fields of 30 letters and 10,000 transactions of 16 accesses, half
# of them reads) at 16 partitions under three orders, on its half, and on a hot one (64 rows of one field of 8 letters,
# 10,000 transactions of 8 accesses, nine tenths of them reads) at 4 partitions with 64 transactions open at each node.
set -eu
top=$(cd "$(dirname "$0")/.." && pwd)
work=$(mktemp -d)
trap 'rm -rf "$work"' EXIT
"$top/deneva" serial <"$top/examples/two-updates/input.csv" >/dev/null

# measure NAME FILE WORDS..
measure() {
    python3 - "$top/crates/deneva/out/deneva" "$work/report" "$@" <<'PYTHON'
import resource
import subprocess
import sys
import time

program, report, name, path, *words = sys.argv[1:]
best = None
for _ in range(3):
    with open(path, "rb") as source, open(report, "wb") as sink:
        begin = time.monotonic()
        subprocess.run([program, "replay", *words], stdin=source, stdout=sink, check=True)
        spent = time.monotonic() - begin
        best = spent if best is None else min(best, spent)
peak = resource.getrusage(resource.RUSAGE_CHILDREN).ru_maxrss / 1000
commits = aborts = 0
with open(report, "rb") as lines:
    for line in lines:
        commits += line.startswith(b"commit,")
        aborts += line.startswith(b"abort,")
print(f"{name}, {' '.join(words)}: {best:.2f} s (the best of 3), {peak:.0f} MB at most, {commits} commits, {aborts} aborts", flush=True)
PYTHON
}

python3 "$top/bench/ycsb.py" 100000 10 30 10000 16 50 >"$work/whole.csv"
python3 "$top/bench/ycsb.py" 100000 10 30 5000 16 50 >"$work/half.csv"
python3 "$top/bench/ycsb.py" 64 1 8 10000 8 90 >"$work/hot.csv"
for protocol in nowait waitdie timestamp mvcc maat calvin; do
    for order in fifo lifo seed:5; do
        measure "10,000 transactions" "$work/whole.csv" --protocol "$protocol" --partitions 16 --order "$order"
        measure "5,000 transactions" "$work/half.csv" --protocol "$protocol" --partitions 16 --order "$order"
    done
    measure "10,000 hot transactions" "$work/hot.csv" --protocol "$protocol" --partitions 4 --limit 64 --order seed:5
done
