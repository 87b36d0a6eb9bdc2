#!/bin/sh
# Prints the seconds, the peak memory and the counts of commits, rollbacks and aborts of `deneva serial`, and of `deneva replay`
# under each protocol at 16 partitions, on a TPC-C workload of 16 warehouses, 10 districts, 300 customers and 10,000 items
# (about 218,000 load records, 13 MB): without a transaction, which is loading alone, with 5,000 transactions, and with
# 10,000, half of them payments. What 10,000 take beyond loading should be about twice what 5,000 do.
set -eu
top=$(cd "$(dirname "$0")/.." && pwd)
work=$(mktemp -d)
trap 'rm -rf "$work"' EXIT
"$top/deneva" serial <"$top/examples/two-updates/input.csv" >/dev/null

# measure TXNS WORDS..
measure() {
    python3 - "$top/crates/deneva/out/deneva" "$work" "$@" <<'PYTHON'
import os
import resource
import subprocess
import sys
import time

program, work, txns, *words = sys.argv[1:]
path, report = f"{work}/{txns}.csv", f"{work}/report"
best = None
for _ in range(3):
    with open(path, "rb") as source, open(report, "wb") as sink:
        begin = time.monotonic()
        subprocess.run([program, *words], stdin=source, stdout=sink, check=True)
        spent = time.monotonic() - begin
        best = spent if best is None else min(best, spent)
peak = resource.getrusage(resource.RUSAGE_CHILDREN).ru_maxrss / 1000
size = os.path.getsize(path) / 1e6
counts = {"commit": 0, "rollback": 0, "abort": 0}
with open(report, "rb") as lines:
    for line in lines:
        word = line.split(b",", 1)[0].decode(errors="replace")
        if word in counts:
            counts[word] += 1
told = ", ".join(f"{count} {word}s" for word, count in counts.items())
name = f"{txns} transactions, {size:.1f} MB, {' '.join(words)}"
print(f"{name}: {best:.2f} s (the best of 3), {peak:.0f} MB at most, {told}", flush=True)
PYTHON
}

for txns in 0 5000 10000; do
    python3 "$top/bench/tpcc.py" 16 10 300 10000 "$txns" 50 >"$work/$txns.csv"
    measure "$txns" serial
done
for protocol in nowait waitdie timestamp mvcc maat calvin; do
    for txns in 0 5000 10000; do
        measure "$txns" replay --protocol "$protocol" --partitions 16
    done
    for order in lifo seed:5; do
        measure 10000 replay --protocol "$protocol" --partitions 16 --order "$order"
    done
done
