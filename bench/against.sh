#!/bin/sh
# Prints the seconds and the peak memory of two programs `deneva`, in turns in one run, and the second's share of the first's:
#   bench/against.sh OLD NEW [TIMES]
# Each figure is the best of TIMES runs (5 if not given). The workloads are those of serial.sh and replay.sh. The last line
# says in how many of the cases the reports of the two were the same bytes.
set -eu
top=$(cd "$(dirname "$0")/.." && pwd)
[ $# -ge 2 ] || { echo "against: needs two programs" >&2; exit 2; }
work=$(mktemp -d)
trap 'rm -rf "$work"' EXIT
python3 "$top/bench/ycsb.py" 100000 10 30 10000 16 50 >"$work/large.csv"
python3 "$top/bench/ycsb.py" 64 1 8 10000 8 90 >"$work/hot.csv"
exec python3 - "$work" "$1" "$2" "${3:-5}" <<'PYTHON'
import hashlib
import os
import subprocess
import sys
import time

work, old, new, times = sys.argv[1:]
PROTOCOLS = ["nowait", "waitdie", "timestamp", "mvcc", "maat", "calvin"]


def cases():
    yield "large", ["serial"]
    for protocol in PROTOCOLS:
        for order in ["fifo", "lifo", "seed:5"]:
            yield "large", ["replay", "--protocol", protocol, "--partitions", "16", "--order", order]
    for protocol in PROTOCOLS:
        words = ["--partitions", "4", "--limit", "64", "--order", "seed:5"]
        yield "hot", ["replay", "--protocol", protocol, *words]


def run(program, workload, words):
    """The seconds, the megabytes and the checksum of the report of one run."""
    report = os.path.join(work, "report")
    with open(os.path.join(work, workload + ".csv"), "rb") as source, open(report, "wb") as sink:
        begin = time.monotonic()
        child = subprocess.Popen([program, *words], stdin=source, stdout=sink)
        _, status, usage = os.wait4(child.pid, 0)
        spent = time.monotonic() - begin
    if status:
        sys.exit(f"against: {program} {' '.join(words)} ended with {status}")
    with open(report, "rb") as text:
        return spent, usage.ru_maxrss / 1000, hashlib.md5(text.read()).hexdigest()


same = count = 0
print(f"{'':44} {'seconds':>16} {'share':>6} {'MB':>12} {'share':>6}")
for workload, words in cases():
    runs = {old: [], new: []}
    for _ in range(int(times)):
        for program in (old, new):
            runs[program].append(run(program, workload, words))
    (a, m, x), (b, n, y) = (
        (min(r[0] for r in of), min(r[1] for r in of), of[0][2]) for of in (runs[old], runs[new])
    )
    count += 1
    same += x == y
    name = " ".join([workload, *(word for word in words if not word.startswith("--"))])
    print(f"{name:44} {a:7.2f} {b:8.2f} {b / a:6.2f} {m:6.0f} {n:5.0f} {n / m:6.2f}", flush=True)
print(f"the same report in {same} of {count}")
PYTHON
