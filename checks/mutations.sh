#!/bin/sh
# Runs the program on a thousand mutated workload files from a fixed seed. Each run has to end with status 0 and a report,
# or with status 3 and one line that names a fault.
top=$(cd "$(dirname "$0")/.." && pwd)
"$top/deneva" serial <"$top/examples/two-updates/input.csv" >/dev/null || exit 1
exec python3 - "$top" <<'PYTHON'
import collections
import random
import re
import subprocess
import sys

top = sys.argv[1]
draw = random.Random(20260102)
files = [
    b"deneva,1,ycsb,2\nrow,1,a,b\nrow,9,c,d\ntxn,r,1,u,9,1,x\ntxn,u,1,0,y\nend\n",
    b"deneva,2,ycsb,1\nrow,3,abc\nrow,4,\ntxn,p,3,z,r,4\ntxn,u,4,0,w\nend\n",
    b'deneva,1,ycsb,2\nrow,1,"a,b","c""d"\nrow,"2","line\nfeed",""\ntxn,u,1,0,"x,""y""",r,2\n"end"\n',
    b"deneva,1,tpcc\nwarehouse,1,W,9,0\ndistrict,1,1,D,9,0,1\ncustomer,1,1,1,F,L,BC,9,-9,0,0,d\nitem,1,9,ORIGINAL\n"
    b"stock,1,1,9,0,0,0,d\npayment,1,1,1,1,name,L,9\npayment,1,1,1,1,id,1,9\nneworder,1,1,1,1,1,9,9,1,1\nend\n",
]
pieces = [b",", b"\n", b"\r", b'"', b'""', b',"', b'",', b"0", b"1", b"9", b"r", b"u", b"p", b"end", b"txn", b"row", b"item", b"deneva",
          b"\xef\xbb\xbf", b"-", b"+", b"4294967296", b"\x00", b"\xff", b"x" * 101]
fault = re.compile(rb"fault,input,\d+,\d+,(magic|kind|arity|notanumber|outofrange|unknownkey|repeated"
                   rb"|toomany,\d+|noend|trailing|toolong)\n")
seen = collections.Counter()
for turn in range(1000):
    text = bytearray(draw.choice(files))
    for _ in range(draw.randint(1, 4)):
        at = draw.randint(0, len(text))
        to = min(len(text), at + draw.randint(0, 3))
        text[at:to] = draw.choice(pieces) if draw.random() < 0.7 else b""
    run = subprocess.run([f"{top}/crates/deneva/out/deneva", "serial"], input=bytes(text), capture_output=True)
    report = run.stdout.startswith(b"deneva-report,1,serial,1\n") and run.stdout.endswith(b"\nend\n")
    found = fault.fullmatch(run.stdout)
    if not ((run.returncode == 0 and report) or (run.returncode == 3 and found)):
        print(f"FAILED at turn {turn}: status {run.returncode}, {run.stdout!r} on {bytes(text)!r}")
        sys.exit(1)
    seen[found.group(1).split(b",")[0].decode() if found else "report"] += 1
print("1000 mutated files, each with a report or one fault:", ", ".join(f"{k} {v}" for k, v in sorted(seen.items())))
PYTHON
