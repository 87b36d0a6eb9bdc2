#!/bin/sh
# Runs a workload whose texts hold commas, double quotes, line ends and marks, written by Python's csv module with all fields quoted
# and with only those that need it. Each report, of the proved program or of the one that DENEVA names, is read again by Python's csv
# module and by SQLite's .import, and has to hold the reads and rows that were loaded and written, cell by cell.
set -u
top=$(cd "$(dirname "$0")/.." && pwd)
exec python3 - "${DENEVA:-$top/crates/deneva/out/deneva}" <<'PYTHON'
import csv
import io
import os
import random
import subprocess
import sys
import tempfile

program = sys.argv[1]
FIELDS, ROWS, TXNS = 10, 300, 300
# the report's widest record is a row: its word, its key and its cells
WIDTH = FIELDS + 2
draw = random.Random(20260226)
PIECES = [",", '"', '""', "\n", "\r", "\r\n", "\ufeff", " ", "'", ";", "\t", "a", "é", "日", "end", "0", "-1", '",', ',"', '"\n']


def text():
    """At most 100 bytes; one text in eight is empty."""
    made = "".join(draw.choice(PIECES) for _ in range(draw.randint(0, 7) * draw.randint(1, 4)))
    return made if len(made.encode()) <= 100 else '"' * draw.randint(90, 100)


def written(records, quoting):
    """The records as a file. The csv module leaves a lone carriage return unquoted, which ends a line: where one stands, all is quoted."""
    sink = io.StringIO()
    for one in records:
        bare = any("\r" in field for field in one)
        csv.writer(sink, quoting=csv.QUOTE_ALL if bare else quoting, lineterminator="\n").writerow(one)
    return sink.getvalue().encode()


def told_by_python(report):
    return list(csv.reader(io.StringIO(report.decode(), newline="")))


def told_by_sqlite(report):
    names = [f"c{n}" for n in range(WIDTH)]
    with tempfile.NamedTemporaryFile() as file:
        file.write(report)
        file.flush()
        script = "\n".join([
            f"create table report({', '.join(f'{name} text' for name in names)});",
            ".mode csv",
            f".import {file.name} report",
            ".mode list",
            ".separator ,",
            "select " + ", ".join(f"iif({name} is null, '-', 'x' || hex({name}))" for name in names) + " from report order by rowid;",
        ])
        # a record with fewer fields than columns is padded with a warning
        ended = subprocess.run(["sqlite3", ":memory:"], input=script.encode(), capture_output=True, check=True)
    lines = ended.stdout.decode().splitlines()
    return [[bytes.fromhex(cell[1:]).decode() for cell in line.split(",") if cell != "-"] for line in lines]


rows = {key: [text() for _ in range(FIELDS)] for key in draw.sample(range(10_000), ROWS)}
writes = [(draw.choice(list(rows)), draw.randrange(FIELDS), text()) for _ in range(TXNS)]
records = [["deneva", "1", "ycsb", str(FIELDS)]]
records += [["row", str(key), *cells] for key, cells in rows.items()]
records += [["txn", "u", str(key), str(field), new] for key, field, new in writes]
records += [["end"]]
wanted = [["deneva-report", "1", "serial", "1"]]
for number, (key, field, new) in enumerate(writes, 1):
    wanted += [["commit", str(number), str(number), "0", "0"], ["read", f"0.{key}.0.0", *rows[key]]]
    rows[key] = [new if place == field else cell for place, cell in enumerate(rows[key])]
wanted += [["row", f"0.{key}.0.0", *rows[key]] for key in sorted(rows)]
wanted += [["end"]]
failed = 0
for name, quoting in ("all fields quoted", csv.QUOTE_ALL), ("as few as can be", csv.QUOTE_MINIMAL):
    ended = subprocess.run([program, "serial"], input=written(records, quoting), capture_output=True)
    for reader in told_by_python, told_by_sqlite:
        told = reader(ended.stdout) if ended.returncode == 0 else [[ended.stdout.decode(errors="replace")]]
        apart = [(a, b) for a, b in zip(wanted, told) if a != b]
        if apart or len(wanted) != len(told):
            failed = 1
            print(f"FAILED  {name}, {reader.__name__}: {len(told)} records for {len(wanted)}; the first apart: {apart[:1]}")
print(f"{len(wanted)} records with {sum(map(len, wanted))} cells, read again from two reports: {'FAILED' if failed else 'the same'}")
sys.exit(failed)
PYTHON
