#!/bin/sh
# Runs the worked runs under examples/ with the proved program, crates/deneva/out/deneva, or with the one that DENEVA names.
# Prints the name of each run that ends with another status or text, with the difference; the last line is
# 'N passed, M failed', and the status is 1 if one failed. examples/README.md says which files make up a run.
# With words, only the runs whose names begin with one of them: checks/rows.sh write-skew faults/row
set -u
top=$(cd "$(dirname "$0")/.." && pwd)
exec python3 - "$top" "${DENEVA:-$top/crates/deneva/out/deneva}" "$@" <<'PYTHON'
import difflib
import hashlib
import os
import pathlib
import subprocess
import sys

top, program, *wanted = sys.argv[1:]
examples = pathlib.Path(top, "examples")
SECONDS = 120


def own_or_shared(folder, run, name):
    """The run's own file of this kind, or else the one that all runs of the folder share."""
    own = folder / f"{run}.{name}"
    return own if own.exists() else folder / ("input.csv" if name == "csv" else name)


def lines_of(path):
    """The command lines of a words file; a line that begins with # says why the report is what it is."""
    lines = path.read_text().splitlines()
    return [line for line in lines if line and not line.startswith("#")]


def input_of(folder, run):
    made = folder / f"{run}.make"
    if made.exists():
        words = made.read_text().split()
        return subprocess.run([f"{top}/checks/inputs.py", *words], stdout=subprocess.PIPE, check=True).stdout
    return own_or_shared(folder, run, "csv").read_bytes()


def difference(expected, told):
    """What the program wrote against a whole report, line by line, or against the checksum of one that is too long."""
    if expected.suffix == ".sha256":
        checksum = hashlib.sha256(told).hexdigest()
        return [] if checksum == expected.read_text().strip() else [f"another checksum: {checksum}"]
    report = expected.read_bytes()
    if report == told:
        return []
    texts = [text.decode(errors="backslashreplace").splitlines() for text in (report, told)]
    return list(difflib.unified_diff(*texts, "expected", "told", lineterm="")) or ["another line end"]


def failures(expected, line, text, status):
    try:
        ended = subprocess.run([program, *line.split(" ")], input=text, capture_output=True, timeout=SECONDS)
    except subprocess.TimeoutExpired:
        return [f"not ended after {SECONDS} seconds"]
    found = [] if ended.returncode == status else [f"status {ended.returncode}, and not {status}"]
    return found + difference(expected, ended.stdout)


if not os.access(program, os.X_OK):
    sys.exit(f"rows: there is no program {program}: `rt ci` or ./deneva builds it")
passed = failed = 0
for expected in sorted([*examples.glob("*/*.report"), *examples.glob("*/*.sha256")]):
    folder, run = expected.parent, expected.stem
    name = f"{folder.name}/{run}"
    if wanted and not any(name.startswith(word) for word in wanted):
        continue
    told = own_or_shared(folder, run, "status")
    status = int(told.read_text()) if told.exists() else 0
    text = input_of(folder, run)
    for line in lines_of(own_or_shared(folder, run, "words")):
        found = failures(expected, line, text, status)
        passed += not found
        failed += bool(found)
        if found:
            print(f"FAILED  {name}: deneva {line}", *(f"    {it}" for it in found), sep="\n")
print(f"{passed} passed, {failed} failed")
sys.exit(failed > 0 or passed == 0)
PYTHON
