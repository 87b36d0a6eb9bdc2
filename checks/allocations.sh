#!/bin/sh
# Makes the first, the second and so on allocation of a small run fail, up to the given number (60; the run makes 55 where
# none fails): the answer is the whole report with status 0, or `fault,memory` with status 1, and never another. A number
# past the last allocation gives the report, and so do some before it. Each turn builds the program anew and takes about
# half a minute.
set -u
most=${1:-60}
cd "$(dirname "$0")/../crates/deneva" || exit 1
work=$(mktemp -d)
trap 'rm -rf "$work"' EXIT
for number in $(seq 1 "$most"); do
    rt try --fail-alloc "$number" -- serial <stdin >"$work/out" 2>"$work/log"
    status=$?
    if [ $status = 0 ] && cmp -s "$work/out" stdout; then
        echo "allocation $number: the whole report"
    elif [ $status = 1 ] && [ "$(cat "$work/out")" = "fault,memory" ]; then
        echo "allocation $number: fault,memory"
    else
        echo "FAILED at allocation $number: status $status"
        cat "$work/out" "$work/log"
        exit 1
    fi
done
