#!/bin/sh
# Runs the program against streams that fail: a full device, a reader that has gone, a directory for an input, and words
# that are no text.
set -u
top=$(cd "$(dirname "$0")/.." && pwd)
program=$top/crates/deneva/out/deneva
work=$(mktemp -d)
trap 'rm -rf "$work"' EXIT
failed=0
"$top/deneva" serial <"$top/examples/two-updates/input.csv" >/dev/null || exit 1

expect() {
    if [ "$2" = "$3" ]; then
        echo "ok      $1: status $2"
    else
        echo "FAILED  $1: status $2 (wanted $3)"
        failed=1
    fi
}

"$program" serial <"$top/examples/two-updates/input.csv" >/dev/full
expect "a full device" $? 5

# More than a pipe holds, to a reader that goes at once.
python3 "$top/bench/ycsb.py" 2000 10 30 100 16 50 >"$work/big.csv"
("$program" serial <"$work/big.csv"; echo $? >"$work/status") | true
expect "a pipe whose reader has gone" "$(cat "$work/status")" 5

"$program" serial </ >"$work/out"
expect "a directory as standard input" $? 4
[ "$(cat "$work/out")" = "fault,read" ] || { echo "FAILED  the text of a read fault"; failed=1; }

"$program" "$(printf 'serial\377')" <"$top/examples/two-updates/input.csv" >"$work/out"
expect "a word that is no UTF-8 text" $? 2
[ "$(cat "$work/out")" = "fault,words" ] || { echo "FAILED  the text of refused words"; failed=1; }
exit $failed
