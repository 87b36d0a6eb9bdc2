#!/bin/sh
# Runs the program on files at each limit and one past it, and prints what it answers beside what it should.
set -u
top=$(cd "$(dirname "$0")/.." && pwd)
work=$(mktemp -d)
trap 'rm -rf "$work"' EXIT
failed=0

# expect NAME STATUS FIRST-LINE < file
expect() {
    "$top/deneva" serial >"$work/out"
    status=$?
    line=$(head -n 1 "$work/out")
    if [ "$status" = "$2" ] && [ "$line" = "$3" ]; then
        echo "ok      $1: status $status, $line"
    else
        echo "FAILED  $1: status $status, $line (wanted status $2, $3)"
        failed=1
    fi
}

python3 - "$work" <<'PYTHON'
import sys

work = sys.argv[1]


def write(name, lines):
    with open(f"{work}/{name}", "w") as out:
        out.write("\n".join(lines) + "\n")


def reads(count):
    return "txn," + ",".join(f"r,{key}" for key in range(1, count + 1))


head = "deneva,1,ycsb,1"
keys = [f"row,{key},a" for key in range(1, 18)]
write("steps-16", [head, *keys, reads(16), "end"])
write("steps-17", [head, *keys, reads(17), "end"])
write("txns-10000", [head, *keys, *["txn,r,1"] * 10_000, "end"])
write("txns-10001", [head, *keys, *["txn,r,1"] * 10_001, "end"])
write("txns-10001-steps-17", [head, *keys, *["txn,r,1"] * 10_000, reads(17), "end"])
write("rows-1000000", [head, *[f"row,{key},a" for key in range(1_000_000)], "end"])
write("rows-1000001", [head, *[f"row,{key},a" for key in range(1_000_001)], "end"])
write("text-100", [head, "row,1," + "t" * 100, "end"])
write("text-101", [head, "row,1," + "t" * 101, "end"])
shop = ["deneva,1,tpcc", "warehouse,1,W,0,0", "district,1,1,D,0,0,1", "customer,1,1,1,F,L,GC,0,0,0,0,d", "item,1,1,d",
        "stock,1,1,99,0,0,0,d"]
pays = ["payment,1,1,1,1,id,1,1"] * 10_000
stocks = [f"stock,{w},{i},1,0,0,0," for w in range(1, 11) for i in range(1, 100_001)]
write("lines-15", [*shop, "neworder,1,1,1" + ",1,1,1" * 15, "end"])
write("lines-16", [*shop, "neworder,1,1,1" + ",1,1,1" * 16, "end"])
write("payments-10000", [*shop, *pays, "end"])
write("payments-10000-lines-16", [*shop, *pays, "neworder,1,1,1" + ",1,1,1" * 16, "end"])
write("payments-10001", [*shop, *pays, pays[0], "end"])
write("items-100000", ["deneva,1,tpcc", *[f"item,{i},1," for i in range(1, 100_001)], "end"])
write("items-100001", ["deneva,1,tpcc", *[f"item,{i},1," for i in range(1, 100_002)], "end"])
write("stocks-1000000", ["deneva,1,tpcc", *stocks, "item,1,1,", "end"])
write("rows-over", ["deneva,1,tpcc", *stocks, "warehouse,1,W,0,0", "end"])
fits = f"{head}\nend"
limit = 67_108_864
with open(f"{work}/file-limit", "w") as out:
    out.write(fits + "\n" * (limit - len(fits)))
with open(f"{work}/file-over", "w") as out:
    out.write(fits + "\n" * (limit + 1 - len(fits)))
with open(f"{work}/file-over-with-quote", "w") as out:
    out.write('"' * (limit + 1))
PYTHON

report=deneva-report,1,serial,1
expect "16 steps" 0 $report <"$work/steps-16"
expect "17 steps" 3 fault,input,19,0,toomany,16 <"$work/steps-17"
expect "10,000 transactions" 0 $report <"$work/txns-10000"
expect "10,001 transactions" 3 fault,input,10019,0,toomany,10000 <"$work/txns-10001"
expect "10,001 transactions, the last of 17 steps" 3 fault,input,10019,0,toomany,16 <"$work/txns-10001-steps-17"
expect "1,000,000 rows" 0 $report <"$work/rows-1000000"
expect "1,000,001 rows" 3 fault,input,1000002,0,toomany,1000000 <"$work/rows-1000001"
expect "15 lines of an order" 0 $report <"$work/lines-15"
expect "16 lines of an order" 3 fault,input,7,0,toomany,15 <"$work/lines-16"
expect "10,000 payments" 0 $report <"$work/payments-10000"
expect "10,000 payments and an order of 16 lines" 3 fault,input,10007,0,toomany,15 <"$work/payments-10000-lines-16"
expect "10,001 payments" 3 fault,input,10007,0,toomany,10000 <"$work/payments-10001"
expect "100,000 items" 0 $report <"$work/items-100000"
expect "100,001 items" 3 fault,input,100002,0,toomany,100000 <"$work/items-100001"
expect "1,000,000 stocks" 0 $report <"$work/stocks-1000000"
expect "1,000,000 stocks and a warehouse" 3 fault,input,1000002,0,toomany,1000000 <"$work/rows-over"
expect "a text of 100 bytes" 0 $report <"$work/text-100"
expect "a text of 101 bytes" 3 fault,input,2,3,outofrange <"$work/text-101"
expect "a file of 67,108,864 bytes" 0 $report <"$work/file-limit"
expect "a file of one byte more" 3 fault,input,0,0,toolong <"$work/file-over"
expect "a file of quotes that is too long" 3 fault,input,0,0,toolong <"$work/file-over-with-quote"
exit $failed
