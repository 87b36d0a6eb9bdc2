#!/usr/bin/env python3
"""Writes a YCSB workload file from a fixed seed.

ycsb.py ROWS FIELDS LENGTH TXNS ACCESSES READS: so many rows of so many fields of so many random letters, and so many
transactions of so many accesses of distinct keys, drawn uniformly, of which so many in a hundred read and the others
update one field.
"""
import random
import sys

rows, fields, length, txns, accesses, reads = map(int, sys.argv[1:7])
draw = random.Random(20260101)
letters = b"abcdefghijklmnopqrstuvwxyz"
table = bytes(letters[i % 26] for i in range(256))


def text():
    return draw.randbytes(length).translate(table).decode()


out = sys.stdout.write
out(f"deneva,1,ycsb,{fields}\n")
for key in range(rows):
    out(f"row,{key}," + ",".join(text() for _ in range(fields)) + "\n")
for _ in range(txns):
    steps = []
    for key in draw.sample(range(rows), accesses):
        if draw.randrange(100) < reads:
            steps.append(f"r,{key}")
        else:
            steps.append(f"u,{key},{draw.randrange(fields)},{text()}")
    out("txn," + ",".join(steps) + "\n")
out("end\n")
