#!/usr/bin/env python3
"""Writes the input of a worked run that is too long to show.

inputs.py mails TXNS: transactions of three participants over 16 partitions. The i-th, counted from 0, has its home at node
i mod 16. It reads a row of that node, updates one of the next, and reads or puts one of the node after that; each node has
40 rows, so most of the rows that it accesses are accessed by one or two others.
"""
import sys


def mails(count):
    print("deneva,2,ycsb,1")
    for key in range(640):
        print(f"row,{key},r{key}")
    for i in range(count):
        home, turn = i % 16, i // 16
        first = turn % 40 * 16 + home
        second = (turn * 7 + 3) % 40 * 16 + (home + 1) % 16
        third = (turn * 11 + 5) % 40 * 16 + (home + 2) % 16
        last = f"p,{third},p{i}" if i % 4 == 0 else f"r,{third}"
        print(f"txn,r,{first},u,{second},0,u{i},{last}")
    print("end")


if sys.argv[1:2] != ["mails"] or len(sys.argv) != 3:
    sys.exit(__doc__)
mails(int(sys.argv[2]))
