#!/usr/bin/env python3
"""Writes a TPC-C workload file from a fixed seed.

tpcc.py WAREHOUSES DISTRICTS CUSTOMERS ITEMS TXNS PAYMENTS: so many districts in each warehouse, so many customers (at most
1,000, so that each has a last name of its own) in each district, so many items, each in the stock of every warehouse, and so
many transactions, of which so many in a hundred are payments and the others new orders of 5 to 15 lines.

The draws are after TPC-C: customers and items by NURand (2.1.6), six in ten payments by last name, fifteen in a hundred
payments by a customer of another warehouse, one line in a hundred from another warehouse, and one order in a hundred with
an item that does not exist in its last line.
"""
import random
import sys

warehouses, districts, customers, items, txns, payments = map(int, sys.argv[1:7])
draw = random.Random(20260103)
letters = b"abcdefghijklmnopqrstuvwxyz"
table = bytes(letters[i % 26] for i in range(256))
syllables = ["BAR", "OUGHT", "ABLE", "PRI", "PRES", "ESE", "ANTI", "CALLY", "ATION", "EING"]
constant_of = {255: draw.randint(0, 255), 1023: draw.randint(0, 1023), 8191: draw.randint(0, 8191)}


def text(length):
    return draw.randbytes(length).translate(table).decode()


def last_name(number):
    return "".join(syllables[int(digit)] for digit in f"{number:03}")


def nurand(a, x, y):
    return ((draw.randint(0, a) | draw.randint(x, y)) + constant_of[a]) % (y - x + 1) + x


def another(warehouse):
    """A warehouse other than this one, or this one where there is no other."""
    if warehouses == 1:
        return warehouse
    drawn = draw.randint(1, warehouses - 1)
    return drawn + (drawn >= warehouse)


def load():
    for w in range(1, warehouses + 1):
        yield f"warehouse,{w},{text(6)},{draw.randint(0, 2000)},30000000"
        for d in range(1, districts + 1):
            yield f"district,{w},{d},{text(6)},{draw.randint(0, 2000)},3000000,3001"
            for c in range(1, customers + 1):
                credit = "BC" if draw.randrange(10) == 0 else "GC"
                names = f"{text(8)},{last_name(c - 1)}"
                yield f"customer,{w},{d},{c},{names},{credit},{draw.randint(0, 5000)},-1000,1000,1,{text(30)}"
    for i in range(1, items + 1):
        yield f"item,{i},{draw.randint(100, 10000)},{'ORIGINAL' if draw.randrange(10) == 0 else ''}"
    for w in range(1, warehouses + 1):
        for i in range(1, items + 1):
            data = "ORIGINAL" + text(18) if draw.randrange(10) == 0 else text(26)
            yield f"stock,{w},{i},{draw.randint(10, 100)},0,0,0,{data}"


def payment(w, d):
    cw, cd = (w, d) if draw.randrange(100) < 85 else (another(w), draw.randint(1, districts))
    if draw.randrange(100) < 60:
        who = f"name,{last_name(nurand(255, 0, customers - 1))}"
    else:
        who = f"id,{nurand(1023, 1, customers)}"
    return f"payment,{w},{d},{cw},{cd},{who},{draw.randint(100, 500000)}"


def new_order(w, d):
    customer, count = nurand(1023, 1, customers), draw.randint(5, 15)
    unused = draw.randrange(100) == 0
    lines = []
    for line in range(1, count + 1):
        item = items + 1 if unused and line == count else nurand(8191, 1, items)
        supplier = another(w) if draw.randrange(100) == 0 else w
        lines.append(f"{item},{supplier},{draw.randint(1, 10)}")
    return f"neworder,{w},{d},{customer}," + ",".join(lines)


out = sys.stdout.write
out("deneva,1,tpcc\n")
for record in load():
    out(record + "\n")
for _ in range(txns):
    kind = payment if draw.randrange(100) < payments else new_order
    out(kind(draw.randint(1, warehouses), draw.randint(1, districts)) + "\n")
out("end\n")
