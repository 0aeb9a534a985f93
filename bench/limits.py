#!/usr/bin/env python3
"""Prints a network at the limits: 64 nodes, one of them apart, 128 fibres, 1,024 units, 4,096 services, 16 routes.

usage: limits.py SEED
"""
import random
import sys

draw = random.Random(int(sys.argv[1]))
nodes = [f"n{i:02d}" for i in range(64)]
ends = [(nodes[i], nodes[draw.randrange(i)]) for i in range(1, 63)]  # a tree; the last node stands apart
while len(ends) < 128:
    ends.append(tuple(draw.sample(nodes[:63], 2)))
print("net 1\nband -512 511\nguard 0\nk 16\nservices 4096\njournal 4096\nformat q16 100000 50")
print("\n".join(f"node {n}" for n in nodes))
print("\n".join(f"fibre f{i:03d} {a} {b} {draw.randint(10, 500)}" for i, (a, b) in enumerate(ends)))
print("end")
