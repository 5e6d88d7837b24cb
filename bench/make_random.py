#!/usr/bin/env python3
"""Prints a flat design of random tables and registers with feedback: a register reads any net, a later one too.

usage: make_random.py NODES SEED

A quarter of the nodes are registers. A table reads two earlier nets, one of them among the last 2,000. The same numbers give the same design.
"""
import random
import sys

COVERS = ["11 1\n", "00 0\n", "10 1\n01 1\n", "11 0\n", "1- 1\n-1 1\n"]
INPUTS = 64


def main():
    nodes, seed = int(sys.argv[1]), int(sys.argv[2])
    draw = random.Random(seed)
    out = sys.stdout
    name = lambda net: f"i{net}" if net < INPUTS else f"n{net - INPUTS}"
    out.write(f".model random\n.inputs {' '.join(map(name, range(INPUTS)))}\n")
    out.write(f".outputs {' '.join(map(name, range(max(INPUTS, nodes), nodes + INPUTS)))}\n")
    for net in range(INPUTS, nodes + INPUTS):
        if draw.randrange(4) == 0:
            out.write(f".latch {name(draw.randrange(nodes + INPUTS))} {name(net)} {draw.randrange(2)}\n")
        else:
            near, far = draw.randrange(max(0, net - 2000), net), draw.randrange(net)
            out.write(f".names {name(near)} {name(far)} {name(net)}\n{draw.choice(COVERS)}")
    out.write(".end\n")


main()
