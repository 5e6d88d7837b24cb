#!/usr/bin/env python3
"""Makes a flat design in which every table reads many of a few nets, each of which many tables read.

usage: make_wide.py NODES READS NETS SEED

Writes a BLIF text: NODES tables, each of READS of the NETS nets that registers give, drawn anew for each table. The first NETS tables
are what the registers read, so that the design is one of loops too. The same numbers give the same text.
"""
import random
import sys


def main():
    nodes, reads, nets, seed = (int(word) for word in sys.argv[1:5])
    draw = random.Random(seed)
    out = sys.stdout
    out.write(".model wide\n.inputs i c\n.outputs n0\n")
    for k in range(nets):
        out.write(f".latch m{k} n{k} re c 0\n")
    for k in range(nodes):
        pins = sorted(draw.sample(range(nets), reads))
        out.write(".names " + " ".join(f"n{p}" for p in pins) + f" m{k}\n" + "1" * reads + " 1\n")
    out.write(".end\n")


main()
