#!/usr/bin/env python3
"""Prints a netlist whose main model places another one, so many times: `tmr flatten` of it gives a flat netlist of that many copies.

usage: make_placed.py FILE COUNT

FILE holds one model with a clock. Each placing has inputs and outputs of its own, and the clock is one.
"""
import sys


def main():
    text = open(sys.argv[1], encoding="latin-1").read().replace("\\\n", " ")
    lines = [line.split("#")[0].split() for line in text.split("\n")]
    ports = {word: [name for line in lines if line[:1] == [word] for name in line[1:]] for word in (".model", ".inputs", ".outputs")}
    clocks = {line[4] for line in lines if line[:1] == [".latch"] and len(line) > 4}
    out = sys.stdout
    copies = range(int(sys.argv[2]))
    inputs = [name for name in ports[".inputs"] if name not in clocks]
    out.write(".model placed\n")
    out.write(" ".join([".inputs", *sorted(clocks), *(f"c{k}.{name}" for k in copies for name in inputs)]) + "\n")
    out.write(" ".join([".outputs", *(f"c{k}.{name}" for k in copies for name in ports[".outputs"])]) + "\n")
    for k in copies:
        bound = [f"{name}={name}" for name in sorted(clocks)] + [f"{name}=c{k}.{name}" for name in inputs + ports[".outputs"]]
        out.write(" ".join([".subckt", ports[".model"][0], *bound]) + "\n")
    out.write(".end\n" + text)


main()
