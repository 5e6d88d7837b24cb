#!/usr/bin/env python3
"""Prints a netlist with a long chain of placed models.

usage: make_chains.py nested N          a chain of N models whose end places models, itself placed N times
       make_chains.py formals N LENGTH  a chain of N models around a table of 63 pins with formals of this length
"""
import sys


def wrapper(number, count, end, inputs, outputs):
    placed = f"w{number + 1}" if number + 1 < count else end
    bound = " ".join(f"{net}={net}" for net in (inputs + " " + outputs).split())
    return f".model w{number}\n.inputs {inputs}\n.outputs {outputs}\n.subckt {placed} {bound}\n.end\n"


def nested(count):
    yield ".model main\n.inputs a b\n.outputs " + " ".join(f"y{i} z{i}" for i in range(count)) + "\n"
    for i in range(count):
        yield f".subckt w0 a=a b=b y=y{i} z=z{i}\n"
    yield ".end\n"
    for i in range(count):
        yield wrapper(i, count, "end", "a b", "y z")
    yield ".model end\n.inputs a b\n.outputs y z\n.subckt and p=a q=b r=y\n.subckt or p=a q=b r=z\n.end\n"
    yield ".model and\n.inputs p q\n.outputs r\n.names p q r\n11 1\n.end\n"
    yield ".model or\n.inputs p q\n.outputs r\n.names p q r\n1- 1\n-1 1\n.end\n"


def formals(count, length):
    pins = [f"n{i:02d}" + "x" * (length - 3) for i in range(62)]
    out = "o" * length
    yield ".model main\n.inputs a\n.outputs y\n.subckt w0 a=a y=y\n.end\n"
    for i in range(count - 1):
        yield wrapper(i, count, "end", "a", "y")
    yield f".model w{count - 1}\n.inputs a\n.outputs y\n.subckt end " + " ".join(f"{pin}=a" for pin in pins) + f" {out}=y\n.end\n"
    yield ".model end\n.inputs " + " ".join(pins) + f"\n.outputs {out}\n"
    yield ".names " + " ".join(pins) + f" {out}\n" + "1" * 62 + " 1\n.end\n"


kinds = {"nested": nested, "formals": formals}
sys.stdout.writelines(kinds[sys.argv[1]](*map(int, sys.argv[2:])))
