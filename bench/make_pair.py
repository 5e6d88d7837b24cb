#!/usr/bin/env python3
"""Makes a flat design of random tables and registers, its three copies and their certificate.

usage: make_pair.py NODES SEED FOLDER

Writes o.blif, h.blif and h.cert into FOLDER. Tables read earlier nets alone, and registers read tables and
inputs alone, so no loop wants a voter; each register counts 1 more than the deepest of its pin's, and the one
partition is as deep as its deepest copy. The same numbers give the same files.
"""
import random
import sys


def main():
    nodes, seed, folder = int(sys.argv[1]), int(sys.argv[2]), sys.argv[3]
    draw = random.Random(seed)
    inputs = [f"i{k}" for k in range(64)]
    nets = list(inputs)
    labels = {name: 0 for name in inputs}
    covers = [["11 1"], ["00 0"], ["10 1", "01 1"], ["11 0"], ["1- 1", "-1 1"]]
    body = []
    for k in range(nodes):
        name = f"n{k}"
        if draw.randrange(4) == 0:
            pin = draw.choice(nets)
            body.append(("latch", name, [pin], draw.randrange(2)))
            labels[name] = labels[pin] + 1
        else:
            pins = [draw.choice(nets[-2000:]), draw.choice(nets)]
            body.append(("names", name, pins, draw.choice(covers)))
            labels[name] = max(labels[pin] for pin in pins)
        nets.append(name)
    outputs = [f"n{k}" for k in range(max(0, nodes - 64), nodes)]
    write(f"{folder}/o.blif", inputs, outputs, body, [""])
    write(f"{folder}/h.blif", inputs, outputs, body, ["~0", "~1", "~2"])
    with open(f"{folder}/h.cert", "w") as cert:
        depth = max((labels[name] for _, name, _, _ in body), default=0)
        cert.write(f"tmr-cert 1\nparts 1\npart 0 depth {depth}\n")
        for _, name, _, _ in body:
            e = labels[name]
            cert.write(f"node {name} 0 {name}~0 {name}~1 {name}~2 {e} {e} {e}\n")
        cert.write("end\n")


def write(path, inputs, outputs, body, copies):
    with open(path, "w") as out:
        out.write(".model bench\n")
        out.write(".inputs " + " ".join(x + c for x in inputs for c in copies) + "\n")
        out.write(".outputs " + " ".join(x + c for x in outputs for c in copies) + "\n")
        for kind, name, pins, rest in body:
            for c in copies:
                if kind == "latch":
                    out.write(f".latch {pins[0]}{c} {name}{c} {rest}\n")
                else:
                    out.write(f".names {pins[0]}{c} {pins[1]}{c} {name}{c}\n")
                    for row in rest:
                        out.write(row + "\n")
        out.write(".end\n")


main()
