#!/usr/bin/env python3
"""strikes.py HARD.blif CERT PLACED.json BITS.asc

For each configuration bit of a bitstream that BACK (bitstream_to_blif.py) depends on: which copies of which partitions
can go wrong while it is wrong? Prints how many bits there are of each kind, and how many strike several copies of one
partition; and of these, how many there are in each place and what they are. All others are masked for as long as no other
copy of that partition is struck, since upsets of one copy in every cycle are allowed.

Taken for granted, beside what bitstream_to_blif.py trusts: a wrong bit of a switch spoils the wire that the switch
drives and what reads it through this wire, and nothing else (also where two drivers then meet); a wrong bit of a cell
spoils the cell; NegClk spoils all registers of its tile, a column buffer all registers of its tiles that it serves, a pad's
bit the pad. A voter that gets one copy of x wrong counts as that copy of x. It counts, and is no proof.
"""
from __future__ import annotations

import collections
import re
from typing import Any, Iterable

from bitstream_to_blif import TABLE_BITS, WIDTH, Chip, Segment, Sink, fit, hints, load_bits, place, read_bits
from netlist import Cell, Copies, Device, Net, Netlist, Unknown, load, program
from placed_to_blif import read_placed

Struck = frozenset[tuple[str, int]]
CONTROLS = ("clk", "cen", "s_r")
REGISTER_BITS = (8, 9, 18, 19)
SWITCHES = ("buffer", "routing")
NOTHING: Struck = frozenset()


def union(found: Iterable[Struck]) -> Struck:
    """All that are struck by one of several."""
    return NOTHING.union(*found)


def several(struck: Struck) -> bool:
    """Whether several copies of one partition are struck."""
    return len({part for part, _ in struck}) < len(struck)


class Nets:
    """Which partition and which copy each net and port is of. Each port of one number is a copy of that number's port."""

    def __init__(self, hard: Netlist, copies: Copies):
        self.part, self.copy, self.voters = dict(copies.part), dict(copies.copy), copies.voters
        clocks = {latch.clock for latch in hard.registers.values()}
        for i, net in enumerate(n for n in hard.inputs if n not in clocks):
            self.part[net], self.copy[net] = "inputs", i % 3

    def of(self, net: str, where: str) -> Struck:
        """What is struck where this net is wrong."""
        if net not in self.part:
            raise Unknown("%s gives %s, which CERT does not know: have the bitstream validated first" % (where, net))
        return frozenset({(self.part[net], self.copy[net])})


class Sinks:
    """What is struck where a pin, a pad or a cell of the device is wrong."""

    def __init__(self, design: Device, placed: Device, hard: Netlist, nets: Nets):
        self.placed, self.hard, self.nets = placed, hard, nets
        self.names = hints(placed, hard)
        self.cells = {c.where: c for c in design.cells}
        self.pins = {c.where: list(c.pins) for c in design.cells}
        self.readers: dict[Net, set[Sink]] = collections.defaultdict(set)
        for where, pins in self.pins.items():
            for i, net in enumerate(pins):
                if net is not None:
                    self.readers[net].add((where, i))
        fit(design, placed)
        self.through = set(self.cells) - {c.where for c in design.cells}
        self.known: dict[Sink, Struck] = {}

    def struck(self, sink: Sink) -> Struck:
        """What goes wrong where this pin, pad or cell is wrong."""
        if sink not in self.known:
            self.known[sink] = NOTHING
            self.known[sink] = self.find(*sink)
        return self.known[sink]

    def find(self, where: str, pin: Any) -> Struck:
        if where not in self.cells:
            return self.pad(where)
        if where in self.through:
            return union(self.struck(sink) for sink in self.readers[where])
        cell = self.cells[where]
        if pin in CONTROLS + ("register",):
            return self.nets.of(self.name(where), where) if cell.register else NOTHING
        net = self.table(where, cell)
        read = cell.pins[pin] if pin in range(4) else None
        if net in self.nets.voters and read is not None:
            net = self.names.get(read, str(read))
        return self.nets.of(net, where)

    def name(self, where: str) -> str:
        """The net of HARD that the cell at a place gives."""
        return self.names.get(where, where)

    def pad(self, where: str) -> Struck:
        """What a pad strikes: an input or an output its copy, the clock all."""
        port, hard = self.placed.pads.get(where, where), self.hard
        if port in self.placed.inputs and port in self.nets.part:
            return self.nets.of(port, where)
        if port in hard.outputs:
            return frozenset({("outputs", hard.outputs.index(port) % 3)})
        return frozenset({("clock", 0), ("clock", 1)})

    def table(self, where: str, cell: Cell) -> str:
        """The node of HARD that a cell's table is, or the register's own where it only hands on."""
        net = self.name(where)
        if not cell.register or net not in self.hard.registers:
            return net
        inner, passed = self.hard.root(self.hard.registers[net].d), cell.passes()
        return net if passed is not None and self.names.get(passed) == inner else inner


class Count:
    """Counts bits by kind, each with what it strikes."""

    def __init__(self, bits: Any, chip: Chip, sinks: Sinks):
        self.bits, self.chip, self.sinks = bits, chip, sinks
        self.struck: dict[tuple, Struck] = {}
        self.kinds: dict[tuple, str] = {}
        self.switches: dict[int, dict[str, int]] = {}

    def note(self, x: int, y: int, number: int, kind: str, struck: Struck) -> None:
        """Notes the bits of a tile that are 1 in a number."""
        while number:
            at = (number & -number).bit_length() - 1
            number &= number - 1
            self.put((x, y, at), kind, struck)

    def put(self, key: tuple, kind: str, struck: Struck) -> None:
        """Notes one bit."""
        self.struck[key] = self.struck.get(key, NOTHING) | struck
        self.kinds.setdefault(key, kind)

    def switches_of(self, x: int, y: int, name: str) -> int:
        """The bits of the switches that drive a wire in a tile."""
        key = id(self.bits.tile_db(x, y))
        if key not in self.switches:
            self.switches[key] = collections.defaultdict(int)
            for ones, zeros, what in self.chip.of(x, y):
                if what[0] in SWITCHES:
                    self.switches[key][what[2]] |= ones | zeros
        return self.switches[key].get(name, 0)

    def wires(self, wires: dict[Segment, set[Sink]]) -> None:
        """Notes the switches of all wires."""
        for wire, sinks in wires.items():
            struck = union(self.sinks.struck(s) for s in sinks)
            clocks = any(pin in CONTROLS for _, pin in sinks)
            kind = "switches of clock, enable and reset" if clocks else "switches of logic"
            for x, y, name in self.bits.expand_net(wire):
                if self.bits.tile(x, y) is not None and not name.startswith("glb_netwk_"):
                    self.note(x, y, self.switches_of(x, y, name), kind, struck)

    def tables(self) -> None:
        """Notes the bits of all logic cells, and the clock edge of their tiles."""
        for where, cell in self.sinks.cells.items():
            x, y, k = place(where)
            table, register = self.sinks.struck((where, "table")), self.sinks.struck((where, "register"))
            for n in TABLE_BITS:
                self.note(x, y, 1 << ((2 * k + n // 10) * WIDTH + 36 + n % 10), "tables", table)
            for n in REGISTER_BITS:
                self.note(x, y, 1 << ((2 * k + n // 10) * WIDTH + 36 + n % 10), "registers' bits", table | register)
            if cell.register:
                self.note(x, y, 1, "a tile's clock edge", register)

    def networks(self, wires: dict[Segment, set[Sink]]) -> None:
        """Notes column buffers, and the bits that put pads onto clock networks."""
        used = {int(n) for wire in wires for n in re.findall(r"glb_netwk_(\d)", wire[2])}
        columns: dict[tuple[int, int], set] = collections.defaultdict(set)
        for where, cell in self.sinks.cells.items():
            if cell.register:
                columns[self.chip.column[place(where)[:2]]] |= self.sinks.struck((where, "register"))
        for number, what in self.bits.extra_bits_db().items():
            if what[0] == "padin_glb_netwk" and int(what[1]) in used:
                self.put(("extra",) + number, "pads onto a clock network", union(map(frozenset, columns.values())))
        for (x, y), struck in columns.items():
            for ones, _, what in self.chip.of(x, y):
                if what[0] == "ColBufCtrl" and int(what[1][-1]) in used:
                    self.note(x, y, ones, "column buffers", frozenset(struck))

    def pads(self) -> None:
        """Notes the bits of pads."""
        for where in self.sinks.placed.pads:
            x, y, z = (int(p.strip("XYio")) for p in where.split("/"))
            for ones, _, what in self.chip.of(x, y):
                if what[0] == "IOB_%d" % z or what[0] == "IoCtrl" and what[1] in ("IE_%d" % z, "LVDS"):
                    self.note(x, y, ones, "pads", self.sinks.struck((where, 0)))

    def run(self, wires: dict[Segment, set[Sink]]) -> None:
        """Notes all bits."""
        self.wires(wires)
        self.tables()
        self.networks(wires)
        self.pads()

    def meaning(self, key: tuple) -> str:
        """What icebox calls a bit that strikes several copies: the options or the wire that it switches."""
        if key[0] == "extra":
            return "a pad onto a clock network"
        x, y, at = key
        found = {re.sub(r"\d+", "#", what[2] if what[0] in SWITCHES else ".".join(what))
                 for ones, zeros, what in self.chip.of(x, y) if (ones | zeros) >> at & 1}
        return ", ".join(sorted(found))

    def lines(self) -> list[str]:
        """The numbers of bits of each kind, and what those are that strike several copies."""
        total: collections.Counter[str] = collections.Counter()
        many: collections.Counter[str] = collections.Counter()
        which: collections.Counter[tuple[str, str]] = collections.Counter()
        for key, struck in self.struck.items():
            if struck:
                total[self.kinds[key]] += 1
                if several(struck):
                    many[self.kinds[key]] += 1
                    which[self.kinds[key], self.meaning(key)] += 1
        lines = ["%-38s %6d bits, %5d strike several copies of one partition" % (k, total[k], many[k]) for k in total]
        lines.append("%-38s %6d bits, %5d" % ("together", sum(total.values()), sum(many.values())))
        return lines + ["of several: %5d %s: %s" % (n, kind, what) for (kind, what), n in which.most_common()]


def main(words: list[str]) -> None:
    hard, copies, placed, bits = Netlist(load(words[0])), Copies(load(words[1])), read_placed(load(words[2])), load_bits(words[3])
    chip = Chip(bits)
    design = read_bits(bits, chip)
    count = Count(bits, chip, Sinks(design, placed, hard, Nets(hard, copies)))
    count.run(design.wires)
    print("\n".join(count.lines()))


if __name__ == "__main__":
    program(__doc__, 4, 4, main)
