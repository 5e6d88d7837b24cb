#!/usr/bin/env python3
"""regions.py PACKED.json HARD.blif CERT COLUMNS > place.py
regions.py --check PLACED.json HARD.blif CERT COLUMNS
regions.py PLACED.json HARD.blif CERT

Keeps the three copies of a hardened design apart on an iCE40 device. COLUMNS gives each copy a band of columns, such
as 10-14,16-20,22-27 for copies 0, 1 and 2.

The first form writes a script for `nextpnr-ice40 --pre-place place.py` that holds each logic cell of a copy in its
band. PACKED is what `nextpnr-ice40 --pack-only --write PACKED.json` gives for the same netlist: it has the cells'
names. The second form tells which cells of a placed design stand outside their band, and ends with status 1 where
there is one: nextpnr lets a cell out now and then. The third form tells where the copies lie in a placed design, how many
tiles have logic cells of several copies, and how many have registers of several copies of one partition. The registers
of a tile share the switches of clock, enable and reset.

Which copy a cell belongs to is what CERT says of the net that it gives. Nothing here has to be trusted for masking.
"""
from __future__ import annotations

import collections
import json
import re

from netlist import Cell, Copies, Device, Net, Netlist, Unknown, find_names, load, program
from placed_to_blif import read_placed

Bands = list[tuple[int, int]]


def bands_of(text: str) -> Bands:
    """The bands that a text such as 10-14,16-20,22-27 gives."""
    found = re.fullmatch(r"(\d+)-(\d+),(\d+)-(\d+),(\d+)-(\d+)", text)
    if not found:
        raise Unknown("no three bands of columns: " + text)
    n = [int(word) for word in found.groups()]
    return [(n[0], n[1]), (n[2], n[3]), (n[4], n[5])]


def tile_of(where: str) -> tuple[int, int]:
    """The tile of a placed cell."""
    found = re.match(r"X(\d+)/Y(\d+)/lc\d", where)
    if not found:
        raise Unknown("%s is no place of a logic cell: the design is not placed" % where)
    return int(found.group(1)), int(found.group(2))


class Design:
    """A design with the copy of each logic cell whose net HARD has."""

    def __init__(self, device: Device, hard: Netlist, copies: Copies):
        self.device, self.copies = device, copies
        self.names: dict[Net, str] = find_names(device, hard)
        known = [c for c in device.cells if self.names.get(c.out) in copies.copy]
        self.copy = {c.where: copies.copy[self.names[c.out]] for c in known}

    def part(self, cell: Cell) -> str:
        """The partition of a cell."""
        return self.copies.part[self.names[cell.out]]

    def script(self, bands: Bands) -> str:
        """The script for nextpnr. Rows are those of the die without its rows of pads."""
        return "\n".join([
            "top = max(ctx.getBelLocation(bel).y for bel in ctx.getBels()) - 1",
            "for copy, (low, high) in enumerate(%s):" % bands,
            "    ctx.createRectangularRegion('copy%d' % copy, low, 1, high, top)",
            "for name, copy in %s.items():" % json.dumps(self.copy, indent=0),
            "    ctx.constrainCellToRegion(name, 'copy%d' % copy)"])

    def outside(self, bands: Bands) -> list[str]:
        """The cells that stand outside the band of their copy."""
        found = []
        for where, copy in self.copy.items():
            low, high = bands[copy]
            if not low <= tile_of(where)[0] <= high:
                found.append("copy %d at %s" % (copy, where))
        return found

    def told(self) -> list[str]:
        """Where the copies lie, and how many tiles they share."""
        tiles, registers = collections.defaultdict(set), collections.defaultdict(set)
        for cell in self.device.cells:
            if cell.where in self.copy:
                tile, copy = tile_of(cell.where), self.copy[cell.where]
                tiles[tile].add(copy)
                if cell.register:
                    registers[tile, self.part(cell)].add(copy)
        lines = []
        for copy in range(3):
            mine = [x for (x, _), found in tiles.items() if copy in found] or [0]
            lines.append("copy %d in columns %d to %d" % (copy, min(mine), max(mine)))
        shared = {tile for (tile, _), found in registers.items() if len(found) > 1}
        alone = sum(len(found) == 1 for found in tiles.values())
        return lines + ["tiles with cells of one copy %d, of several %d" % (alone, len(tiles) - alone),
                        "tiles with registers of several copies of one partition %d" % len(shared),
                        "cells of no copy %d" % (len(self.device.cells) - len(self.copy))]


def main(words: list[str]) -> int:
    check = words[0] == "--check"
    files = words[1:] if check else words
    if len(files) not in ((4,) if check else (3, 4)):
        raise Unknown("wrong number of words")
    design = Design(read_placed(load(files[0])), Netlist(load(files[1])), Copies(load(files[2])))
    if len(files) == 3:
        print("\n".join(design.told()))
        return 0
    bands = bands_of(files[3])
    if not check:
        print(design.script(bands))
        return 0
    outside = design.outside(bands)
    print("cells in their bands %d, outside %d" % (len(design.copy) - len(outside), len(outside)))
    if outside:
        print("\n".join(outside[:10]))
    return 1 if outside else 0


if __name__ == "__main__":
    program(__doc__, 3, 5, main)
