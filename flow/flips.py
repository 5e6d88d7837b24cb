#!/usr/bin/env python3
"""flips.py TMR ORIG HARD CERT PLACED BITS.asc KIND COUNT SEED

Flips COUNT bits of a bitstream, one at a time, turns each bitstream back and has it validated. KIND tells where bits
are drawn: `lut` in tables of cells that reach an output, `on` routing bits that are 1, `off` routing bits that are 0 in
tiles with such cells, `any` all bits. Prints how often each answer came. What is accepted must be the same netlist,
byte for byte, and a table's bit must be one for a value of the pins that cannot come. `OTHER NETLIST` would be a find,
and makes the status 1.

A test: nothing here has to be trusted for masking.
"""
from __future__ import annotations

import collections
import random
import re
from typing import Any, NamedTuple, Optional

from bitstream_to_blif import TABLE_BITS, WIDTH, Chip, Tile, fit, hints, load_bits, place, read_bits, tiles_of
from edits import Judge, show
from netlist import Cell, Netlist, Unknown, load, program, write_back
from placed_to_blif import read_placed


class Bit(NamedTuple):
    """A bit of the bitstream; for a table's bit the cell, and for which value of the pins it stands."""
    tile: Tile
    row: int
    column: int
    cell: Optional[str] = None
    value: int = 0


def table_bits(live: dict[str, Cell]) -> list[Bit]:
    """The bits of all tables of cells that reach an output."""
    found = []
    for where in live:
        x, y, k = place(where)
        found += [Bit((x, y), 2 * k + n // 10, 36 + n % 10, where, i) for i, n in enumerate(TABLE_BITS)]
    return found


def switch_bits(bits: Any, chip: Chip, live: dict[str, Cell], kind: str) -> list[Bit]:
    """Bits of switches that are on, or off in tiles of live cells; or all bits."""
    used = {place(where)[:2] for where in live}
    found = []
    for tile, rows in tiles_of(bits).items():
        routing = 0
        for ones, zeros, what in chip.of(*tile):
            routing |= ones | zeros if what[0] in ("buffer", "routing") else 0
        for r, row in enumerate(rows):
            for c, bit in enumerate(row):
                wanted = bit == "1" if kind == "on" else bit == "0" and tile in used
                if kind == "any" or routing >> (WIDTH * r + c) & 1 and wanted:
                    found.append(Bit(tile, r, c))
    return found


def flip(rows: list[str], bit: Bit) -> None:
    """Flips one bit of a tile."""
    row = rows[bit.row]
    rows[bit.row] = row[:bit.column] + "10"[int(row[bit.column])] + row[bit.column + 1:]


def explained(answer: str, bit: Bit, live: dict[str, Cell]) -> str:
    """An accepted flip of a table's bit with the reason."""
    if not answer.startswith("accepted") or bit.cell is None:
        return answer
    pins = [(p, bit.value >> i & 1) for i, p in enumerate(live[bit.cell].pins)]
    if (None, 1) in pins:
        return answer + ", for a value of the pins that needs a 1 where a pin is tied to 0"
    if any((p, 1 - v) in pins for p, v in pins):
        return answer + ", for a value of the pins where two pins of one net differ"
    return answer + ", for a value that can come: OTHER NETLIST"


def main(words: list[str]) -> int:
    judge, hard, placed = Judge(words[0], words[1], words[3]), Netlist(load(words[2])), read_placed(load(words[4]))
    bits = load_bits(words[5])
    chip, names, kind = Chip(bits), hints(placed, hard), words[6]
    if kind not in ("lut", "on", "off", "any"):
        raise Unknown("a kind of bits " + kind)

    def back() -> tuple[str, dict[str, Cell]]:
        design = read_bits(bits, chip)
        cells = {c.where: c for c in design.cells}
        fit(design, placed)
        return write_back(design, hard, names), cells

    base, live = back()
    print("as it is:", judge.answer(base))
    places = table_bits(live) if kind == "lut" else switch_bits(bits, chip, live, kind)
    print(len(places), "bits to draw from")
    seen: collections.Counter[str] = collections.Counter()
    random.seed(int(words[8]))
    for bit in random.sample(places, int(words[7])):
        flip(tiles_of(bits)[bit.tile], bit)
        try:
            answer = explained(judge.told(back()[0], base), bit, live)
        except Unknown as why:
            answer = "not read: " + re.sub(r"\S*\d[^\s:]*|\[.*\]", "#", str(why))
        seen[answer] += 1
        flip(tiles_of(bits)[bit.tile], bit)
    return 1 if show(seen, kind) else 0


if __name__ == "__main__":
    program(__doc__, 9, 9, main)
