#!/usr/bin/env python3
"""bitstream_to_blif.py BITS PLACED.json HARD.blif > BACK.blif

Turns an iCE40 bitstream back into BLIF, for `tmr validate ORIG BACK.blif CERT`. BITS is text (`.asc`), or a `.bin`
that `iceunpack` makes text of. Beside Python it needs Project IceStorm's icebox (Debian: fpga-icestorm).

Tables, registers and wiring are read from the bits alone. From each output pad wires are followed back: each wire
has at most one driver that is switched on, and at last a logic cell or an input pad. A table's pin without a driver
is 0. So what reaches no output pad is not looked at; but each bit that is 1, anywhere, must be one that is known here.

PLACED (`nextpnr-ice40 --write`) is asked which pad is which port, and which net of HARD the cell at a place gives;
HARD is asked what netlist.py says. Where they name cells wrongly, `validate` can only refuse.

What is trusted: this script and netlist.py; icebox's tables, which say what each bit of the device does; iceunpack;
that pads are wired to the ports that PLACED says; that the device is loaded with these bits.
Whatever is not known here ends the script with status 2: carry chains, memories, PLLs, registered pads, asynchronous
resets, wires with two drivers, wires that are read and not driven, bits that are 1 and in no known pattern.
"""
from __future__ import annotations

import re
import subprocess
import sys
import tempfile
from typing import Any, NamedTuple, Optional

sys.path += ["/usr/share/fpga-icestorm/python", "/usr/local/share/icebox"]
import icebox

from netlist import Cell, Device, Net, Netlist, Register, Unknown, find_names, load, program, write_back
from placed_to_blif import read_placed

Tile = tuple[int, int]
Segment = tuple[int, int, str]
Sink = tuple[str, Any]

OWN = re.compile(r"(lutff_(\d)/out|lutff_\d/[lc]out|io_(\d)/D_IN_\d|ram/RDATA_\d+)$")
# The options of a tile that are looked at, or that do nothing to the logic.
OPTIONS = re.compile(r"ColBufCtrl|IOB_|IoCtrl\.(IE|REN)|NegClk|RamConfig")
INPUT, OUTPUT, UNUSED = "000001", "011001", "000000"
WIDTH = 64
# Where the bits of the first logic cell's table stand: from column 36 on, tens are rows. Each cell has two rows.
TABLE_BITS = (4, 14, 15, 5, 6, 16, 17, 7, 3, 13, 12, 2, 1, 11, 10, 0)


class Pattern(NamedTuple):
    """Bits of a tile that are wanted 1, bits wanted 0, and what they do, in icebox's words."""
    ones: int
    zeros: int
    what: list[str]


class Wire(NamedTuple):
    """A wire of the device: a name for it, the cells and pads that drive it without a switch, its clock network."""
    name: Segment
    own: list[Segment]
    network: Optional[int]


def place(where: str) -> tuple[int, int, int]:
    """The tile and the number of a logic cell."""
    x, y, k = (int(part.strip("XYlc")) for part in where.split("/"))
    return x, y, k


def mask(bits: list[str], negated: bool) -> int:
    """The bits of a pattern that are wanted 1, or those that are wanted 0, as a number."""
    total = 0
    for bit in bits:
        found = re.fullmatch(r"!?B(\d+)\[(\d+)\]", bit)
        if not found:
            raise Unknown("icebox names a bit %s" % bit)
        if bit.startswith("!") == negated:
            total |= 1 << (int(found.group(1)) * WIDTH + int(found.group(2)))
    return total


class Chip:
    """What icebox knows of the device: wires, and patterns of bits. It is filled as it is asked."""

    def __init__(self, bits: Any):
        if bits.device not in ("1k", "8k"):
            raise Unknown("device %s: only the dies 1k and 8k are read" % bits.device)
        self.bits = bits
        self.wires: dict[Segment, Wire] = {}
        self.patterns: dict[int, list[Pattern]] = {}
        self.last: dict[Tile, tuple[int, int, list[list[str]]]] = {}
        self.column = {(x, y): (sx, sy) for sx, sy, x, y in bits.colbuf_db()}
        self.enable = {e[:3]: e[3:] for e in bits.ieren_db()}

    def wire(self, segment: Segment) -> Wire:
        """The wire that a tile's name is part of."""
        if segment not in self.wires:
            whole = self.bits.expand_net(segment)
            name = re.match(r"glb_netwk_(\d)$", segment[2])
            wire = Wire(segment, [s for s in whole if OWN.match(s[2])], int(name.group(1)) if name else None)
            self.wires.update((s, wire) for s in whole)
        return self.wires[segment]

    def of(self, x: int, y: int) -> list[Pattern]:
        """The patterns of a tile."""
        entries = self.bits.tile_db(x, y)
        if id(entries) not in self.patterns:
            self.patterns[id(entries)] = [Pattern(mask(e[0], False), mask(e[0], True), e[1:]) for e in entries]
        return self.patterns[id(entries)]

    def on(self, x: int, y: int, bits: int) -> tuple[int, list[list[str]]]:
        """The bits of a tile that are known, and what is on. The last answer for each tile is kept: tests ask again."""
        if (x, y) not in self.last or self.last[x, y][0] != bits:
            known, found = 0, []
            for ones, zeros, what in self.of(x, y) if bits else []:
                if what[0].startswith("LC_"):
                    known |= ones
                elif bits & ones == ones and not bits & zeros and self.bits.tile_has_entry(x, y, [None] + what):
                    known |= ones
                    found.append(what)
            self.last[x, y] = (bits, known, found)
        return self.last[x, y][1:]


def tiles_of(bits: Any) -> dict[Tile, list[str]]:
    """The rows of bits of each tile."""
    return {**bits.io_tiles, **bits.logic_tiles, **bits.ramb_tiles, **bits.ramt_tiles}


class Switches:
    """Which switches and options of the tiles are on. A bit that is 1 and means nothing known is refused."""

    def __init__(self, bits: Any, chip: Chip):
        self.bits, self.chip = bits, chip
        self.drivers: dict[Segment, list[Segment]] = {}
        self.options: dict[Tile, set[str]] = {}
        for (x, y), rows in tiles_of(bits).items():
            self.options[x, y] = set()
            self.tile(x, y, sum(int(row[::-1], 2) << (WIDTH * k) for k, row in enumerate(rows)))
        self.network_pads = self.extra()

    def tile(self, x: int, y: int, bits: int) -> None:
        """Reads one tile."""
        known, found = self.chip.on(x, y, bits)
        for what in found:
            self.on(x, y, what)
        rest = bits & ~known
        if rest:
            at = (rest & -rest).bit_length() - 1
            raise Unknown("tile %d %d: bit %d of row %d is 1 in no known pattern" % (x, y, at % WIDTH, at // WIDTH))
        odd = {o for o in self.options[x, y] if not OPTIONS.match(o)}
        if odd:
            raise Unknown("tile %d %d has %s" % (x, y, sorted(odd)))

    def on(self, x: int, y: int, what: list[str]) -> None:
        """Notes a switch or an option that is on."""
        if what[0] in ("buffer", "routing"):
            wire = self.chip.wire((x, y, what[2])).name
            self.drivers.setdefault(wire, []).append((x, y, what[1]))
        else:
            self.options[x, y].add(".".join(what))

    def extra(self) -> dict[int, tuple[int, int, int]]:
        """The pads that drive clock networks by themselves."""
        found = {}
        for bit in self.bits.extra_bits:
            what = self.bits.lookup_extra_bit(bit)
            if what[0] != "padin_glb_netwk":
                raise Unknown("extra bit %s" % (bit,))
            found[int(what[1])] = self.bits.padin_pio_db()[int(what[1])]
        return found

    def pad_type(self, x: int, y: int, z: int) -> str:
        """A pad's PIN_TYPE."""
        return "".join("01"["IOB_%d.PINTYPE_%d" % (z, i) in self.options[x, y]] for i in range(5, -1, -1))


class Follower:
    """Follows wires back from the output pads. Nets are the places of what drives them, as nextpnr writes them."""

    def __init__(self, bits: Any, chip: Chip):
        self.bits, self.chip, self.switches = bits, chip, Switches(bits, chip)
        self.device = Device()
        self.cells: dict[str, Optional[Cell]] = {}
        self.todo: list[tuple[str, int, int, int]] = []

    def run(self) -> Device:
        """The design that the bits make."""
        for x, y in sorted(self.bits.io_tiles):
            for z in (0, 1):
                self.pad(x, y, z)
        while self.todo:
            self.take(*self.todo.pop())
        self.device.cells = [cell for cell in self.cells.values() if cell]
        return self.device

    def pad(self, x: int, y: int, z: int) -> None:
        """Takes a pad, if it is an output."""
        kind, where = self.switches.pad_type(x, y, z), "X%d/Y%d/io%d" % (x, y, z)
        if kind == OUTPUT:
            self.device.outputs[where] = self.source((x, y, "io_%d/D_OUT_0" % z), (where, 0))
        elif kind not in (INPUT, UNUSED):
            raise Unknown("pad %d %d %d has type %s" % (x, y, z, kind))

    def input_pad(self, x: int, y: int, z: int) -> Net:
        """The net of an input pad."""
        ex, ey, ez = self.chip.enable.get((x, y, z), (x, y, z))
        reads = ("IoCtrl.IE_%d" % ez in self.switches.options[ex, ey]) == (self.bits.device == "8k")
        kind = self.switches.pad_type(x, y, z)
        if kind != INPUT or not reads:
            raise Unknown("pad %d %d %d is read, with type %s" % (x, y, z, kind))
        return "X%d/Y%d/io%d" % (x, y, z)

    def drivers(self, wire: Wire) -> list[tuple[Segment, bool]]:
        """What drives a wire, each with whether it is a switch."""
        found = [(s, False) for s in wire.own] + [(s, True) for s in self.switches.drivers.get(wire.name, [])]
        if wire.network is not None:
            found += [((x, y, "fabout"), True) for x, y, n in self.bits.gbufin_db()
                      if n == wire.network and self.chip.wire((x, y, "fabout")).name in self.switches.drivers]
            pad = self.switches.network_pads.get(wire.network)
            found += [((pad[0], pad[1], "io_%d/D_IN_0" % pad[2]), False)] if pad else []
        return found

    def source(self, segment: Segment, sink: Sink) -> Optional[Net]:
        """The net that drives what a tile knows by this name, or None. Wires on the way are noted for `sink`."""
        first = True
        while True:
            wire = self.chip.wire(segment)
            self.device.wires.setdefault(wire.name, set()).add(sink)
            drivers = self.drivers(wire)
            if len(drivers) > 1:
                raise Unknown("wire %d %d %s has %d drivers" % (*segment, len(drivers)))
            if not drivers and first:
                return None
            if not drivers:
                raise Unknown("wire %d %d %s is read, and nothing drives it" % segment)
            segment, is_switch = drivers[0]
            if not is_switch:
                return self.end(segment)
            self.check_column(segment)
            first = False

    def end(self, segment: Segment) -> Net:
        """The net of a cell or a pad that drives a wire."""
        x, y, name = segment
        if name.startswith("lutff_") and name.endswith("/out"):
            return self.cell(x, y, int(name[6]))
        if re.match(r"io_\d/D_IN_0", name):
            return self.input_pad(x, y, int(name[3]))
        raise Unknown("wire %d %d %s is read" % segment)

    def check_column(self, segment: Segment) -> None:
        """A clock network reaches a tile only through its column buffer."""
        x, y, name = segment
        if name.startswith("glb_netwk_") and "ColBufCtrl." + name not in self.switches.options[self.chip.column[x, y]]:
            raise Unknown("tile %d %d reads %s, and its column buffer is off" % segment)

    def cell(self, x: int, y: int, k: int) -> Net:
        """The net of a logic cell, which is read later."""
        where = "X%d/Y%d/lc%d" % (x, y, k)
        if where not in self.cells:
            self.cells[where] = None
            self.todo.append((where, x, y, k))
        return where

    def take(self, where: str, x: int, y: int, k: int) -> None:
        """Reads a logic cell: its table, its pins, its register."""
        tile = self.bits.tile(x, y)
        _, has_register, to_one, at_once = (b == "1" for b in icebox.get_lutff_seq_bits(tile, k))
        register = None
        if has_register:
            clock, enabled, reset = (self.source((x, y, "lutff_global/" + w), (where, w)) for w in ("clk", "cen", "s_r"))
            if clock is None or at_once and reset is not None:
                raise Unknown(where + " has no clock, or an asynchronous reset")
            register = Register(clock, icebox.get_negclk_bit(tile) == "1", enabled, reset, to_one)
        table = int("".join(icebox.get_lutff_lut_bits(tile, k))[::-1], 2)
        pins = [self.source((x, y, "lutff_%d/in_%d" % (k, i)), (where, i)) for i in range(4)]
        self.cells[where] = Cell(where, pins, table, where, register)


def read_bits(bits: Any, chip: Chip) -> Device:
    """The design that the bits make."""
    return Follower(bits, chip).run()


def pass_through(device: Device, placed: Device) -> dict[Net, Net]:
    """Cells that only hand a net on, and that PLACED has not: wiring that nextpnr made of them."""
    places = {c.where for c in placed.cells}
    through = {c.where: c.passes() for c in device.cells if c.where not in places and not c.register}
    return {where: net for where, net in through.items() if net is not None}


def fit(device: Device, placed: Device) -> None:
    """Takes pass-through cells for wiring. Outputs get the names of their ports, and each input port its net."""
    through = pass_through(device, placed)

    def end(net: Net) -> Net:
        for _ in through:
            if net not in through:
                break
            net = through[net]
        return net

    def maybe(net: Optional[Net]) -> Optional[Net]:
        return None if net is None else end(net)

    device.cells = [c for c in device.cells if c.where not in through]
    for c in device.cells:
        c.pins = [maybe(p) for p in c.pins]
        if c.register:
            r = c.register
            c.register = r._replace(clock=end(r.clock), enable=maybe(r.enable), reset=maybe(r.reset))
    device.outputs = {placed.pads.get(where, "pad " + where): maybe(net) for where, net in device.outputs.items()}
    device.inputs = {port: where for where, port in placed.pads.items() if port in placed.inputs}


def hints(placed: Device, hard: Netlist) -> dict[Net, str]:
    """Names of HARD for places, as far as PLACED tells."""
    found = find_names(placed, hard)
    names: dict[Net, str] = {c.where: found[c.out] for c in placed.cells if c.out in found}
    names.update((where, port) for where, port in placed.pads.items() if port in placed.inputs)
    return names


def load_bits(path: str) -> Any:
    """A bitstream, as icebox holds it."""
    bits = icebox.iceconfig()
    if not path.endswith(".bin"):
        bits.read_file(path)
        return bits
    with tempfile.NamedTemporaryFile(suffix=".asc") as text:
        done = subprocess.run(["iceunpack", path, text.name], capture_output=True, text=True)
        if done.returncode:
            raise Unknown("iceunpack: " + done.stderr.strip())
        bits.read_file(text.name)
    return bits


def main(words: list[str]) -> None:
    bits, placed, hard = load_bits(words[0]), read_placed(load(words[1])), Netlist(load(words[2]))
    design = read_bits(bits, Chip(bits))
    fit(design, placed)
    print(write_back(design, hard, hints(placed, hard)), end="")


if __name__ == "__main__":
    program(__doc__, 3, 3, main)
