#!/usr/bin/env python3
"""mapped_to_blif.py MAPPED.json HARD.blif > BACK.blif

Turns a design that yosys mapped to a device's cells (`write_json`) back into BLIF, for `tmr validate ORIG BACK.blif CERT`.
It reads the tables and registers of Lattice iCE40 (SB_LUT4, SB_DFF..), Lattice ECP5 (LUT4, TRELLIS_FF) and Xilinx (LUT1 to
LUT6, FDRE, FDSE). What stands in BACK is what stands in MAPPED; HARD is asked only for names and spelling, as netlist.py
says. What is done behind the mapping, by a placer and a router, is not seen.

What is trusted: this script and netlist.py, with the meaning of the cells below; that MAPPED is what the placer gets.
Whatever is not known here ends the script with status 2: other cells, two modules with logic, a pin that is x or z, a
register whose enable is not 1 or whose reset is not 0 (no recipe of this folder makes such).
"""
from __future__ import annotations

import json
import re
from typing import Any, Optional

from netlist import Cell, Device, Net, Netlist, Register, Unknown, find_names, load, program, write_back

CellText = dict[str, Any]


def number(name: str, cell: CellText, word: str, default: str) -> int:
    """A parameter of bits, as a number."""
    text = str(cell["parameters"].get(word, default)).strip()
    if not re.fullmatch("[01]+", text):
        raise Unknown("%s has %s %s" % (name, word, text))
    return int(text, 2)


def spelled(name: str, cell: CellText, word: str, values: dict[str, Any]) -> Any:
    """What the word of a parameter means. The first of `values` is meant where it is not there."""
    text = str(cell["parameters"].get(word, next(iter(values)))).strip()
    if text not in values:
        raise Unknown("%s has %s %s" % (name, word, text))
    return values[text]


class Mapped:
    """Reads the cells of a mapped module."""

    def __init__(self, module: CellText):
        self.device = Device(packed=False)
        for name, cell in module["cells"].items():
            self.take(name, cell)
        for name, port in module["ports"].items():
            for i, bit in enumerate(port["bits"]):
                self.port(name if len(port["bits"]) == 1 else "%s[%d]" % (name, i), port["direction"], bit)

    def port(self, port: str, direction: str, bit: Any) -> None:
        """Takes a port. An output that is 0 has no net."""
        if direction == "input":
            self.device.inputs[port] = bit
        elif direction == "output" and bit == "1":
            self.device.outputs[port] = self.one()
        elif direction == "output" and (bit == "0" or isinstance(bit, int)):
            self.device.outputs[port] = None if bit == "0" else bit
        else:
            raise Unknown("port %s is %s, with %s" % (port, direction, bit))

    def one(self) -> Net:
        """A net that is 1: one cell for all that read it."""
        if not any(c.out == "one" for c in self.device.cells):
            self.device.cells.append(Cell("one", [], 1, "one", None))
        return "one"

    def net(self, name: str, cell: CellText, pin: str) -> Optional[Net]:
        """The net at a pin; None for 0."""
        bits = cell["connections"].get(pin, [])
        if len(bits) != 1 or bits[0] not in ("0", "1") and not isinstance(bits[0], int):
            raise Unknown("%s has %s at pin %s" % (name, bits, pin))
        return None if bits[0] == "0" else self.one() if bits[0] == "1" else bits[0]

    def driven(self, name: str, cell: CellText, pin: str) -> Net:
        """The net at a pin that must have one."""
        net = self.net(name, cell, pin)
        if net is None or net == "one":
            raise Unknown("%s has a constant at pin %s" % (name, pin))
        return net

    def tied(self, name: str, cell: CellText, pins: dict[str, str]) -> None:
        """Pins that must be tied to these constants, or left out."""
        for pin, value in pins.items():
            if cell["connections"].get(pin, [value]) != [value]:
                raise Unknown("%s: pin %s is not tied to %s" % (name, pin, value))

    def take(self, name: str, cell: CellText) -> None:
        """Takes one cell."""
        kind = cell["type"]
        if kind == "SB_LUT4":
            self.table(name, cell, ["I0", "I1", "I2", "I3"], "LUT_INIT", "O")
        elif kind == "LUT4" and "A" in cell["connections"]:
            self.table(name, cell, ["A", "B", "C", "D"], "INIT", "Z")
        elif re.fullmatch("LUT[1-6]", kind):
            self.table(name, cell, ["I%d" % i for i in range(int(kind[3]))], "INIT", "O")
        elif kind in ("SB_DFF", "SB_DFFN"):
            self.register(name, cell, ("D", "Q", "C"), kind == "SB_DFFN", "0")
        elif kind == "TRELLIS_FF":
            self.trellis(name, cell)
        elif kind in ("FDRE", "FDSE"):
            self.xilinx(name, cell)
        else:
            raise Unknown("%s is a %s" % (name, kind))

    def table(self, name: str, cell: CellText, pins: list[str], word: str, out: str) -> None:
        """Takes a table."""
        nets = [self.net(name, cell, pin) for pin in pins]
        self.device.cells.append(Cell(name, nets, number(name, cell, word, "0"), self.driven(name, cell, out), None))

    def register(self, name: str, cell: CellText, pins: tuple[str, str, str], falling: bool, start: str) -> None:
        """Takes a register: the cell's table hands D on."""
        d, q, clock = pins
        register = Register(self.driven(name, cell, clock), falling, start=start)
        self.device.cells.append(Cell(name, [self.net(name, cell, d)], 2, self.driven(name, cell, q), register))

    def trellis(self, name: str, cell: CellText) -> None:
        """Takes a register of ECP5. It starts at what REGSET says."""
        self.tied(name, cell, {"LSR": "0", "CE": "1"})
        spelled(name, cell, "CEMUX", {"1": None, "CE": None})
        spelled(name, cell, "LSRMUX", {"LSR": None})
        spelled(name, cell, "GSR", {"AUTO": None, "DISABLED": None, "ENABLED": None})
        falling = spelled(name, cell, "CLKMUX", {"CLK": False, "INV": True})
        start = spelled(name, cell, "REGSET", {"RESET": "0", "SET": "1"})
        self.register(name, cell, ("DI", "Q", "CLK"), falling, start)

    def xilinx(self, name: str, cell: CellText) -> None:
        """Takes a register of Xilinx, with a set or a reset that is never used."""
        self.tied(name, cell, {"CE": "1", "R" if cell["type"] == "FDRE" else "S": "0"})
        for word in ("IS_D_INVERTED", "IS_R_INVERTED", "IS_S_INVERTED"):
            if number(name, cell, word, "0"):
                raise Unknown("%s has %s" % (name, word))
        start = number(name, cell, "INIT", "0" if cell["type"] == "FDRE" else "1")
        self.register(name, cell, ("D", "Q", "C"), number(name, cell, "IS_C_INVERTED", "0") == 1, "01"[start])


def read_mapped(text: str) -> Device:
    """The design of a file that yosys wrote: the one module that is no cell of a library."""
    modules = json.loads(text)["modules"]
    own = [m for m in modules.values() if m["cells"] and not set(m.get("attributes", {})) & {"blackbox", "whitebox"}]
    if len(own) != 1:
        raise Unknown("%d modules with cells, not one" % len(own))
    return Mapped(own[0]).device


def main(words: list[str]) -> None:
    mapped, hard = read_mapped(load(words[0])), Netlist(load(words[1]))
    print(write_back(mapped, hard, find_names(mapped, hard)), end="")


if __name__ == "__main__":
    program(__doc__, 2, 2, main)
