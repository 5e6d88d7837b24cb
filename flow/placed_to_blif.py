#!/usr/bin/env python3
"""placed_to_blif.py PLACED.json HARD.blif > BACK.blif

Turns a placed and routed iCE40 design (`nextpnr-ice40 --write PLACED.json`) back into BLIF, for
`tmr validate ORIG BACK.blif CERT`. What stands in BACK is what stands in PLACED; HARD is asked only for names and
spelling, as netlist.py says.

What is trusted: this script and netlist.py; that PLACED is what nextpnr writes into the bitstream (bitstream_to_blif.py
does without); the meaning of ICESTORM_LC, SB_IO and SB_GB below; that pads are wired to the ports of their names.
Everything that is not known here (carry, memories, PLLs, registered pads, asynchronous resets) ends the script
with status 2.
"""
from __future__ import annotations

import json
from typing import Any, Optional

from netlist import Cell, Device, Net, Netlist, Register, Unknown, find_names, load, program, write_back

TABLE_PINS = ("I0", "I1", "I2", "I3")


def is_on(cell: dict[str, Any], word: str) -> bool:
    """Whether a parameter of a cell is not 0."""
    return int(cell["parameters"].get(word, "0"), 2) != 0


def used_pins(cell: dict[str, Any]) -> set[str]:
    """The pins of a cell that are connected."""
    return {pin for pin, bits in cell["connections"].items() if bits}


def one_module(text: str) -> dict[str, Any]:
    """The one module of what nextpnr wrote."""
    modules = list(json.loads(text)["modules"].values())
    if len(modules) != 1:
        raise Unknown("%d modules, not one: is it what `nextpnr-ice40 --write` wrote?" % len(modules))
    return modules[0]


class Placed:
    """Reads the cells of a placed module."""

    def __init__(self, module: dict[str, Any]):
        self.device = Device()
        self.alias: dict[Net, Net] = {}
        self.ports: dict[Net, str] = {}
        for cell in module["cells"].values():
            if cell["type"] == "SB_GB":
                self.alias[cell["connections"]["GLOBAL_BUFFER_OUTPUT"][0]] = \
                    cell["connections"]["USER_SIGNAL_TO_GLOBAL_BUFFER"][0]
        for name, port in module["ports"].items():
            for i, bit in enumerate(port["bits"]):
                self.ports[bit] = name if len(port["bits"]) == 1 else "%s[%d]" % (name, i)
        for name, cell in module["cells"].items():
            self.take(name, cell)

    def net(self, cell: dict[str, Any], pin: str) -> Optional[Net]:
        """The net at a pin, taken through clock buffers."""
        bits = cell["connections"].get(pin, [])
        return self.alias.get(bits[0], bits[0]) if bits else None

    def take(self, name: str, cell: dict[str, Any]) -> None:
        """Takes one cell of the device."""
        where = cell["attributes"].get("NEXTPNR_BEL", name)
        if cell["type"] == "ICESTORM_LC":
            self.logic(name, where, cell)
        elif cell["type"] == "SB_IO":
            self.pad(where, cell)
        elif cell["type"] != "SB_GB":
            raise Unknown("%s is a %s" % (name, cell["type"]))

    def logic(self, name: str, where: str, cell: dict[str, Any]) -> None:
        """Takes a table, and the register behind it."""
        if used_pins(cell) & {"CIN", "COUT", "LO"} or is_on(cell, "CARRY_ENABLE"):
            raise Unknown(name + " uses the carry chain")
        register = self.register(name, cell) if is_on(cell, "DFF_ENABLE") else None
        out = self.net(cell, "O")
        if out is not None:
            pins, bits = [self.net(cell, pin) for pin in TABLE_PINS], cell["parameters"]["LUT_INIT"]
            if set(bits) - {"0", "1"}:
                raise Unknown("%s has a table %s: yosys reads a table without rows so" % (name, bits))
            self.device.cells.append(Cell(where, pins, int(bits, 2), out, register))

    def register(self, name: str, cell: dict[str, Any]) -> Register:
        """The register of a cell. It starts at 0, as all of this device do."""
        clock, reset = self.net(cell, "CLK"), self.net(cell, "SR")
        if clock is None or is_on(cell, "ASYNC_SR") and reset is not None:
            raise Unknown(name + " has no clock, or an asynchronous reset")
        return Register(clock, is_on(cell, "NEG_CLK"), self.net(cell, "CEN"), reset, is_on(cell, "SET_NORESET"))

    def pad(self, where: str, cell: dict[str, Any]) -> None:
        """Takes a plain input pad or a plain output pad."""
        used, kind = used_pins(cell), cell["parameters"]["PIN_TYPE"][-6:]
        bit = self.net(cell, "PACKAGE_PIN")
        if bit not in self.ports:
            raise Unknown("pad %s is no port" % where)
        port = self.ports[bit]
        self.device.pads[where] = port
        if kind == "000001" and used == {"PACKAGE_PIN", "D_IN_0"}:
            self.device.inputs[port] = cell["connections"]["D_IN_0"][0]
        elif kind == "011001" and used <= {"PACKAGE_PIN", "D_OUT_0"}:
            self.device.outputs[port] = self.net(cell, "D_OUT_0")
        elif kind != "000001" or used != {"PACKAGE_PIN"}:
            raise Unknown("pad %s has type %s with %s" % (port, kind, sorted(used)))


def read_placed(text: str) -> Device:
    """The design of a file that nextpnr wrote."""
    return Placed(one_module(text)).device


def main(words: list[str]) -> None:
    placed, hard = read_placed(load(words[0])), Netlist(load(words[1]))
    print(write_back(placed, hard, find_names(placed, hard)), end="")


if __name__ == "__main__":
    program(__doc__, 2, 2, main)
