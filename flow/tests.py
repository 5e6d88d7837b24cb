#!/usr/bin/env python3
"""tests.py

The scripts' own tests: small netlists and devices, with results that are written by hand. The last line tells how many
passed. `tests/flow` runs these, and the scripts on a whole design with yosys, nextpnr and icestorm.
"""
from __future__ import annotations

import contextlib
import io
import json
import sys
from typing import Any, Callable, Optional

import constants
import costs
import edits
import mapped_to_blif
import netlist
import regions
from netlist import Cell, Copies, Device, Netlist, Register, Unknown, find_names, write_back
from placed_to_blif import read_placed

Pins = dict[str, Any]

HARD_AND = """.model m
.inputs a~0 a~1 a~2 b~0 b~1 b~2
.outputs y~0 y~1 y~2
.names a~0 b~0 y~0
11 1
.names a~1 b~1 y~1
11 1
.names a~2 b~2 y~2
11 1
.end
"""

HARD_REGISTER = """.model m
.inputs d e clk
.outputs q
.names d e n
10 1
.latch n q re clk 0
.end
"""

HARD_ALONE = """.model m
.inputs d clk
.outputs q
.latch d q re clk 0
.end
"""


def pad(port: int, kind: str, pin: str, net: int) -> Pins:
    """A pad of nextpnr's."""
    return {"type": "SB_IO", "parameters": {"PIN_TYPE": kind}, "attributes": {"NEXTPNR_BEL": "X0/Y%d/io0" % port},
            "connections": {"PACKAGE_PIN": [port], pin: [net]}}


def logic(where: str, table: str, pins: list[Optional[int]], out: int, **more: Any) -> Pins:
    """A logic cell of nextpnr's. `more` has parameters, and other pins as lists."""
    parameters = {"LUT_INIT": table, "DFF_ENABLE": "0", "CARRY_ENABLE": "0", "NEG_CLK": "0", "ASYNC_SR": "0"}
    parameters.update({k: v for k, v in more.items() if isinstance(v, str)})
    wired: Pins = {"I%d" % i: [] if net is None else [net] for i, net in enumerate(pins)}
    wired.update({"O": [out], **{k: v for k, v in more.items() if isinstance(v, list)}})
    return {"type": "ICESTORM_LC", "parameters": parameters, "attributes": {"NEXTPNR_BEL": where}, "connections": wired}


def placed(inputs: dict[str, int], outputs: dict[str, int], cells: list[Pins]) -> str:
    """What nextpnr writes. The pad of a port whose net is n has the bit 100 + n."""
    pads = [pad(100 + n, "000001", "D_IN_0", n) for n in inputs.values()]
    pads += [pad(200 + i, "011001", "D_OUT_0", n) for i, n in enumerate(outputs.values())]
    ports = {name: {"bits": [100 + n]} for name, n in inputs.items()}
    ports.update({name: {"bits": [200 + i]} for i, name in enumerate(outputs)})
    return json.dumps({"modules": {"m": {"ports": ports, "cells": {"c%d" % i: c for i, c in enumerate(pads + cells)}}}})


def back(text: str, hard: str) -> str:
    """A placed design as BLIF."""
    device, design = read_placed(text), Netlist(hard)
    with contextlib.redirect_stderr(io.StringIO()):
        return write_back(device, design, find_names(device, design))


AND_INPUTS = {"a~0": 1, "a~1": 2, "a~2": 3, "b~0": 4, "b~1": 5, "b~2": 6}
AND = "0000000000001000"


def and_cells() -> list[Pins]:
    """The three copies of an AND gate. The pins of the second have changed places."""
    return [logic("X1/Y1/lc0", AND, [1, 4, None, None], 7), logic("X1/Y1/lc1", AND, [5, 2, None, None], 8),
            logic("X2/Y1/lc0", "0000000000100000", [3, None, 6, None], 9)]


def three(cells: list[Pins], first: int = 7, second: int = 8) -> str:
    """The three copies of an AND gate, placed."""
    return placed(AND_INPUTS, {"y~0": first, "y~1": second, "y~2": 9}, cells)


def reads_netlists() -> Any:
    design = Netlist(".model m # c\n.inputs a \\\n b\n.outputs y\n.names a b n\n0- 0\n.names n y\n1 1\n.names one\n1\n.end\n")
    values = [design.value("n", {"a": a, "b": "1"}) for a in "01"]
    return (design.inputs, values, design.buffers, design.constant, sorted(design.live()), design.root("y"))


def walks_and_writes() -> Any:
    return back(three(and_cells()), HARD_AND)


def changed_table() -> Any:
    cells = and_cells()
    cells[0]["parameters"]["LUT_INIT"] = "0000000000001110"
    return back(three(cells), HARD_AND).splitlines()[3:7]


def merged_copies() -> Any:
    return back(three(and_cells(), 7, 7), HARD_AND).splitlines()[2]


def exchanged_pads() -> Any:
    return back(three(and_cells(), 8, 7), HARD_AND).splitlines()[2:7]


def register(table: str, pins: list[Optional[int]], hard: str, **more: Any) -> str:
    cell = logic("X1/Y1/lc0", table, pins, 4, DFF_ENABLE="1", CLK=[3], **more)
    inputs = {"d": 1, "e": 2, "clk": 3} if "e" in Netlist(hard).inputs else {"d": 1, "clk": 3}
    return "\n".join(back(placed(inputs, {"q": 4}, [cell]), hard).splitlines()[3:-1])


def one_cell(kind: str, parameters: dict[str, str], **pins: Any) -> Pins:
    """A cell of yosys'."""
    return {"type": kind, "parameters": parameters, "connections": {k: [v] for k, v in pins.items()}}


def mapped(cells: list[Pins], hard: str) -> str:
    """A mapped design with inputs d (1), e (2), clk (3) and output q (5) as BLIF."""
    names = {"d": 1, "e": 2, "clk": 3}
    ports = {name: {"direction": "input", "bits": [n]} for name, n in names.items()}
    ports["q"] = {"direction": "output", "bits": [5]}
    module = {"ports": ports, "cells": {"c%d" % i: c for i, c in enumerate(cells)}}
    design, device = Netlist(hard), mapped_to_blif.read_mapped(json.dumps({"modules": {"m": module}}))
    with contextlib.redirect_stderr(io.StringIO()):
        return write_back(device, design, find_names(device, design))


ECP5_TABLE = one_cell("LUT4", {"INIT": "0010001000100010"}, A=1, B=2, C="0", D="0", Z=4)
ECP5_REGISTER = {"CEMUX": "1 ", "CLKMUX": "CLK", "GSR": "AUTO", "LSRMUX": "LSR", "REGSET": "RESET"}
XILINX_TABLE = one_cell("LUT2", {"INIT": "0010"}, I0=1, I1=2, O=4)


def ecp5(**more: str) -> list[Pins]:
    return [ECP5_TABLE, one_cell("TRELLIS_FF", {**ECP5_REGISTER, **more}, CLK=3, DI=4, Q=5, LSR="0")]


def xilinx(init: str, **more: Any) -> list[Pins]:
    return [XILINX_TABLE, one_cell("FDRE", {"INIT": init}, **{"C": 3, "CE": "1", "D": 4, "Q": 5, "R": "0", **more})]


def ice40_mapped() -> list[Pins]:
    return [one_cell("SB_LUT4", {"LUT_INIT": "0000000000000010"}, I0=1, I1=2, I2="0", I3="0", O=4),
            one_cell("SB_DFF", {}, C=3, D=4, Q=5)]


AND_CERT = "tmr-cert 1\nparts 1\npart 0 depth 0\nnode y 0 y~0 y~1 y~2 0 0 0\nend\n"


def bands(text: str) -> Any:
    design = regions.Design(read_placed(three(and_cells())), Netlist(HARD_AND), Copies(AND_CERT))
    return design.outside(regions.bands_of(text))


def where_copies_lie() -> Any:
    return regions.Design(read_placed(three(and_cells())), Netlist(HARD_AND), Copies(AND_CERT)).told()


def with_pins(text: str) -> Any:
    return constants.with_pins(Netlist(text))


CONSTANTS = """.model m
.inputs clk a
.outputs q y
.names one
1
.names zero
.names a zero y
.latch one q re clk 1
.end
"""
CONSTANTS_WITH_PINS = """.model m
.inputs clk a
.outputs q y
.names a one
0 1
1 1
.names a zero
0 0
1 0
.names a zero y
-- 0
.latch one q re clk 1
.end
"""
LOG = """Info: \t         ICESTORM_LC:  1451/ 7680    18%
Info: Max frequency for clock 'clk': 80.00 MHz (PASS at 12.00 MHz)
Info: Max frequency for clock 'clk': 76.50 MHz (PASS at 12.00 MHz)
"""


def two_drivers() -> Any:
    device = Device()
    device.cells = [Cell("c0", [], 0, 7, None), Cell("c1", [], 1, 7, None)]
    return write_back(device, Netlist(HARD_AND), {})


def copies_of() -> Any:
    copies = Copies(AND_CERT + "voter n~a n 3 0\n")
    return (copies.part, copies.copy, copies.voters)


REGISTER_ROWS = ".names d e n\n10 1\n.latch n q re clk 0"
CASES: list[tuple[str, Callable[[], Any], Any]] = [
    ("a netlist is read", reads_netlists,
     (["a", "b"], [False, True], {"y": "n"}, {"one": "1"}, ["a", "b", "n", "y"], "n")),
    ("a certificate is read", copies_of,
     ({"y~0": "0", "y~1": "0", "y~2": "0", "n~a": "3"}, {"y~0": 0, "y~1": 1, "y~2": 2, "n~a": 0}, {"n~a"})),
    ("placed copies come back, with pins that changed places", walks_and_writes, HARD_AND),
    ("a changed table is written as it is", changed_table,
     [".names a~0 b~0 y~0", "01 1", "10 1", "11 1"]),
    ("merged copies are one net", merged_copies, ".outputs y~0 y~0 y~2"),
    ("exchanged pads exchange what outputs read", exchanged_pads,
     [".outputs y~0 y~1 y~2", ".names b~1 a~1 y~0", "11 1", ".names a~0 b~0 y~1", "11 1"]),
    ("a register and the table before it", lambda: register("0000000000000010", [1, 2, None, None], HARD_REGISTER), REGISTER_ROWS),
    ("a register alone", lambda: register("0000000000000010", [1, None, None, None], HARD_ALONE), ".latch d q re clk 0"),
    ("a falling edge", lambda: register("0000000000000010", [1, None, None, None], HARD_ALONE, NEG_CLK="1"), ".latch d q fe clk 0"),
    ("an enable is a table", lambda: register("0000000000000010", [1, None, None, None], HARD_REGISTER.replace("10 1", "-1 1"), CEN=[2]),
     ".names d n\n1 1\n.latch q$next q re clk 0\n.names n q e q$next\n1-1 1\n-10 1"),
    ("an inverter before a register", lambda: register("0000000000000001", [1, None, None, None], HARD_ALONE),
     ".latch q$d q re clk 0\n.names d q$d\n0 1"),
    ("a start that is free stays free", lambda: register("0000000000000010", [1, None, None, None], HARD_ALONE.replace("clk 0", "clk 2")),
     ".latch d q re clk 2"),
    ("a start at 1 is not there", lambda: register("0000000000000010", [1, None, None, None], HARD_ALONE.replace("clk 0", "clk 1")),
     ".latch d q re clk 0"),
    ("ECP5 comes back", lambda: mapped(ecp5(), HARD_REGISTER), HARD_REGISTER),
    ("ECP5 starts at 1", lambda: mapped(ecp5(REGSET="SET"), HARD_REGISTER), HARD_REGISTER.replace("clk 0", "clk 1")),
    ("ECP5, falling edge", lambda: mapped(ecp5(CLKMUX="INV"), HARD_REGISTER), HARD_REGISTER.replace("re clk", "fe clk")),
    ("Xilinx comes back", lambda: mapped(xilinx("0"), HARD_REGISTER), HARD_REGISTER),
    ("Xilinx starts at 1", lambda: mapped(xilinx("1"), HARD_REGISTER), HARD_REGISTER.replace("clk 0", "clk 1")),
    ("iCE40, mapped, comes back", lambda: mapped(ice40_mapped(), HARD_REGISTER), HARD_REGISTER),
    ("constants get a pin", lambda: with_pins(CONSTANTS), CONSTANTS_WITH_PINS),
    ("cells keep their bands", lambda: bands("1-1,1-1,2-2"), []),
    ("a cell outside its band", lambda: bands("1-1,2-3,2-2"), ["copy 1 at X1/Y1/lc1"]),
    ("where copies lie", where_copies_lie,
     ["copy 0 in columns 1 to 1", "copy 1 in columns 1 to 1", "copy 2 in columns 2 to 2", "tiles with cells of one copy 1, of several 1",
      "tiles with registers of several copies of one partition 0", "cells of no copy 0"]),
    ("cells and frequency", lambda: costs.measured(LOG), costs.Placed(1451, 76.5)),
]
ONE = [logic("X1/Y1/lc0", AND, [1, 4, None, None], 7, CARRY_ENABLE="1")]
REFUSED: list[tuple[str, Callable[[], Any], str]] = [
    ("two models", lambda: Netlist(".model a\n.end\n.model b\n").model and Netlist(".model a\n.model b\n"), "no flat netlist"),
    ("a placed model", lambda: Netlist(".model a\n.subckt b x=y\n"), "no flat netlist of one model: .subckt b x=y"),
    ("two modules", lambda: read_placed('{"modules": {"a": {}, "b": {}}}'), "2 modules, not one"),
    ("a carry chain", lambda: read_placed(three(ONE)), "c9 uses the carry chain"),
    ("an undefined table", lambda: read_placed(three([logic("X1/Y1/lc0", "x" * 16, [None] * 4, 7)])), "c9 has a table xxxxxxxxxxxxxxxx"),
    ("an asynchronous reset", lambda: register(AND, [1, 2, None, None], HARD_REGISTER, SR=[2], ASYNC_SR="1"), "an asynchronous reset"),
    ("a memory", lambda: read_placed(three([{"type": "ICESTORM_RAM", "attributes": {}, "connections": {}}])), "c9 is a ICESTORM_RAM"),
    ("a registered pad", lambda: read_placed(three([]).replace("000001", "000000")), "has type 000000"),
    ("an output that is missing", lambda: back(placed(AND_INPUTS, {"y~0": 7}, and_cells()), HARD_AND), "output y~1 is not there"),
    ("a net that is driven twice", two_drivers, "a net is driven twice"),
    ("an enable that is not 1", lambda: mapped(xilinx("0", CE=2), HARD_REGISTER), "c1: pin CE is not tied to 1"),
    ("a start that is x", lambda: mapped(xilinx("x"), HARD_REGISTER), "c1 has INIT x"),
    ("a cell of another kind", lambda: mapped([one_cell("DSP48E1", {})], HARD_REGISTER), "c0 is a DSP48E1"),
    ("a pin that is x", lambda: mapped([one_cell("LUT1", {"INIT": "10"}, I0="x", O=5)], HARD_REGISTER), "c0 has ['x'] at pin I0"),
    ("a constant without a net to read", lambda: with_pins(".model m\n.outputs y\n.names y\n1\n.end\n"), "no input and no register"),
    ("bands that are none", lambda: regions.bands_of("1-2,3-4"), "no three bands of columns: 1-2,3-4"),
    ("a design that is not placed", lambda: regions.tile_of("c5"), "c5 is no place of a logic cell"),
]


def said(body: Callable[[], Any]) -> str:
    """The word that a refusal comes with."""
    try:
        return "not refused: %s" % (body(),)
    except Unknown as why:
        return str(why)


def main() -> int:
    failed = 0
    for name, body, want in CASES:
        got = body()
        if got.strip() != want.strip() if isinstance(got, str) else got != want:
            failed += 1
            print("flow/tests.py: %s:\n%s\nnot\n%s" % (name, got, want), file=sys.stderr)
    for name, body, part in REFUSED:
        got = said(body)
        if part not in got:
            failed += 1
            print("flow/tests.py: %s: %s" % (name, got), file=sys.stderr)
    print("%d passed, %d failed" % (len(CASES) + len(REFUSED) - failed, failed))
    return 1 if failed else 0


if __name__ == "__main__":
    sys.exit(main())
