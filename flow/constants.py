#!/usr/bin/env python3
"""constants.py FLAT.blif > ORIG.blif

Gives each constant of a flat netlist a pin, so that each copy of it stays a table of its own: for a device whose
placer drives all constants of one value by one cell. `.names one` with the row `1` becomes `.names rx one` with the rows
`0 1` and `1 1`, where `rx` is the first input that is no clock, or else the first register. A constant 0 gets the rows
`0 0` and `1 0`. A table that has pins and no rows is 0 too, but yosys 0.23 reads it as undefined: it gets a row that says
0. All else stays as it is, in its order.

Run it as the last step before `tmr harden`: a tool that simplifies would take the pins off again. What it writes is
another original. A yes of `tmr validate` speaks of that one, so this script is trusted as the recipe before it is.
"""
from __future__ import annotations

from netlist import Netlist, Unknown, load, program


def pin_for_constants(design: Netlist) -> str:
    """A net that constants may read."""
    clocks = {latch.clock for latch in design.registers.values()}
    found = [name for name in design.inputs if name not in clocks] + list(design.registers)
    if not found:
        raise Unknown("no input and no register that a constant could read")
    return found[0]


def with_pins(design: Netlist) -> str:
    """The netlist, with a pin for each constant."""
    lines = [".model " + design.model, ".inputs " + " ".join(design.inputs), ".outputs " + " ".join(design.outputs)]
    pin = pin_for_constants(design) if design.constant else ""
    for net in design.order:
        if net in design.constant:
            value = design.constant[net]
            lines += [".names %s %s" % (pin, net), "0 " + value, "1 " + value]
        else:
            lines += design.text(net)
            if net in design.tables and not design.tables[net].rows:
                lines.append("-" * len(design.pins(net)) + " 0")
    return "\n".join(lines + [".end", ""])


def main(words: list[str]) -> None:
    print(with_pins(Netlist(load(words[0]))), end="")


if __name__ == "__main__":
    program(__doc__, 1, 1, main)
