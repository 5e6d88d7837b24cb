#!/usr/bin/env python3
"""edits.py TMR ORIG HARD CERT PLACED COUNT SEED

Makes COUNT single edits of a placed design of each of eight kinds, turns each back and has it validated. Prints how
often each answer came. What is accepted must be the same netlist, byte for byte: `OTHER NETLIST` would be a find, and
makes the status 1.

A test: nothing here has to be trusted for masking.
"""
from __future__ import annotations

import collections
import json
import random
import re
import subprocess
import tempfile
from typing import Any, Callable, Optional

from netlist import Netlist, Unknown, find_names, load, program, write_back
from placed_to_blif import TABLE_PINS, Placed, one_module

CellText = dict[str, Any]
FOUND = "OTHER NETLIST"


class Judge:
    """Has netlists validated against one original and one certificate."""

    def __init__(self, tmr: str, orig: str, cert: str):
        self.tmr, self.orig, self.cert = tmr, orig, cert
        self.scratch = tempfile.NamedTemporaryFile(mode="w", suffix=".blif")

    def answer(self, text: str) -> str:
        """What `tmr validate` prints, or that it ended without a word."""
        self.scratch.seek(0)
        self.scratch.truncate()
        self.scratch.write(text)
        self.scratch.flush()
        done = subprocess.run([self.tmr, "validate", self.orig, self.scratch.name, self.cert], capture_output=True, text=True)
        said = (done.stdout + done.stderr).strip()
        if done.returncode not in (0, 1, 4) or (done.returncode == 0) != said.startswith("accepted"):
            raise SystemExit("validate ended with status %d: %s" % (done.returncode, said))
        return said

    def told(self, text: str, base: str) -> str:
        """The answer without the names and numbers that differ from case to case."""
        said = self.answer(text)
        if said.startswith("accepted"):
            return "accepted, " + ("the same netlist" if text == base else FOUND)
        said = re.sub(r"line \d+: ", "", re.sub(r"refused \S+: ", "refused: ", said))
        return re.sub(r" at .*| \S*~\S*| net\$\S*", "", said)


class Edits:
    """The eight kinds of edits, on the cells of one module."""

    def __init__(self, module: CellText, names: dict[Any, str]):
        self.names, self.nets = names, {name: net for net, name in names.items()}
        self.cells = [c for c in module["cells"].values() if c["type"] == "ICESTORM_LC"]
        self.pads = [c for c in module["cells"].values() if c["type"] == "SB_IO"]

    def used_pin(self, cell: CellText) -> Optional[str]:
        pins = [p for p in TABLE_PINS if cell["connections"][p]]
        return random.choice(pins) if pins else None

    def table(self) -> None:
        """a bit of a table"""
        words = random.choice(self.cells)["parameters"]
        i, bits = random.randrange(16), words["LUT_INIT"]
        words["LUT_INIT"] = bits[:i] + "10"[int(bits[i])] + bits[i + 1:]

    def other_net(self) -> None:
        """a pin moved to another cell's net"""
        cell = random.choice(self.cells)
        cell["connections"][self.used_pin(cell) or "I0"] = random.choice(self.cells)["connections"]["O"]

    def other_copy(self) -> None:
        """a pin moved to another copy of its net"""
        while True:
            cell = random.choice(self.cells)
            pin = self.used_pin(cell)
            name = self.names.get(cell["connections"][pin][0]) if pin else None
            if name and re.search(r"~[012abc]$", name):
                others = [name[:-1] + c for c in ("012" if name[-1] in "012" else "abc") if c != name[-1]]
                cell["connections"][pin] = [self.nets[random.choice(others)]]
                return

    def cut_off(self) -> None:
        """a pin cut off"""
        cell = random.choice(self.cells)
        cell["connections"][self.used_pin(cell) or "I0"] = []

    def edge(self) -> None:
        """a register's edge"""
        random.choice([c for c in self.cells if c["parameters"]["DFF_ENABLE"] == "1"])["parameters"]["NEG_CLK"] = "1"

    def register(self) -> None:
        """a register left out or put in"""
        cell = random.choice(self.cells)
        clock = next(c["connections"]["CLK"] for c in self.cells if c["connections"]["CLK"])
        cell["parameters"]["DFF_ENABLE"] = "10"[int(cell["parameters"]["DFF_ENABLE"])]
        cell["connections"]["CLK"] = clock

    def outputs(self) -> None:
        """two cells' outputs exchanged"""
        a, b = (c["connections"] for c in random.sample(self.cells, 2))
        a["O"], b["O"] = b["O"], a["O"]

    def ports(self) -> None:
        """two ports' pads exchanged"""
        kind = random.choice([p["parameters"]["PIN_TYPE"] for p in self.pads])
        same = [p for p in self.pads if p["parameters"]["PIN_TYPE"] == kind]
        a, b = (p["connections"] for p in random.sample(same, 2))
        a["PACKAGE_PIN"], b["PACKAGE_PIN"] = b["PACKAGE_PIN"], a["PACKAGE_PIN"]


KINDS: list[Callable[[Edits], None]] = [Edits.table, Edits.other_net, Edits.other_copy, Edits.cut_off, Edits.edge,
                                        Edits.register, Edits.outputs, Edits.ports]


def show(seen: collections.Counter[str], heading: str) -> int:
    """Prints how often each answer came. The number of finds."""
    for answer, times in seen.most_common():
        print("%-40s %5d %s" % (heading, times, answer))
    return sum(times for answer, times in seen.items() if FOUND in answer)


def main(words: list[str]) -> int:
    judge, hard, text = Judge(words[0], words[1], words[3]), Netlist(load(words[2])), load(words[4])
    random.seed(int(words[6]))

    def back(module: CellText) -> str:
        device = Placed(module).device
        return write_back(device, hard, find_names(device, hard))

    module = one_module(text)
    base, names = back(module), find_names(Placed(module).device, hard)
    print("as it is:", judge.answer(base))
    finds = 0
    for kind in KINDS:
        seen: collections.Counter[str] = collections.Counter()
        for _ in range(int(words[5])):
            module = one_module(text)
            kind(Edits(module, names))
            try:
                seen[judge.told(back(module), base)] += 1
            except Unknown as why:
                seen["not read: %s" % why] += 1
        finds += show(seen, kind.__doc__ or "")
    return 1 if finds else 0


if __name__ == "__main__":
    program(__doc__, 7, 7, main)
