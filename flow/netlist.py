"""What all scripts of this folder share: a hardened netlist, the cells of a device, and how cells are written as BLIF.

`write_back` writes what stands in a Device. HARD, the hardened netlist, is asked for names, for the lists of
ports, for the order of statements and pins, for the spelling of rows, and for nothing else:

- Each net gets a name, never two nets the same one. A wrong name can only make `tmr validate` refuse.
- A table is written as HARD spells it only where the cell's bits give the same value for all values of all the
  nets of both. Else it is written as the cell has it.
- A node of HARD that the device has not is added only if HARD has it as a constant, or as a table that hands one net
  on (yosys makes a wire of it), or if no output of HARD depends on it. Pins and ports are said to read it only where
  the device ties them to that constant or to that net.
- A cell that hands one net unchanged to its own register is written as the register alone, where HARD has that net
  as the register's. So an upset of such a cell counts as one of its register, one cycle later.
- A cell that nothing reads and that HARD has not is left out.
- A register starts at what the device starts it at. It is written as free where HARD has it free.

What is trusted: that these sentences hold of the lines below.
"""
from __future__ import annotations

import collections
import itertools
import re
import sys
from typing import Any, Callable, Iterable, NamedTuple, NoReturn, Optional, Union

Net = Union[int, str]


class Unknown(Exception):
    """The design has something that these scripts do not know."""


class Table(NamedTuple):
    """A table of a netlist: rows as BLIF spells them, each a list of words."""
    pins: list[str]
    rows: list[list[str]]


class Latch(NamedTuple):
    """A register of a netlist."""
    d: str
    edge: str
    clock: Optional[str]
    start: str


class Netlist:
    """A flat BLIF netlist with one model."""

    def __init__(self, text: str):
        self.model = ""
        self.inputs: list[str] = []
        self.outputs: list[str] = []
        self.order: list[str] = []
        self.tables: dict[str, Table] = {}
        self.registers: dict[str, Latch] = {}
        self._read(text)
        self.constant = {net: "01"[self.value(net, {})] for net, table in self.tables.items() if not table.pins}
        self.buffers = {net: table.pins[0] for net, table in self.tables.items() if self._hands_on(net)}

    def _read(self, text: str) -> None:
        rows: list[list[str]] = []
        for line in text.replace("\\\n", " ").splitlines():
            words = line.split("#")[0].split()
            if words[:1] == [".end"]:
                break
            if words and not words[0].startswith("."):
                rows.append(words)
            elif words:
                rows = self._statement(words)

    def _statement(self, words: list[str]) -> list[list[str]]:
        """Takes one statement, and gives the list that rows behind it go to."""
        rows: list[list[str]] = []
        if words[0] == ".model" and not self.model:
            self.model = words[1]
        elif words[0] == ".inputs":
            self.inputs += [w for w in words[1:] if w not in self.inputs]
        elif words[0] == ".outputs":
            self.outputs += words[1:]
        elif words[0] == ".names":
            self.tables[words[-1]] = Table(words[1:-1], rows)
            self.order.append(words[-1])
        elif words[0] == ".latch":
            edge, clock = (words[3], words[4]) if len(words) > 4 else ("re", None)
            self.registers[words[2]] = Latch(words[1], edge, clock, words[-1] if len(words) in (4, 6) else "3")
            self.order.append(words[2])
        else:
            raise Unknown("no flat netlist of one model: " + " ".join(words))
        return rows

    def _hands_on(self, net: str) -> bool:
        pins = self.tables[net].pins
        return len(pins) == 1 and all(self.value(net, {pins[0]: v}) == (v == "1") for v in "01")

    def value(self, net: str, given: dict[str, str]) -> bool:
        """What the table of a net gives for the values `given` of nets."""
        pins, rows = self.tables[net]
        on = any(all(m in ("-", given[p]) for m, p in zip(row[0], pins)) for row in rows) if pins else bool(rows)
        return on == (not rows or rows[0][-1] == "1")

    def pins(self, net: str) -> list[str]:
        """The pins of a net's table; none where it has no table."""
        return self.tables[net].pins if net in self.tables else []

    def sources(self, net: str) -> list[str]:
        """The nets that a net's table or register reads."""
        return [self.registers[net].d] if net in self.registers else self.pins(net)

    def root(self, net: str, kept: Iterable[str] = ()) -> str:
        """What a net is a copy of by tables that hand one net on, those of `kept` left out."""
        for _ in self.buffers:
            if net not in self.buffers or net in kept:
                break
            net = self.buffers[net]
        return net

    def live(self) -> set[str]:
        """The nets that some output depends on."""
        seen: set[str] = set()
        todo = list(self.outputs)
        while todo:
            net = todo.pop()
            if net not in seen:
                seen.add(net)
                todo += self.sources(net)
        return seen

    def text(self, net: str) -> list[str]:
        """The lines of a net's table or register."""
        if net in self.tables:
            pins, rows = self.tables[net]
            return [" ".join([".names"] + pins + [net])] + [" ".join(row) for row in rows]
        d, edge, clock, start = self.registers[net]
        return [" ".join(w for w in (".latch", d, net, clock and edge, clock, start) if w)]


class Copies:
    """What a certificate says of the nets of a hardened netlist: partition, copy, and which are voters."""

    def __init__(self, text: str):
        self.part: dict[str, str] = {}
        self.copy: dict[str, int] = {}
        self.voters: set[str] = set()
        for words in map(str.split, text.splitlines()):
            if words[:1] == ["node"]:
                for copy, net in enumerate(words[3:6]):
                    self.part[net], self.copy[net] = words[2], copy
            elif words[:1] == ["voter"]:
                self.part[words[1]], self.copy[words[1]] = words[3], int(words[4])
                self.voters.add(words[1])


class Register(NamedTuple):
    """The register of a cell. Enable gates reset; `to_one` says that reset sets it to 1."""
    clock: Net
    falling: bool = False
    enable: Optional[Net] = None
    reset: Optional[Net] = None
    to_one: bool = False
    start: str = "0"

    def controls(self) -> list[tuple[Net, str]]:
        """The nets that hold or set the register, each with the value that lets D through."""
        return [(n, v) for n, v in ((self.enable, "1"), (self.reset, "0")) if n is not None]


class Cell:
    """A logic cell: a table (a pin without net is 0), and a register behind it or none."""

    def __init__(self, where: str, pins: list[Optional[Net]], bits: int, out: Net, register: Optional[Register]):
        self.where, self.pins, self.bits, self.out, self.register = where, pins, bits, out, register

    def nets(self) -> list[Net]:
        """The nets at its pins, each once."""
        return list(dict.fromkeys(p for p in self.pins if p is not None))

    def reads(self) -> list[Net]:
        """All nets that the cell reads, but for the clock's edge."""
        held = [self.register.clock] + [n for n, _ in self.register.controls()] if self.register else []
        return self.nets() + held

    def value(self, given: dict[Net, str]) -> bool:
        """What the table gives for the values `given` of nets."""
        return self.bits >> sum((p is not None and given[p] == "1") << i for i, p in enumerate(self.pins)) & 1 == 1

    def rows(self, nets: Optional[list[Net]] = None) -> list[str]:
        """The values of its nets, in this order, for which the table gives 1."""
        nets = self.nets() if nets is None else nets
        return ["".join(bits) for bits in itertools.product("01", repeat=len(nets)) if self.value(dict(zip(nets, bits)))]

    def passes(self) -> Optional[Net]:
        """The net that the table hands on unchanged, or None."""
        rows, values = self.rows(), ["".join(v) for v in itertools.product("01", repeat=len(self.nets()))]
        return next((n for i, n in enumerate(self.nets()) if rows == [v for v in values if v[i] == "1"]), None)

    def constant(self) -> Optional[str]:
        """The value of a table that gives the same for all values of its pins, or None."""
        return {0: "0", 2 ** len(self.nets()): "1"}.get(len(self.rows()))


class Device:
    """What stands in a device: cells, the nets of the ports, and which port a pad is. An output without net is 0.

    `packed` says that a cell holds a register and the table before it, as placed cells do. `wires` is filled by the
    reader of bitstreams: for each wire the pins and pads that are reached through it.
    """

    def __init__(self, packed: bool = True):
        self.packed = packed
        self.cells: list[Cell] = []
        self.inputs: dict[str, Net] = {}
        self.outputs: dict[str, Optional[Net]] = {}
        self.pads: dict[str, str] = {}
        self.wires: dict[tuple[int, int, str], set[tuple[str, Any]]] = {}


class Walk:
    """Finds names of HARD for the nets of a device, by a walk in both at once, from the ports backwards. Hints only."""

    def __init__(self, device: Device, hard: Netlist):
        self.device, self.hard = device, hard
        self.names: dict[Net, str] = {}
        self.taken: set[str] = set()
        self.drivers = {c.out: c for c in device.cells}
        read = [hard.root(x) for y in hard.order if y not in hard.buffers for x in hard.sources(y)]
        counts = collections.Counter(read + [hard.root(x) for x in hard.outputs])
        self.once = {x for x, n in counts.items() if n == 1}
        self.todo: collections.deque[tuple[Optional[Net], str]] = collections.deque()
        self.todo.extend((net, port) for port, net in device.inputs.items())
        self.todo.extend((net, port) for port, net in device.outputs.items())

    def run(self) -> dict[Net, str]:
        while self.todo:
            net, name = self.todo.popleft()
            cell = self.drivers.get(net) if net is not None else None
            if cell is None or cell.register or cell.passes() is None:
                name = self.hard.root(name)
            if net is None or net in self.names or name in self.taken or name in self.hard.constant:
                continue
            self.names[net] = name
            self.taken.add(name)
            if cell is not None:
                self.behind(cell, name)
        return self.names

    def behind(self, cell: Cell, name: str) -> None:
        """Goes on to the nets that a cell of this name reads."""
        hard = self.hard
        if name in hard.registers and cell.register:
            name = hard.root(hard.registers[name].d)
            passed = cell.passes()
            own = self.device.packed and name in hard.tables and name in self.once
            if passed is not None and not own:
                self.todo.append((passed, name))
                return
        pins = [p for p in hard.pins(name) if hard.root(p) not in hard.constant]
        self.todo.extend(zip([p for p in cell.pins if p is not None], pins))


def find_names(device: Device, hard: Netlist) -> dict[Net, str]:
    """Names of HARD for nets of a device. Hints only."""
    return Walk(device, hard).run()


class Writer:
    """Writes what stands in a device as BLIF, by the rules at the head of this file."""

    def __init__(self, device: Device, hard: Netlist, names: dict[Net, str]):
        self.device, self.hard, self.names = device, hard, dict(names)
        self.lines: dict[str, list[str]] = {}
        self.kept = set(self.names.values())
        self.taken = self.kept | set(hard.constant)
        if len(self.taken) != len(self.names) + len(hard.constant):
            raise Unknown("two nets have one name")
        driven = [c.out for c in device.cells] + list(device.inputs.values())
        if len(driven) != len(set(driven)):
            raise Unknown("a net is driven twice")
        for port, net in device.inputs.items():
            if self.names.setdefault(net, port) != port:
                raise Unknown("input %s is taken for %s" % (port, self.names[net]))

    def root(self, name: str) -> str:
        """What a name is a copy of by tables that the device has not."""
        return self.hard.root(name, self.kept)

    def fresh(self, name: str) -> str:
        """A name that nothing has yet."""
        hard = self.hard
        while name in self.taken or name in hard.tables or name in hard.registers or name in hard.inputs:
            name += "$"
        self.taken.add(name)
        return name

    def of(self, net: Net) -> str:
        """The name of a net."""
        if net not in self.names:
            self.names[net] = self.fresh("net$" + "".join(c if c.isalnum() else "$" for c in str(net)))
        return self.names[net]

    def same(self, name: str, cell: Cell) -> bool:
        """Whether HARD's table of this name gives what the cell gives, for all values of the nets of both."""
        pins, nets = self.hard.pins(name), cell.nets()
        both = sorted({self.of(n) for n in nets} | {self.root(p) for p in pins})
        if name not in self.hard.tables or len(both) > 10:
            return False
        for values in itertools.product(*(self.hard.constant.get(b, "01") for b in both)):
            given = dict(zip(both, values))
            here = cell.value({n: given[self.of(n)] for n in nets})
            if here != self.hard.value(name, {p: given[self.root(p)] for p in pins}):
                return False
        return True

    def put_table(self, name: str, cell: Cell) -> None:
        """Writes a cell's table under a name."""
        if self.same(name, cell):
            self.lines[name] = self.hard.text(name)
            return
        pins = self.hard.pins(name)
        nets = sorted(cell.nets(), key=lambda n: pins.index(self.of(n)) if self.of(n) in pins else len(pins))
        head = " ".join([".names"] + [self.of(n) for n in nets] + [name])
        self.lines[name] = [head] + [(row + " 1").strip() for row in cell.rows(nets)]

    def data(self, name: str, cell: Cell) -> str:
        """What a register reads. A table before it in its cell is written."""
        latch, passed = self.hard.registers.get(name), cell.passes()
        end = self.root(latch.d) if latch else self.fresh(name + "$d")
        d = latch.d if latch else end
        if latch and passed is not None and (end == self.of(passed) or end in self.taken):
            return d if end == self.of(passed) else self.of(passed)
        if end in self.hard.constant and self.hard.constant[end] == cell.constant():
            return d
        if latch and end in self.taken:
            end = d = self.fresh(name + "$d")
        self.taken.add(end)
        self.put_table(end, cell)
        return d

    def gated(self, name: str, d: str, register: Register) -> str:
        """What a register with enable or reset takes in the next cycle, as a table before it."""
        controls = register.controls()
        if not controls:
            return d
        on = "".join(v for _, v in controls)
        rows = ["1-" + on + " 1"]
        if register.enable is not None:
            rows.append("-10" + "-" * (len(on) - 1) + " 1")
        if register.reset is not None and register.to_one:
            rows.append("--" + "1" * len(on) + " 1")
        following = self.fresh(name + "$next")
        head = " ".join([".names", d, name] + [self.of(n) for n, _ in controls] + [following])
        self.lines[following] = [head] + rows
        return following

    def put_register(self, name: str, cell: Cell, register: Register) -> None:
        """Writes a cell's register, and the tables before it."""
        d = self.gated(name, self.data(name, cell), register)
        free = name in self.hard.registers and self.hard.registers[name].start in "23"
        start = self.hard.registers[name].start if free else register.start
        edge = "fe" if register.falling else "re"
        self.lines[name] = [".latch %s %s %s %s %s" % (d, name, edge, self.of(register.clock), start)]

    def put_cells(self) -> None:
        """Writes all cells that something reads, or that HARD has."""
        read = {n for c in self.device.cells for n in c.reads()} | set(self.device.outputs.values())
        for cell in self.device.cells:
            if cell.out not in read and cell.out not in self.names:
                continue
            name = self.of(cell.out)
            if cell.register:
                self.put_register(name, cell, cell.register)
            else:
                self.put_table(name, cell)

    def add_left_out(self) -> None:
        """Adds what the device rightly has not: constants, tables that hand a net on, nodes that no output needs."""
        hard, live = self.hard, self.hard.live()
        for name in hard.order:
            if name not in self.lines and (name in hard.constant or name in hard.buffers or name not in live):
                self.lines[name] = hard.text(name)

    def outputs(self) -> list[str]:
        """The nets of the outputs, in the order of HARD. The names are HARD's where they mean the same net."""
        hard, device, found = self.hard, self.device, []
        zero = self.fresh("zero$")
        for port in hard.outputs + sorted(device.outputs.keys() - set(hard.outputs)):
            if port not in device.outputs:
                raise Unknown("output %s is not there" % port)
            net = device.outputs[port]
            name = self.of(net) if net is not None else zero
            same = self.root(port) == name or net is None and hard.constant.get(self.root(port)) == "0"
            found.append(port if same else name)
        if zero in found:
            self.lines[zero] = [".names " + zero]
        return found

    def text(self) -> str:
        """The netlist. What differs from HARD is counted on standard error."""
        hard = self.hard
        self.put_cells()
        own = list(self.lines)
        self.add_left_out()
        outputs = self.outputs()
        extra = [n for n in list(dict.fromkeys(own + list(self.lines))) if n not in hard.tables and n not in hard.registers]
        tell([n for n in hard.order if n not in self.lines], "nodes of HARD are not there")
        tell(extra, "tables and registers are none of HARD's")
        inputs = hard.inputs + [p for p in self.device.inputs if p not in hard.inputs]
        lines = [".model " + hard.model, ".inputs " + " ".join(inputs), ".outputs " + " ".join(outputs)]
        for name in [n for n in hard.order if n in self.lines] + extra:
            lines += self.lines[name]
        return "\n".join(lines + [".end", ""])


def tell(names: list[str], words: str) -> None:
    """Says on standard error how many names there are, and the first."""
    if names:
        print("%d %s, such as %s" % (len(names), words, names[0]), file=sys.stderr)


def write_back(device: Device, hard: Netlist, names: dict[Net, str]) -> str:
    """The text of what stands in the device. `names` gives hints for nets, all of them different."""
    return Writer(device, hard, names).text()


def load(path: str) -> str:
    """A file's text."""
    with open(path, encoding="utf-8") as file:
        return file.read()


def program(doc: Optional[str], least: int, most: int, body: Callable[[list[str]], Optional[int]]) -> NoReturn:
    """Runs a script: its text of use for a wrong number of words, and status 2 with a word for what is not known."""
    words = sys.argv[1:]
    if not least <= len(words) <= most:
        print(doc, file=sys.stderr)
        sys.exit(2)
    try:
        sys.exit(body(words) or 0)
    except Unknown as why:
        print("%s: %s" % (re.sub(r".*/|\.py$", "", sys.argv[0]), why), file=sys.stderr)
        sys.exit(2)
