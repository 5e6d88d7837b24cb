#!/usr/bin/env python3
"""costs.py TMR ORIG.blif DEVICE.ys [options]

Prints a table of what a hardened design costs on an iCE40 device: logic cells, and the clock frequency that
nextpnr tells after routing, as the mean of several seeds. The rows are the original, and each form of hardening
with and without `--depth 1`; the columns are sizes of partitions. TMR is the program, DEVICE.ys the recipe that
maps `hard.blif` to `hard.json`; the original goes through the same recipe.

Each placement is told on standard error as it ends. Options: `--sizes 16,64,256,100000`, `--forms plain,lean`,
`--depths none,1`, `--seeds 1,2,3`, `--device hx8k`, `--package ct256`, `--jobs 1`. A size of at least the design's nodes is
told as `all`.

It measures, and nothing here has to be trusted for masking.
"""
from __future__ import annotations

import argparse
import concurrent.futures
import pathlib
import re
import shutil
import subprocess
import sys
import tempfile
from typing import NamedTuple, Optional


class Failed(Exception):
    """A tool of the flow ended with an error."""


class Placed(NamedTuple):
    """Logic cells, and megahertz of the slowest clock."""
    cells: int
    frequency: float


class Work(NamedTuple):
    """One hardening to be placed: None as `words` stands for the original as it is."""
    words: Optional[tuple[str, ...]]
    seed: int


def run(words: list[str], folder: pathlib.Path) -> str:
    """What a tool prints; its failure ends the measurement."""
    done = subprocess.run(words, cwd=folder, capture_output=True, text=True)
    if done.returncode:
        raise Failed("%s: status %d: %s" % (" ".join(words), done.returncode, (done.stdout + done.stderr)[-300:]))
    return done.stdout + done.stderr


def measured(log: str) -> Placed:
    """What nextpnr's words say of cells and of the frequency after routing, which it tells last."""
    cells = re.findall(r"ICESTORM_LC:\s*(\d+)/", log)
    clocks = re.findall(r"Max frequency for clock\s+'([^']*)':\s*([0-9.]+) MHz", log)
    if not cells or not clocks:
        raise Failed("nextpnr tells no cells or no frequency")
    last = dict(clocks)
    return Placed(int(cells[-1]), min(map(float, last.values())))


def place(work: Work, args: argparse.Namespace) -> Placed:
    """Hardens, maps, places and routes once, in a folder of its own."""
    with tempfile.TemporaryDirectory() as name:
        folder = pathlib.Path(name)
        if work.words is None:
            shutil.copy(args.orig, folder / "hard.blif")
        else:
            run([args.tmr, "harden", args.orig, "hard.blif", "hard.cert", *work.words], folder)
        run(["yosys", "-q", "-s", args.recipe], folder)
        found = measured(run(["nextpnr-ice40", "--" + args.device, "--package", args.package, "--json", "hard.json",
                              "--asc", "hard.asc", "--seed", str(work.seed)], folder))
    print("seed %s %s: %d cells, %.1f MHz" % (work.seed, " ".join(work.words or ("original",)), *found), file=sys.stderr)
    return found


def hardening(form: str, size: str, depth: str) -> tuple[str, ...]:
    """The words of `tmr harden` for a form, a size and a bound on the depth."""
    words = ["--size", size]
    words += ["--depth", depth] if depth != "none" else []
    words += ["--form", form] if form != "plain" else []
    return tuple(words)


def mean(found: list[Placed]) -> str:
    """Cells, and the mean frequency: seeds place the same cells."""
    cells = sorted({p.cells for p in found})
    told = "{:,}".format(cells[0]) if len(cells) == 1 else "{:,}-{:,}".format(cells[0], cells[-1])
    return "%s, %.0f MHz" % (told, sum(p.frequency for p in found) / len(found))


def nodes(path: str) -> int:
    """How many tables and registers a flat netlist has."""
    with open(path) as text:
        return sum(line.startswith((".names", ".latch")) for line in text)


def table(args: argparse.Namespace) -> list[str]:
    """The lines of the table."""
    rows = [(form, depth) for form in args.forms for depth in args.depths]
    wanted = [None] + [hardening(form, size, depth) for form, depth in rows for size in args.sizes]
    works = [Work(words, seed) for words in wanted for seed in args.seeds]
    with concurrent.futures.ThreadPoolExecutor(args.jobs) as pool:
        found = dict(zip(works, pool.map(lambda work: place(work, args), works)))
    told = {words: mean([found[Work(words, seed)] for seed in args.seeds]) for words in wanted}
    count = nodes(args.orig)
    heads = ["all" if int(size) >= count else size for size in args.sizes]
    lines = ["| | " + " | ".join(heads) + " |", "|---" * (len(heads) + 1) + "|"]
    lines.append("| original | " + " | ".join([told[None]] + [""] * (len(heads) - 1)) + " |")
    for form, depth in rows:
        name = form if depth == "none" else "%s, `--depth %s`" % (form, depth)
        cells = [told[hardening(form, size, depth)] for size in args.sizes]
        lines.append("| %s | %s |" % (name, " | ".join(cells)))
    return lines


def arguments(words: list[str]) -> argparse.Namespace:
    """The command line."""
    parser = argparse.ArgumentParser(description="Cells and frequency of hardened designs on iCE40.")
    for name in ("tmr", "orig", "recipe"):
        parser.add_argument(name, type=lambda path: str(pathlib.Path(path).resolve()))
    for name, default in (("sizes", "16,64,256,100000"), ("forms", "plain,lean"), ("depths", "none,1"), ("seeds", "1,2,3")):
        parser.add_argument("--" + name, default=default.split(","), type=lambda text: text.split(","))
    parser.add_argument("--device", default="hx8k")
    parser.add_argument("--package", default="ct256")
    parser.add_argument("--jobs", default=1, type=int)
    return parser.parse_args(words)


if __name__ == "__main__":
    try:
        print("\n".join(table(arguments(sys.argv[1:]))))
    except Failed as why:
        print("costs: %s" % why, file=sys.stderr)
        sys.exit(2)
