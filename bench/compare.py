#!/usr/bin/env python3
"""Compares the processor time of `score check` with that of other programs that judge the same traces.

    compare.py crates/score/out/score                        with bench/plain
    compare.py --turns 25 AFTER BEFORE                       both with bench/plain
    compare.py --no-plain --only mixed BEFORE AFTER          the second with the first

Each turn runs all programs once on the trace, with one worker and at normal priority, so that all meet the same
machine. A row for each trace and program has its least and its median processor time, and both divided by those of the
first program, which is bench/plain where that is measured. It is built with cargo, and left out where there is none.

Stop everything else first. Where the ratio of the least times and that of the medians differ much, the machine was not
quiet: take more turns."""

from __future__ import annotations

import argparse
import os
import shutil
import statistics
import subprocess
import sys
import tempfile
from pathlib import Path
from typing import NamedTuple

from measure import run

HERE = Path(__file__).resolve().parent
PLAIN = HERE / "plain"
INVERTED = "--organisation1 inverted --organisation2 inverted"
# The name of each kind of trace, and how make_trace.py writes it.
TRACES = {
    "in order": "",
    "mixed": "--mixed",
    "by logs": "--log-by-log",
    "16 ports, 16 banks, inverted": f"--ports 16 --banks 16 {INVERTED}",
    "version 3, factor 4": "--version 3 --factor 4",
    "one bank has most": "--crowded 90",
    "most hit": "--footprint 64",
}


class Program(NamedTuple):
    name: str
    path: Path


def built_plain(folder: Path) -> list[Program]:
    """The plain program, where it can be built."""
    if not shutil.which("cargo"):
        return []
    words: list[str | Path] = ["cargo", "build", "--release", "--quiet"]
    words += ["--manifest-path", PLAIN / "Cargo.toml", "--target-dir", folder]
    subprocess.run(words, check=True)
    return [Program("plain", folder / "release" / "plain")]


def milliseconds(words: list[str]) -> float:
    """The processor time of one run, which must say yes."""
    ran = run(words)
    if ran.status:
        sys.exit(f"{' '.join(words)}: the status is {os.waitstatus_to_exitcode(ran.status)}, and not 0")
    return ran.processor * 1000


def written(options: str, events: int, folder: Path) -> tuple[Path, Path]:
    """The configuration and the trace that make_trace.py writes with these options."""
    config, trace = folder / "shape.toml", folder / "trace.lfts"
    words: list[str | Path] = [sys.executable, HERE / "make_trace.py", "--events", str(events)]
    words += ["--out", trace, "--config", config, *options.split()]
    subprocess.run(words, check=True, stdout=subprocess.DEVNULL)
    return config, trace


def rows(name: str, options: str, events: int, turns: int, programs: list[Program], folder: Path) -> None:
    """Runs the programs on the trace in turns, and prints a row for each."""
    config, trace = written(options, events, folder)
    times: dict[str, list[float]] = {program.name: [] for program in programs}
    for _ in range(turns):
        for program in programs:
            times[program.name].append(milliseconds([str(program.path), "check", str(config), str(trace)]))
    first = times[programs[0].name]
    for build, own in times.items():
        least, median = min(own), statistics.median(own)
        ratios = f"{least / min(first):.2f} | {median / statistics.median(first):.2f}"
        print(f"| {name} | {build} | {least:.0f} ms | {median:.0f} ms | {ratios} |", flush=True)


def main() -> None:
    parser = argparse.ArgumentParser(description=__doc__, formatter_class=argparse.RawDescriptionHelpFormatter)
    parser.add_argument("programs", nargs="+", type=Path, metavar="PROGRAM", help="a build of `score`")
    parser.add_argument("--turns", type=int, default=15, help="15 where nothing is said")
    parser.add_argument("--events", type=int, default=1_000_000, help="a million where nothing is said")
    parser.add_argument("--only", choices=TRACES, metavar="TRACE", help=f"one trace: {', '.join(TRACES)}")
    parser.add_argument("--no-plain", action="store_true", help="compare the programs with the first of them")
    words = parser.parse_args()
    builds = [Program(str(path), path.resolve()) for path in words.programs]
    chosen = [words.only] if words.only else list(TRACES)
    with tempfile.TemporaryDirectory() as work:
        folder = Path(work)
        programs = [*([] if words.no_plain else built_plain(folder / "target")), *builds]
        print("| Trace | Program | Least | Median | Least over first | Median over first |\n|---|---|---|---|---|---|")
        for name in chosen:
            rows(name, TRACES[name], words.events, words.turns, programs, folder)


if __name__ == "__main__":
    main()
