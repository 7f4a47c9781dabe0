#!/usr/bin/env python3
"""Measures what several workers bring on the clock, at normal priority.

    workers.py PROGRAM [--turns N] [--only TRACE]

Each turn judges a trace with 1, 2 and 4 workers, and starts four runs with one worker each at the same time. A row for
each trace has the clock time of one worker, the others divided by it, and the processor time of 4 workers divided by
that of one, each as the ratio of the least times and as that of the medians. "Four runs" is 1 on four free processors.
Stop everything else first."""

from __future__ import annotations

import argparse
import statistics
import sys
import tempfile
from pathlib import Path
from typing import Sequence

from compare import TRACES, written
from measure import Run, run, run_at_once

WORKERS = (1, 2, 4)


def ratios(times: Sequence[float], others: Sequence[float]) -> str:
    """The least of the times over that of the others, and the median over theirs."""
    least, median = min(times) / min(others), statistics.median(times) / statistics.median(others)
    return f"{least:.2f}, {median:.2f}"


def row(name: str, program: Path, events: int, turns: int, folder: Path) -> str:
    """Judges the trace in turns, and makes the row of it."""
    config, trace = written(TRACES[name], events, folder)
    check = [str(program), "check", str(config), str(trace)]
    runs: dict[int, list[Run]] = {workers: [] for workers in WORKERS}
    at_once = []
    for _ in range(turns):
        for workers in WORKERS:
            runs[workers].append(run([*check, "--workers", str(workers)]))
        at_once.append(run_at_once(check))
    if any(one.status for own in runs.values() for one in own):
        sys.exit(f"{name}: the answer is not yes")
    clocks = {workers: [one.clock for one in own] for workers, own in runs.items()}
    processor = {workers: [one.processor for one in own] for workers, own in runs.items()}
    first = f"{min(clocks[1]) * 1000:.0f} ms, {statistics.median(clocks[1]) * 1000:.0f} ms"
    cells = [name, first, ratios(clocks[2], clocks[1]), ratios(clocks[4], clocks[1])]
    cells += [ratios(processor[4], processor[1]), ratios(at_once, clocks[1])]
    return f"| {' | '.join(cells)} |"


def main() -> None:
    parser = argparse.ArgumentParser(description=__doc__, formatter_class=argparse.RawDescriptionHelpFormatter)
    parser.add_argument("program", type=Path, metavar="PROGRAM", help="a build of `score`")
    parser.add_argument("--turns", type=int, default=15, help="15 where nothing is said")
    parser.add_argument("--events", type=int, default=1_000_000, help="a million where nothing is said")
    parser.add_argument("--only", choices=TRACES, metavar="TRACE", help=f"one trace: {', '.join(TRACES)}")
    words = parser.parse_args()
    columns = ["Trace", "1 worker", "2 workers", "4 workers", "Processor time, 4 workers", "Four runs"]
    print(f"| {' | '.join(columns)} |\n|{'---|' * len(columns)}")
    with tempfile.TemporaryDirectory() as work:
        for name in [words.only] if words.only else TRACES:
            print(row(name, words.program.resolve(), words.events, words.turns, Path(work)), flush=True)


if __name__ == "__main__":
    main()
