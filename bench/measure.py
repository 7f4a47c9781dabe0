#!/usr/bin/env python3
"""Times `score check` on legal traces that make_trace.py writes, of 4 ports and 4 banks where the row says
nothing else.

    measure.py PROGRAM [BEFORE]

A row for each trace: the least processor time of five turns, its ratio to that of BEFORE where another
build is given, its ratio to that of plain/decode.rs where there is a Rust compiler (a program that decodes
the same trace and counts its records), the least time on the clock with 1 worker, the ratios of that with 2
and with 4 workers to it, the ratio of four runs with 1 worker each at once to it (1 on four idle cores), the
most memory that the program held with 1 worker (with the package `time`), and the size of the file. All take
turns, so that each meets the same machine."""

from __future__ import annotations

import os
import shutil
import subprocess
import sys
import tempfile
import time
from dataclasses import dataclass
from typing import Callable, Sequence

TURNS = 5
WORKERS = (2, 4)
AT_ONCE = 4
TRACES = (
    ("10,000", "--events 10000"),
    ("100,000", "--events 100000"),
    ("1,000,000", "--events 1000000"),
    ("1,000,000, log by log", "--events 1000000 --log-by-log"),
    ("1,000,000, version 3, factor 4", "--events 1000000 --version 3 --factor 4"),
    (
        "1,000,000, 16 ports, 16 banks, inverted",
        "--events 1000000 --ports 16 --banks 16 --organisation1 inverted --organisation2 inverted",
    ),
    ("1,000,000, one bank has most", "--events 1000000 --crowded 90"),
    ("1,000,000, each access hits", "--events 1000000 --footprint 256"),
    ("1,000,000, nearly each access misses", "--events 1000000 --sets1 1 --ways1 1 --sets2 1 --ways2 2"),
)
HERE = os.path.dirname(os.path.abspath(__file__))


@dataclass
class Run:
    """One run: seconds of processor time, seconds on the clock, exit status."""

    processor: float
    clock: float
    status: int


def started(words: Sequence[str]) -> int:
    """The process that runs the program, without its output."""
    child = os.fork()
    if child == 0:
        os.dup2(os.open(os.devnull, os.O_WRONLY), 1)
        os.execv(words[0], list(words))
    return child


def run(words: Sequence[str]) -> Run:
    """Runs the program to its end."""
    start = time.monotonic()
    _, status, used = os.wait4(started(words), 0)
    return Run(used.ru_utime + used.ru_stime, time.monotonic() - start, status)


def megabytes(words: Sequence[str]) -> str:
    """The most memory that the program holds. time(1) measures it, since a child of Python begins with what Python
    holds, which is more than the program needs."""
    measure = shutil.which("time")
    if not measure:
        return "unknown"
    ran = subprocess.run([measure, "-f", "%M", *words], stdout=subprocess.DEVNULL, stderr=subprocess.PIPE, text=True)
    return f"{int(ran.stderr.split()[-1]) / 1024:.0f} MB"


def run_at_once(words: Sequence[str]) -> float:
    """The seconds on the clock of so many runs that begin together, until the last has ended."""
    start = time.monotonic()
    for child in [started(words) for _ in range(AT_ONCE)]:
        os.waitpid(child, 0)
    return time.monotonic() - start


def ratio(runs: Sequence[Run], others: Sequence[Run], time_of: Callable[[Run], float]) -> str:
    """The least time of the runs over that of the others, where these have one."""
    other = min(map(time_of, others))
    return f"{min(map(time_of, runs)) / other:.2f}" if other and all(r.status == 0 for r in others) else "none"


def row(name: str, options: str, commands: Sequence[Sequence[str]], work: str) -> None:
    """The commands take turns; the first is the one that the row is about, the last are its runs with more workers."""
    trace, shape = work + "/trace.lfts", work + "/shape.toml"
    subprocess.run(
        [sys.executable, HERE + "/make_trace.py", "--out", trace, "--config", shape, *options.split()],
        check=True,
        stdout=subprocess.DEVNULL,
    )
    words = {"trace": trace, "shape": shape}
    runs: list[list[Run]] = [[] for _ in commands]
    at_once: list[float] = []
    for _ in range(TURNS):
        for own, command in zip(runs, commands):
            own.append(run([word.format(**words) for word in command]))
        at_once.append(run_at_once([word.format(**words) for word in commands[0]]))
    one, others, more = runs[0], runs[1 : -len(WORKERS)], runs[-len(WORKERS) :]
    if any(r.status for own in (one, *more) for r in own):
        print(f"| {name} | NOT YES |", flush=True)
        return
    cells = [name, "yes", f"{min(r.processor for r in one) * 1000:.0f} ms"]
    cells += [ratio(one, own, lambda r: r.processor) for own in others]
    cells += [f"{min(r.clock for r in one) * 1000:.0f} ms", *(ratio(own, one, lambda r: r.clock) for own in more)]
    cells += [f"{min(at_once) / min(r.clock for r in one):.2f}"]
    cells += [megabytes([word.format(**words) for word in commands[0]]), f"{os.path.getsize(trace) / 1048576:.1f} MB"]
    print(f"| {' | '.join(cells)} |", flush=True)


def main() -> None:
    checks = [[os.path.abspath(program), "check", "{shape}", "{trace}"] for program in sys.argv[1:3]]
    by_workers = [[*checks[0], "--workers", str(workers)] for workers in WORKERS]
    columns = ["events", "answer", "processor time", *["over before"] * (len(checks) - 1)]
    with tempfile.TemporaryDirectory() as work:
        if shutil.which("rustc"):
            subprocess.run(["rustc", "-O", HERE + "/plain/decode.rs", "-o", work + "/decode"], check=True)
            checks.append([work + "/decode", "{trace}"])
            columns.append("over plain reading")
        columns += ["time", *(f"{workers} workers over 1" for workers in WORKERS), f"{AT_ONCE} runs at once over 1"]
        columns += ["memory", "file"]
        print(f"| {' | '.join(columns)} |\n|{'---|' * len(columns)}")
        for name, options in TRACES:
            row(name, options, checks + by_workers, work)


if __name__ == "__main__":
    main()
