#!/usr/bin/env python3
"""Groups the traces of a run that got a no, so that one trace of each group is enough to look at.

    groups.py [--jobs N] OUT

OUT is the folder of a run (docs/FARM.md). Each trace with a no is shrunk. Two traces are in one group if the same rule
broke at the same bank or port, and the shrunk traces have the same kinds of records. OUT/groups has a folder for each
group, with its smallest shrunk trace, what `score explain` says of it, and the list of the group's traces.
OUT/groups.tsv has a line for each group, the largest first: how many traces, the group, the events of its smallest
trace, that trace, its configuration. Called again, it shrinks only what is not shrunk yet. From the environment: SCORE,
the program (score); LIMIT, the seconds that one search may take (600). The exit status is 0 if there is no group, and 1
otherwise."""

from __future__ import annotations

import argparse
import hashlib
import os
import re
import shutil
import subprocess
import sys
from concurrent.futures import ThreadPoolExecutor
from dataclasses import dataclass
from pathlib import Path
from typing import Dict, List, Tuple

from program import LIMIT, SCORE, score
from table import Row, rows

NO_EVENT = ("lfts", "memory", "end")  # the first words of lines of `score dump` that are of no event


@dataclass(frozen=True)
class Fault:
    """A trace with a no: its line in the table, its row, and the kinds and number of events of the shrunk trace."""

    number: int
    row: Row
    kinds: Tuple[str, ...]
    events: int

    @property
    def group(self) -> str:
        """The name of its group. It is the same in each run, so two nights can be compared by it."""
        what = self.row.rule or self.row.line.split(" ")[1]
        part = re.search(r" (bank|port)=(\d+)", self.row.line)
        digest = hashlib.sha256(" ".join(self.kinds).encode()).hexdigest()[:8]
        return ".".join([what, *([part[1] + part[2]] if part else []), digest])


def fault_of(number: int, row: Row, folder: Path) -> Fault:
    """Shrinks a trace to a file of the folder. A request without a reply breaks no rule, and leaves nothing to shrink;
    a search that takes too long is given up. Then the trace has no kinds."""
    small = folder / f"{number}.lfts"
    if not small.exists():
        try:
            score(["shrink", row.configuration], row.trace, str(small))
        except subprocess.TimeoutExpired:
            print(f"groups.py: {row.trace} is not shrunk after {LIMIT:g} seconds", file=sys.stderr)
    if not small.exists():
        return Fault(number, row, (), sys.maxsize)
    text = subprocess.run([SCORE, "dump", small], capture_output=True, text=True, check=True).stdout
    words = [line.split(" ")[0] for line in text.splitlines()]
    events = [word for word in words if word not in NO_EVENT]
    return Fault(number, row, tuple(sorted(set(events))), len(events))


def keep(folder: Path, shrunk: Path, faults: List[Fault]) -> None:
    """Writes the folder of a group, of which the first fault is the smallest."""
    folder.mkdir(parents=True)
    first = faults[0]
    small, row = shrunk / f"{first.number}.lfts", first.row
    if small.exists():
        shutil.copy(small, folder / "small.lfts")
        row = Row("1", "0", str(folder / "small.lfts"), row.line, configuration=row.configuration)
    complete = ["--complete"] if row.line.startswith("no incomplete") else []
    (folder / "explained").write_text(score(["explain", *complete, row.configuration], row.trace))
    traces = sorted((fault.number, fault.row) for fault in faults)
    (folder / "traces").write_text("".join(f"{row.trace}\t{row.configuration}\n" for _, row in traces))


def main() -> int:
    parser = argparse.ArgumentParser(description=__doc__, formatter_class=argparse.RawDescriptionHelpFormatter)
    parser.add_argument("--jobs", type=int, default=os.cpu_count(), help="how many are shrunk at once")
    parser.add_argument("out", type=Path, metavar="OUT")
    given = parser.parse_args()
    if shutil.which(SCORE) is None:
        parser.error("there is no program score: name it by SCORE")
    shrunk, folder = given.out / "shrunk", given.out / "groups"
    broken = [(number, row) for number, row in enumerate(rows(given.out / "table.tsv"), 1) if row.word == "no"]
    shrunk.mkdir(exist_ok=True)
    groups: Dict[str, List[Fault]] = {}
    with ThreadPoolExecutor(given.jobs) as pool:
        for fault in pool.map(lambda one: fault_of(one[0], one[1], shrunk), broken):
            groups.setdefault(fault.group, []).append(fault)
    shutil.rmtree(folder, ignore_errors=True)
    lines = []
    for name, faults in sorted(groups.items(), key=lambda one: (-len(one[1]), one[0])):
        faults.sort(key=lambda fault: (fault.events, fault.number))
        keep(folder / name, shrunk, faults)
        first = faults[0]
        events = "-" if first.events == sys.maxsize else str(first.events)
        lines.append("\t".join([str(len(faults)), name, events, first.row.trace, first.row.configuration]))
    text = "".join(f"{line}\n" for line in lines)
    (given.out / "groups.tsv").write_text(text)
    sys.stdout.write(text)
    return 1 if groups else 0


if __name__ == "__main__":
    sys.exit(main())
