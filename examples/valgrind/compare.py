#!/usr/bin/env python3
"""Runs a program under valgrind's lackey, whose loads and stores go through the cache model of cache.py, and again
under valgrind's cachegrind, for a level one of the same sizes. Prints what `score stats` and cachegrind count in one
table.

    compare.py [--score SCORE] [--keep FOLDER] PROGRAM ARGUMENT..

`score check` must say yes of the trace. The status is 1 where it does not, or where the primary misses are not the
misses of cachegrind and one more for each access that missed on both sides of a block's edge. FOLDER keeps the
configuration, the trace and its time map."""

from __future__ import annotations

import argparse
import os
import re
import shutil
import subprocess
import sys
import tempfile
from pathlib import Path
from typing import Dict, List, Sequence, Tuple

TOP = Path(__file__).resolve().parent.parent.parent
sys.path.insert(0, str(TOP / "recorders/python/src"))
import lfts  # noqa: E402
from cache import Cache, Counts, Geometry, accesses  # noqa: E402


def record(program: Sequence[str], geometry: Geometry, folder: Path) -> Counts:
    """Runs a program under lackey, and writes its configuration, trace and time map."""
    counts = Counts()
    (folder / "cache.toml").write_text(geometry.configuration())
    trace, time_map = folder / "cache.lfts", folder / "cache.map"
    read_end, write_end = os.pipe()
    words = ["valgrind", "--tool=lackey", "--trace-mem=yes", f"--log-fd={write_end}", *program]
    lackey = subprocess.Popen(words, stdout=subprocess.DEVNULL, stderr=subprocess.DEVNULL, pass_fds=[write_end])
    os.close(write_end)
    with open(read_end) as lines, lfts.Recorder(trace, 1, 1, geometry.block, time_map=time_map) as recorder:
        Cache(geometry, recorder, counts).run(accesses(lines, geometry.block, counts))
        recorder.fence(0)
    lackey.wait()
    return counts


def cachegrind(program: Sequence[str], geometry: Geometry, folder: Path) -> Dict[str, int]:
    """What cachegrind counts, by the names of its events."""
    one = f"{geometry.sets1 * geometry.ways1 * geometry.block},{geometry.ways1},{geometry.block}"
    two = f"{geometry.sets2 * geometry.ways2 * geometry.block},{geometry.ways2},{geometry.block}"
    out = folder / "cachegrind.out"
    options = [f"--I1={one}", f"--D1={one}", f"--LL={two}", f"--cachegrind-out-file={out}"]
    words = ["valgrind", "--quiet", "--tool=cachegrind", *options, *program]
    subprocess.run(words, stdout=subprocess.DEVNULL, stderr=subprocess.DEVNULL, check=False)
    text = out.read_text(errors="replace")
    names, numbers = re.search(r"^events: (.*)$", text, re.M), re.search(r"^summary: (.*)$", text, re.M)
    if names is None or numbers is None:
        raise SystemExit("cachegrind gave no summary")
    return dict(zip(names[1].split(), map(int, numbers[1].split())))


def statistics(score: Path, folder: Path) -> Tuple[str, Dict[str, int]]:
    """The answer of the trace, and the counts of its bank where that is a yes."""
    words = [str(folder / "cache.toml"), str(folder / "cache.lfts")]
    answer = subprocess.run([score, "check", *words], capture_output=True, text=True, check=False).stdout.strip()
    text = subprocess.run([score, "stats", *words], capture_output=True, text=True, check=False).stdout
    return answer, {name: int(number) for name, number in re.findall(r"(\w+)=(\d+)", text.splitlines()[0])}


def table(counts: Counts, bank: Dict[str, int], grind: Dict[str, int]) -> List[Tuple[str, object, object]]:
    """The rows: what is counted, how often by the model, and how often by cachegrind."""
    letters = counts.letters
    return [
        ("accesses that read", letters["L"] + letters["M"], f"{grind['Dr']} (Dr)"),
        ("accesses that only write", letters["S"], f"{grind['Dw']} (Dw)"),
        ("accesses that straddle two blocks", counts.straddling, ""),
        ("requests of 1, 2, 4 or 8 bytes", counts.requests, ""),
        ("hits", bank["hits"], ""),
        ("primary misses", bank["primary"], f"{grind['D1mr'] + grind['D1mw']} (D1mr + D1mw)"),
        ("accesses that missed in two blocks", counts.missed_twice, "one miss each"),
        ("merges", bank["merges"], "hits"),
        ("stalls", bank["stalls"], ""),
        ("registers in use at once", bank["peak"], ""),
    ]


def main() -> int:
    parser = argparse.ArgumentParser(description=__doc__, formatter_class=argparse.RawDescriptionHelpFormatter)
    parser.add_argument("--score", type=Path, default=TOP / "crates/score/out/score", help="the judge's program")
    parser.add_argument("--keep", type=Path, metavar="FOLDER", help="where the trace is kept")
    parser.add_argument("program", nargs=argparse.REMAINDER, help="a program and its arguments")
    given = parser.parse_args()
    for program in [str(given.score), *given.program[:1]]:
        if shutil.which(program) is None:
            parser.error(f"{program} is no program")
    if not given.program:
        parser.error("no program to run")
    geometry = Geometry()
    with tempfile.TemporaryDirectory() as work:
        folder = given.keep or Path(work)
        folder.mkdir(parents=True, exist_ok=True)
        counts = record(given.program, geometry, folder)
        grind = cachegrind(given.program, geometry, Path(work))
        answer, bank = statistics(given.score, folder)
    print(f"{answer}\n")
    if not answer.startswith("yes"):
        return 1
    print("| | the trace | cachegrind |\n|---|---|---|")
    for cells in table(counts, bank, grind):
        print(f"| {' | '.join(map(str, cells))} |")
    return 0 if bank["primary"] == grind["D1mr"] + grind["D1mw"] + counts.missed_twice else 1


if __name__ == "__main__":
    sys.exit(main())
