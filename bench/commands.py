#!/usr/bin/env python3
"""Measures the other commands of `score` against `check` on one trace, with one worker and at normal priority.

    commands.py PROGRAM [--turns N] [--only TRACE]

Each turn runs every command once. A row for each has its least and its median processor time, the ratio of both to
those of `check` of the same trace, and the most memory that it held (with the package `time`). The broken trace is the
same one with another byte in its last reply. Stop everything else first."""

from __future__ import annotations

import argparse
import os
import re
import statistics
import subprocess
import sys
import tempfile
from pathlib import Path
from typing import NamedTuple

from compare import TRACES, written
from measure import megabytes, run

# A reply with the digits of its first byte.
REPLY = re.compile(r"^(reply .*bytes=)([0-9a-f]{2})", re.MULTILINE)

# The row that those of the broken trace are compared with.
OF_BROKEN = "`check` of the broken trace"


class Command(NamedTuple):
    """What a row is about: its words, and the row that it is compared with."""

    name: str
    words: list[str]
    against: str


def broken(program: Path, trace: Path, folder: Path) -> Path:
    """The trace with another byte in its last reply."""
    text = subprocess.run([program, "dump", trace], check=True, capture_output=True, text=True).stdout
    last = list(REPLY.finditer(text))[-1]
    other = f"{int(last[2], 16) ^ 0xFF:02x}"
    path = folder / "broken.lfts"
    words: list[str | Path] = [program, "assemble", "-", path]
    subprocess.run(words, check=True, input=text[: last.start(2)] + other + text[last.end(2) :], text=True)
    return path


def commands(program: Path, config: Path, trace: Path, folder: Path) -> list[Command]:
    """All commands that are measured. The text and the broken trace are written for them."""
    text, wrong = folder / "trace.txt", broken(program, trace, folder)
    with text.open("wb") as file:
        subprocess.run([program, "dump", trace], check=True, stdout=file)
    out, legal, illegal = str(folder / "out"), [str(config), str(trace)], [str(config), str(wrong)]

    def of(name: str, *words: str, against: str = "`check`") -> Command:
        return Command(name, [str(program), *words], against)

    return [
        of("`check`", "check", *legal),
        of("`check --complete`", "check", "--complete", *legal),
        of("`watch`", "watch", *legal),
        of("`stats`", "stats", *legal),
        of("`cover`", "cover", *legal),
        of("`explain` of a yes", "explain", *legal),
        of("`dump`", "dump", str(trace)),
        of("`dump --last 10`", "dump", "--last", "10", str(trace)),
        of("`assemble`", "assemble", str(text), out),
        of("`view` of a yes", "view", *legal, out),
        of(OF_BROKEN, "check", *illegal, against=OF_BROKEN),
        of("`explain` of it", "explain", *illegal, against=OF_BROKEN),
        of("`explain --json` of it", "explain", "--json", *illegal, against=OF_BROKEN),
        of("`view` of it", "view", *illegal, out, against=OF_BROKEN),
    ]


def milliseconds(command: Command) -> float:
    """The processor time of one run, which must end with yes or no. `check --complete` says no where the last requests
    of the trace have no reply."""
    ran = run(command.words)
    status = os.waitstatus_to_exitcode(ran.status)
    if status not in (0, 1):
        sys.exit(f"{' '.join(command.words)}: the status is {status}")
    return ran.processor * 1000


def main() -> None:
    parser = argparse.ArgumentParser(description=__doc__, formatter_class=argparse.RawDescriptionHelpFormatter)
    parser.add_argument("program", type=Path, metavar="PROGRAM", help="a build of `score`")
    parser.add_argument("--turns", type=int, default=9, help="9 where nothing is said")
    parser.add_argument("--events", type=int, default=1_000_000, help="a million where nothing is said")
    parser.add_argument(
        "--only", choices=TRACES, default="in order", metavar="TRACE", help=f"one of {', '.join(TRACES)}"
    )
    words = parser.parse_args()
    with tempfile.TemporaryDirectory() as work:
        folder = Path(work)
        config, trace = written(TRACES[words.only], words.events, folder)
        rows = commands(words.program.resolve(), config, trace, folder)
        times: dict[str, list[float]] = {command.name: [] for command in rows}
        for _ in range(words.turns):
            for command in rows:
                times[command.name].append(milliseconds(command))
        print("| Command | Least | Median | Least over check | Median over check | Memory |\n|---|---|---|---|---|---|")
        for command in rows:
            own, other = times[command.name], times[command.against]
            least, median = min(own), statistics.median(own)
            over = f"{least / min(other):.2f} | {median / statistics.median(other):.2f}"
            print(f"| {command.name} | {least:.0f} ms | {median:.0f} ms | {over} | {megabytes(command.words)} |")


if __name__ == "__main__":
    main()
