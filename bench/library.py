#!/usr/bin/env python3
"""Times the library, and `score watch` beside `score check`, on a trace of 4 ports and 4 banks.

    library.py [--events N] [--turns N]

It wants the program and the library that `build` and `build --library` made. What asking after each record costs is
measured by library.c. For the program all turns alternate, and the least and the median processor time are printed."""

from __future__ import annotations

import argparse
import os
import statistics
import subprocess
import tempfile
from pathlib import Path

HERE = Path(__file__).resolve().parent
PROGRAM = HERE.parent / "crates/score/out/score"
LIBRARY = HERE.parent / "crates/library_c/out/libwudzark.a"


def run(*words: object) -> None:
    subprocess.run([str(word) for word in words], check=True)


def processor_time(words: list[str]) -> float:
    child = os.fork()
    if child == 0:
        os.dup2(os.open(os.devnull, os.O_WRONLY), 1)
        os.execv(words[0], words)
    _, status, used = os.wait4(child, 0)
    if status != 0:
        raise SystemExit(f"{' '.join(words)}: status {status}")
    return float(used.ru_utime + used.ru_stime)


def main() -> None:
    parser = argparse.ArgumentParser(description=__doc__, formatter_class=argparse.RawDescriptionHelpFormatter)
    parser.add_argument("--events", type=int, default=1000000)
    parser.add_argument("--turns", type=int, default=31)
    arguments = parser.parse_args()
    with tempfile.TemporaryDirectory() as name:
        folder = Path(name)
        config, trace, driver = folder / "cache.toml", folder / "trace.lfts", folder / "library"
        run("python3", HERE / "make_trace.py", "--events", arguments.events, "--config", config, "--out", trace)
        run("cc", "-O2", f"-I{HERE.parent / 'library'}", "-o", driver, HERE / "library.c", LIBRARY)
        run(driver, config, trace, arguments.turns)
        seconds: dict[str, list[float]] = {"check": [], "watch": []}
        for _ in range(arguments.turns):
            for command, times in seconds.items():
                times.append(processor_time([str(word) for word in (PROGRAM, command, config, trace)]))
        least = {command: min(times) for command, times in seconds.items()}
        median = {command: statistics.median(times) for command, times in seconds.items()}
        for command in seconds:
            print(f"score {command}: least {least[command]:.3f} s, median {median[command]:.3f} s")
        ratios = least["watch"] / least["check"], median["watch"] / median["check"]
        print(f"score watch: least {ratios[0]:.3f}, median {ratios[1]:.3f} of score check")


if __name__ == "__main__":
    main()
