"""The checks of examples/systemverilog: simulations of the cache that are recorded, judged, and full of faults."""

from __future__ import annotations

import os
import re
import shutil
import subprocess
import tempfile
import time
from concurrent.futures import Future, ThreadPoolExecutor
from dataclasses import dataclass
from functools import partial
from pathlib import Path
from typing import Callable, Optional

from outside import TOP, Checks, Failure, expect, judge, run
from shown import expect_score

EXAMPLE = TOP / "examples/systemverilog"
# A row of the table of faults: its number, its name and its rule.
ROW = re.compile(r"^\| (\d+) \| `([A-Z_]+)` \| .* \| (?:`(\w+)`|none) \|$", re.M)
SEEDS = 20
OTHER_SEEDS = 5
DEFAULT = "two ports, two banks"
CACHES = {
    DEFAULT: "",
    "the least of all": "PORTS=1 BANKS=1 BLOCK=8 TAGS=4 SETS1=1 WAYS1=1 REGISTERS1=1 ENTRIES1=1 SETS2=1 WAYS2=1 "
    "REGISTERS2=1 FOOTPRINT=8",
    "four ports, three banks": "PORTS=4 BANKS=3 BLOCK=64 TAGS=16 SETS1=2 WAYS1=2 REGISTERS1=4 ENTRIES1=4 SETS2=4 "
    "WAYS2=2 REGISTERS2=3 FOOTPRINT=100",
    "three ports, four banks": "PORTS=3 BANKS=4 BLOCK=32 TAGS=20 SETS1=3 WAYS1=3 REGISTERS1=3 ENTRIES1=3 SETS2=1 "
    "WAYS2=5 REGISTERS2=2 FOOTPRINT=64",
    "four ports, one bank": "PORTS=4 BANKS=1 BLOCK=8 TAGS=5 SETS1=1 WAYS1=4 REGISTERS1=2 ENTRIES1=8 SETS2=1 WAYS2=3 "
    "REGISTERS2=1 FOOTPRINT=16",
}


def readme() -> str:
    return (EXAMPLE / "README.md").read_text(encoding="utf-8")


@dataclass
class Cache:
    """A simulation of one cache. What it makes stands in a folder of its own."""

    folder: Path
    parameters: list[str]
    program: Path

    def make(self, *words: str, status: Optional[int] = 0) -> str:
        """Runs make in the example, and gives what it printed."""
        given = [f"BUILD={self.folder}", f"SCORE={self.program}", "OPT=-O0", *self.parameters]
        return run(["make", "-s", *given, *words], seconds=600, status=status, cwd=EXAMPLE).stdout

    def simulation(self) -> Path:
        return next(self.folder.glob("*/Vlfc_testbench"))

    def simulate(self, *plus: str) -> str:
        """Runs the simulation, and gives what it printed."""
        return run([self.simulation(), *plus], seconds=120, cwd=self.folder).stdout

    def answer(self, *plus: str) -> str:
        """The answer to the trace of a run."""
        self.simulate(f"+trace={self.trace()}", f"+config={self.config()}", *plus)
        return judge(self.program, self.config(), self.trace())

    def trace(self) -> Path:
        return self.folder / "trace.lfts"

    def config(self) -> Path:
        return self.folder / "cache.toml"


class CacheChecks:
    """The checks over all simulations, which are built two at a time."""

    def __init__(self, checks: Checks, program: Path, folder: Path) -> None:
        self.checks = checks
        self.caches: dict[str, Cache] = {}
        for place, (name, words) in enumerate(CACHES.items()):
            (folder / str(place)).mkdir()
            self.caches[name] = Cache(folder / str(place), words.split(), program)
        self.default = self.caches[DEFAULT]

    def check(self, name: str, function: Callable[[], None]) -> None:
        self.checks.check(f"examples/systemverilog: {name}", function)

    def all(self) -> None:
        with ThreadPoolExecutor(max_workers=os.cpu_count()) as pool:
            built = {name: pool.submit(cache.make, "build") for name, cache in self.caches.items()}
            for name, cache in self.caches.items():
                self.check(f"{name}: built without a warning", partial(is_built, built[name]))
                self.check(f"{name}: yes for each seed", partial(seeds, cache))
        for number, name, rule in ROW.findall(readme()):
            self.check(f"fault {number}, {name}: {rule or 'no rule'}", partial(self.fault, number, rule))
        self.check("the table has each fault", self.table)
        self.check("all kinds of events occur", self.all_kinds)
        self.check("a time for each event of a cycle", self.time_map)
        self.check("recording changes nothing", self.same_run)
        self.check("a killed simulation", self.killed)
        self.check("README.md shows what score prints", self.shown)
        self.check("make prints the answer", self.make_prints)
        self.check("under 600 lines of design, lint-clean", self.is_small)

    def fault(self, number: str, rule: str) -> None:
        line = self.default.answer(f"+bug={number}")
        if rule == "":
            expect(line.split(" ")[0], "yes")
            told = self.default.simulate(f"+bug={number}")
            if "the cache hangs" not in told:
                raise Failure(f"the testbench printed {told!r}")
        elif not line.endswith(f" rule={rule}"):
            raise Failure(f"{line} and not {rule}")

    def table(self) -> None:
        rows = ROW.findall(readme())
        package = (EXAMPLE / "design/lfc_pkg.sv").read_text(encoding="utf-8")
        found = re.search(r"NO_BUG, ([A-Z_,\s]+)\} bug_t;", package)
        names = re.findall(r"[A-Z_]+", found[1]) if found else []
        expect([(int(number), name) for number, name, _ in rows], list(enumerate(names, 1)))
        if len([rule for _, _, rule in rows if rule]) < 10:
            raise Failure("fewer than ten faults break a rule")

    def all_kinds(self) -> None:
        self.default.answer()
        stats = run([self.default.program, "stats", self.default.config(), self.default.trace()]).stdout
        for name, least in (("hits", 300), ("primary", 300), ("merges", 100), ("stalls", 50)):
            for count in re.findall(rf"{name}=(\d+)", stats):
                if int(count) < least:
                    raise Failure(stats)

    def time_map(self) -> None:
        line = self.default.answer(f"+map={self.default.folder / 'trace.map'}")
        lines = (self.default.folder / "trace.map").read_text(encoding="utf-8").splitlines()
        expect(f"yes events={len(lines)}", line, "lines")
        places: dict[str, int] = {}
        times = [0]
        for log, place, at in map(str.split, lines):
            expect(int(place), places.get(log, 0), f"the place in log {log}")
            places[log] = int(place) + 1
            times.append(int(at))
        expect(times, sorted(times), "times")

    def same_run(self) -> None:
        """The bytes of two runs are the same, and a run without a recorder ends at the same time."""
        self.default.answer("+seed=3")
        first = self.default.trace().read_bytes()
        recorded = self.default.simulate("+seed=3", f"+trace={self.default.trace()}")
        expect(self.default.trace().read_bytes() == first, True, "the same bytes")
        expect(self.default.simulate("+seed=3"), recorded)

    def killed(self) -> None:
        self.default.answer()
        trace = self.default.trace()
        words = [str(self.default.simulation()), f"+trace={trace}", "+requests=100000000"]
        with subprocess.Popen(words, stdout=subprocess.DEVNULL) as process:
            before = time.monotonic()
            while trace.stat().st_size < 1000000 and time.monotonic() < before + 60:
                time.sleep(0.01)
            process.kill()
        line = judge(self.default.program, self.default.config(), trace)
        expect(line.split(" at=")[0], "refused format Truncated")

    def shown(self) -> None:
        for number in sorted(set(re.findall(r"seed_1_bug_(\d+)\.lfts", readme()))):
            self.default.make("run", f"BUG={number}")
        expect_score(EXAMPLE / "README.md", self.default.program, self.default.simulation().parent)

    def make_prints(self) -> None:
        lines = self.default.make("SEED=1").splitlines()
        due = re.search(r"`(yes events=\d+)`", readme())
        expect(lines[-1], due[1] if due else "")
        broken = self.default.make("BUG=3", status=2).splitlines()
        expect(broken[-1].split(" ")[-1], "rule=NeedlessStall")

    def is_small(self) -> None:
        files = sorted((EXAMPLE / "design").iterdir())
        lines = [line for file in files for line in file.read_text(encoding="utf-8").splitlines()]
        if len(lines) >= 600 or max(map(len, lines)) > 119:
            raise Failure(f"{len(lines)} lines of at most {max(map(len, lines))} columns")
        for cache in self.caches.values():
            cache.make("lint")


def is_built(future: Future[str]) -> None:
    future.result()


def seeds(cache: Cache) -> None:
    for seed in range(1, 1 + (OTHER_SEEDS if cache.parameters else SEEDS)):
        line = cache.answer(f"+seed={seed}")
        if not line.startswith("yes events="):
            raise Failure(f"seed {seed}: {line}")


def check(checks: Checks, program: Path) -> None:
    """Makes the checks of examples/systemverilog."""
    missing = [tool for tool in ("verilator", "make", "g++") if shutil.which(tool) is None]
    if missing:
        checks.skip("examples/systemverilog", f"{', '.join(missing)} not installed")
        return
    with tempfile.TemporaryDirectory(prefix="recorders_cache_") as folder:
        CacheChecks(checks, program, Path(folder)).all()
