"""The checks of examples/systemc: simulations of the cache that are recorded and judged, and its faults."""

from __future__ import annotations

import re
import shutil
import tempfile
from functools import partial
from pathlib import Path
from typing import Callable

from outside import TOP, Checks, Failure, Word, expect, judge, run
from shown import expect_score

EXAMPLE = TOP / "examples/systemc"
SOURCES = ("cache.h", "recording.h", "testbench.cpp")
# A row of the table of faults: its number, its name and its rule.
ROW = re.compile(r"^\| (\d+) \| `([a-z_]+)` \| .* \| `(\w+)` \|$", re.M)
SEEDS = 10
# The clock, in the time resolution of SystemC: its period is 10 ns.
PERIOD = 10_000
# The fault that only one order of construction shows.
BY_ORDER = "4"
BANKS_FIRST = "order=1"


def readme() -> str:
    return (EXAMPLE / "README.md").read_text(encoding="utf-8")


class Simulation:
    """A simulation of the cache, in a folder of its own."""

    def __init__(self, program: Path, folder: Path) -> None:
        self.program, self.folder = program, folder
        self.trace, self.map, self.config = folder / "trace.lfts", folder / "trace.map", folder / "cache.toml"

    def make(self, *words: str, status: int = 0) -> str:
        given = [f"BUILD={self.folder}", f"SCORE={self.program}", "OPT=-O0"]
        given.append("WARNINGS=-Wall -Wextra -Wold-style-cast -Wconversion -Werror")
        return run(["make", "-s", *given, *words], seconds=600, status=status, cwd=EXAMPLE).stdout

    def build(self, *words: str) -> None:
        self.make("build", *words)

    def simulation(self) -> Path:
        return next(self.folder.glob("*/simulation"))

    def explained(self) -> list[str]:
        """The lines that `explain` prints of a no."""
        words: list[Word] = ["explain", "--map", self.map, self.config, self.trace]
        return run([self.program, *words], status=1).stdout.splitlines(keepends=True)

    def run(self, *words: str, status: int = 0) -> str:
        """Runs it, and gives what it printed."""
        files = [f"config={self.config}", f"trace={self.trace}", f"map={self.map}"]
        return run([self.simulation(), *files, *words], status=status, cwd=self.folder, seconds=120).stdout

    def answer(self, *words: str) -> str:
        self.run(*words)
        return judge(self.program, self.config, self.trace)


class SystemcChecks:
    """The checks over the simulation of one compiler, and whether another one takes it too."""

    def __init__(self, checks: Checks, program: Path, folder: Path) -> None:
        self.checks, self.program = checks, program
        self.recorded, self.other = (Simulation(program, folder / name) for name in ("recorded", "other"))
        for it in (self.recorded, self.other):
            it.folder.mkdir()

    def check(self, name: str, function: Callable[[], None]) -> None:
        self.checks.check(f"examples/systemc: {name}", function)

    def all(self) -> None:
        self.check("built by g++ without a warning", partial(self.recorded.build, "CXX=g++"))
        self.check("a yes for each seed, in both orders of construction", self.seeds)
        self.check("all kinds of events occur", self.all_kinds)
        self.check("a time for each event", self.time_map)
        for number, name, rule in ROW.findall(readme()):
            self.check(f"fault {number}, {name}: {rule}", partial(self.fault, number, rule))
        self.check("the table has each fault", self.table)
        self.check("a lookup in the delta of its issue is legal by construction order", self.by_order)
        self.check("README.md shows what score prints", self.shown)
        self.check("make prints the answer", self.make_prints)
        self.checks.check_with(["clang-format"], "examples/systemc: formatted by clang-format", self.formatted)
        clang = partial(self.other.build, "CXX=clang++")
        self.checks.check_with(["clang++"], "examples/systemc: built by clang++ without a warning", clang)

    def seeds(self) -> None:
        """The processes of a delta cycle may run in any order: the traces have the same bytes."""
        for seed in range(1, SEEDS + 1):
            words = [f"seed={seed}", "requests=500"]
            line = self.recorded.answer(*words)
            if not line.startswith("yes events="):
                raise Failure(f"seed {seed}: {line}")
            run([self.program, "check", "--complete", self.recorded.config, self.recorded.trace])
            first = self.recorded.trace.read_bytes()
            self.recorded.run(*words, BANKS_FIRST)
            expect(self.recorded.trace.read_bytes() == first, True, f"seed {seed}: the same bytes")

    def all_kinds(self) -> None:
        self.recorded.run()
        stats = run([self.program, "stats", self.recorded.config, self.recorded.trace]).stdout
        for name in ("hits", "primary", "merges", "stalls"):
            for count in re.findall(rf"{name}=(\d+)", stats):
                if int(count) < 300:
                    raise Failure(stats)
        dumped = run([self.program, "dump", self.recorded.trace]).stdout
        for kind in ("second_hit", "second_primary", "second_stall", "evict1", "evict2"):
            if not re.search(rf"^{kind} ", dumped, re.M):
                raise Failure(f"no {kind}")

    def time_map(self) -> None:
        line = self.recorded.answer("requests=500")
        lines = self.recorded.map.read_text(encoding="utf-8").splitlines()
        expect(f"yes events={len(lines)}", line, "lines")
        times = [int(it.split()[2]) for it in lines]
        expect(times, sorted(times), "times")
        expect({time % PERIOD for time in times}, {0}, "each at a rising edge")

    def fault(self, number: str, rule: str) -> None:
        """The rule is named, and the explanation begins with the event and says what the rule asks of it."""
        line = self.recorded.answer(f"bug={number}")
        if not line.endswith(f" rule={rule}"):
            raise Failure(f"{line} and not {rule}")
        told = self.recorded.explained()
        expect(told[0], f"{line}\n")
        if not re.search(r" ; at \d+, time \d+$", told[2]):
            raise Failure("".join(told[:4]))
        expect(told[3].startswith(f"  {rule} asks that "), True, told[3])
        for seed in (2, 3):
            other = self.recorded.answer(f"bug={number}", f"seed={seed}")
            expect(other.split(" ")[0], "no", f"seed {seed}")

    def table(self) -> None:
        source = (EXAMPLE / "cache.h").read_text(encoding="utf-8")
        found = re.search(r"enum class fault \{(.*?)\};", source, re.S)
        names = re.findall(r"^ +([a-z_]+),? *(?://.*)?$", found[1], re.M) if found else []
        rows = [(int(number), name) for number, name, _ in ROW.findall(readme())]
        expect([(0, "none"), *rows], list(enumerate(names)))

    def by_order(self) -> None:
        line = self.recorded.answer(f"bug={BY_ORDER}", BANKS_FIRST)
        expect(line.split("=")[0], "yes events")

    def shown(self) -> None:
        for number in set(re.findall(r"seed_1_bug_(\d+)\.lfts", readme())):
            self.recorded.make("run", f"BUG={number}")
        expect_score(EXAMPLE / "README.md", self.program, self.recorded.simulation().parent)

    def make_prints(self) -> None:
        lines = self.recorded.make("SEED=1").splitlines()
        due = re.search(r"`(yes events=\d+)`", readme())
        expect(lines[-1], due[1] if due else "")
        broken = self.recorded.make("BUG=2", status=2).splitlines()
        expect(broken[-1].split(" ")[-1], "rule=EvictData")

    def formatted(self) -> None:
        run(["clang-format", "--dry-run", "-Werror", *(EXAMPLE / name for name in SOURCES)])


def missing() -> str:
    """What is not installed, or nothing."""
    for tool in ("g++", "make"):
        if shutil.which(tool) is None:
            return tool
    words = ["g++", "-std=c++17", "-E", "-x", "c++", "-"]
    return "" if run(words, status=None, stdin=b"#include <systemc>\n").returncode == 0 else "libsystemc-dev"


def check(checks: Checks, program: Path) -> None:
    """Makes the checks of examples/systemc."""
    if missing():
        checks.skip("examples/systemc", f"{missing()} not installed")
        return
    with tempfile.TemporaryDirectory(prefix="systemc_") as folder:
        SystemcChecks(checks, program, Path(folder)).all()
