"""The checks of recorders/systemverilog/wudzark_pkg.sv: examples/systemverilog is judged while Verilator runs it."""

from __future__ import annotations

import re
import shutil
from functools import partial
from pathlib import Path

from outside import TOP, Checks, Failure, Word, expect, judge, run
from recording.cache import EXAMPLE, ROW

# A time step of the testbench's clock, and so many of them after a fault the simulation must have ended.
CYCLE = 10
CYCLES = 100
STOPPED = re.compile(r"^\[(\d+)\] %Error: wudzark_pkg.sv:\d+: .*: wudzark: (broken .*)$", re.M)
DPI = TOP / "recorders/systemverilog/wudzark_dpi.c"
HERE = Path(__file__).resolve().parent


class Simulation:
    """A simulation that is linked to the library."""

    def __init__(self, program: Path, library: Path, folder: Path) -> None:
        self.program, self.library, self.folder = program, library, folder
        self.trace, self.map, self.config = folder / "trace.lfts", folder / "trace.map", folder / "cache.toml"

    def build(self) -> None:
        words = [f"BUILD={self.folder}", f"LIBRARY={self.library}", "OPT=-O0", "build"]
        run(["make", "-s", *words], seconds=600, cwd=EXAMPLE)

    def run(self, *plus: str) -> str:
        """What a run prints. A $fatal aborts it."""
        simulation = next(self.folder.glob("*/Vlfc_testbench"))
        files = [f"+config={self.config}", f"+trace={self.trace}", f"+map={self.map}"]
        done = run([simulation, *files, *plus], status=None, seconds=120, cwd=self.folder)
        return done.stdout + done.stderr

    def judged(self, *plus: str) -> str:
        return self.run(f"+judge={self.config}", *plus)

    def legal(self) -> None:
        """The verdict, of the same trace as that of a run which is only recorded."""
        self.run()
        due, trace = judge(self.program, self.config, self.trace), self.trace.read_bytes()
        expect(re.findall(r"^wudzark: (.*)$", self.judged(), re.M), [due])
        expect(self.trace.read_bytes() == trace, True, "the same trace")

    def fault(self, number: str) -> None:
        """Stopped with the line that `watch` has of the whole trace, and soon after the record that it names. The trace
        that is kept then is the beginning of the whole one, broken by that record."""
        self.run(f"+bug={number}")
        due, whole = self.watched(), self.trace.read_bytes()
        place = re.search(r"upon log=(\d+) event=(\d+) at=\d+$", due)
        if not place:
            raise Failure(due)
        times = {tuple(line[:2]): int(line[2]) for line in map(str.split, self.map.read_text().splitlines())}
        stopped = STOPPED.findall(self.judged(f"+bug={number}"))
        expect([line for _, line in stopped], [due])
        late = int(stopped[0][0]) - times[place.groups()]
        if not 0 <= late <= CYCLES * CYCLE:
            raise Failure(f"stopped {late} after the record")
        kept = self.trace.read_bytes()
        expect((self.watched(), whole.startswith(kept)), (due, True), "the trace that is kept")
        # it ends between two records
        cut = judge(self.program, self.config, self.trace)
        expect(cut, f"refused format Truncated at={len(kept)}", "where it ends")

    def told(self) -> None:
        """LIBRARY.md has the line of fault 1."""
        page = (TOP / "docs/LIBRARY.md").read_text(encoding="utf-8")
        found = re.search(r"^\[\d+\] %Error: .*$", page, re.M)
        if not found:
            raise Failure("no line")
        line = re.escape(found[0]).replace(r"\.\.", ".*")
        printed = self.judged("+bug=1")
        if not re.search(f"^{line}$", printed, re.M):
            raise Failure(f"{found[0]} and not {printed}")

    def watched(self) -> str:
        """What `watch` prints of the trace."""
        return run([self.program, "watch", self.config, self.trace], status=1).stdout.rstrip("\n")

    def no_configuration(self) -> None:
        for path, due in ((self.folder / "none.toml", "none.toml: No such file"), (DPI, "refused config NotToml")):
            printed = self.run(f"+judge={path}")
            if f"{due}" not in printed or "wudzark: " not in printed:
                raise Failure(printed)

    def misused(self) -> None:
        """`check` before `record` and after `finish`, `finish` twice and without a recorder, and a shape that is none."""
        built, sv = self.folder / "misuse", TOP / "recorders/systemverilog"
        words: list[Word] = ["verilator", "--binary", "--timing", "-j", "1", "--top-module", "misuse", "-Mdir", built]
        flags = f"-I{TOP / 'recorders/c'} -I{TOP / 'library'}"
        sources: list[Word] = [
            sv / "lfts_pkg.sv",
            sv / "wudzark_pkg.sv",
            HERE / "misuse.sv",
            sv / "lfts_dpi.c",
            DPI,
            self.library,
        ]
        run([*words, "-CFLAGS", flags, "-MAKEFLAGS", "OPT_FAST=-O0", *sources], seconds=300, cwd=self.folder)
        plus: list[Word] = [f"+judge={TOP / 'examples/small.toml'}", "+verilator+error+limit+9"]
        done = run([built / "Vmisuse", *plus], cwd=self.folder).stdout
        found = [line for line in done.splitlines() if "wudzark: " in line or line == "done"]
        expect([found[0], *found[2:]], ["wudzark: yes events=1", "done"])
        if not found[1].endswith("wudzark: refused format Truncated at=0"):
            raise Failure(done)
        refused = run([built / "Vmisuse", *plus, "+refused"], status=None, cwd=self.folder)
        due = "wudzark: no recorder: lfts_open: block is 12; allowed: 8, 16, 32 or 64"
        if due not in refused.stdout + refused.stderr:
            raise Failure(refused.stdout + refused.stderr)


def compiles() -> None:
    include = run(["verilator", "--getenv", "VERILATOR_ROOT"]).stdout.strip() + "/include/vltstd"
    warnings = "-Wall -Wextra -Wpedantic -Wconversion -Wshadow -Werror".split()
    folders = [f"-I{TOP / 'recorders/c'}", f"-I{TOP / 'library'}", "-isystem", include]
    for compiler in (["gcc", "-std=c99"], ["g++", "-std=c++11", "-x", "c++"]):
        run([*compiler, *warnings, *folders, "-c", DPI, "-o", "/dev/null"], seconds=120)


def check(checks: Checks, program: Path, library: Path, folder: Path) -> None:
    """Makes the checks of the scoreboard in a simulator."""
    missing = [tool for tool in ("verilator", "make", "g++") if shutil.which(tool) is None]
    if missing:
        checks.skip("in a simulator", f"{', '.join(missing)} not installed")
        return
    simulation = Simulation(program, library, folder)
    checks.check("in a simulator: built without a warning", simulation.build)
    checks.check("in a simulator: the verdict of a legal run", simulation.legal)
    for number, name, rule in ROW.findall((EXAMPLE / "README.md").read_text(encoding="utf-8")):
        if rule:
            checks.check(f"in a simulator: stopped by fault {number}, {name}", partial(simulation.fault, number))
    checks.check("in a simulator: LIBRARY.md shows where it stops", simulation.told)
    checks.check("in a simulator: no configuration", simulation.no_configuration)
    checks.check("in a simulator: calls too early, twice or refused", simulation.misused)
    checks.check("in a simulator: wudzark_dpi.c as C and as C++", compiles)
