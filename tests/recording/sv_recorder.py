"""The checks of recorders/systemverilog. All calls are made by tests/recording/driver.sv under Verilator."""

from __future__ import annotations

import shutil
import tempfile
from functools import partial
from pathlib import Path
from typing import Optional

from outside import TOP, Checks, Failure, expect, run

from recording.c_recorder import ABBREVIATIONS, misuses
from recording import monitors, same_calls
from recording.reference import EVERY_KIND, Chance, every_kind, every_kind_trace, hexadecimal, reference, shape_of

C = TOP / "recorders/c"
SV = TOP / "recorders/systemverilog"
HERE = Path(__file__).resolve().parent
SOURCES = [SV / "lfts_pkg.sv", HERE / "driver.sv"]
# the bytes of the end record
END = 8


class SvRecorder:
    """The checks over a simulation that makes calls."""

    def __init__(self, checks: Checks, folder: Path) -> None:
        self.checks, self.folder = checks, folder
        self.trace = folder / "trace.lfts"

    def build(self) -> None:
        words = ["verilator", "--binary", "--timing", "-j", "1", "-Wall", "--top-module", "driver"]
        words += ["-Mdir", str(self.folder / "driver"), "-CFLAGS", f"-I{C}"]
        words += ["-MAKEFLAGS", "OPT_FAST=-O0"]
        run([*words, *SOURCES, SV / "lfts_dpi.c"], seconds=300, cwd=self.folder)

    def all(self) -> None:
        for version in EVERY_KIND:
            name = f"recorders/systemverilog: each kind of version {version}"
            self.checks.check(name, partial(self.same, every_kind(version), every_kind_trace(version)))
        self.checks.check("recorders/systemverilog: random scripts give the bytes of the format", self.random_scripts)
        self.checks.check("recorders/systemverilog: cycles, phases and the time map", self.cycles)
        self.checks.check("recorders/systemverilog: each misuse is an $error with its text", self.misuses)
        self.checks.check("recorders/systemverilog: what is X or Z is an $error and counted", self.unknown)
        self.checks.check("recorders/systemverilog: a $fatal leaves what was flushed", self.fatal)
        self.checks.check("recorders/systemverilog: lfts_dpi.c as C and as C++", self.compiles)

    def play(self, script: list[str], limit: int = 1, status: Optional[int] = 0) -> str:
        """Makes the calls of a script, and gives what the simulator printed."""
        shape = next(shape_of(line) for line in script if line.startswith("open"))
        lines = [hexadecimal(line, shape) for line in script]
        calls = self.folder / "calls.txt"
        calls.write_text("\n".join([*lines, ""]), encoding="utf-8")
        plus = [f"+script={calls}", f"+trace={self.trace}", f"+verilator+error+limit+{limit}"]
        done = run([self.folder / "driver/Vdriver", *plus], cwd=self.folder, status=status)
        return done.stdout + done.stderr

    def same(self, script: list[str], due: Optional[Path] = None) -> None:
        printed = self.play([*script, "close"])
        if "lfts_" in printed:
            raise Failure(printed)
        expect(self.trace.read_bytes(), due.read_bytes() if due else reference(script), script[0])

    def random_scripts(self) -> None:
        chance = Chance(36)
        for turn in range(30):
            self.same(chance.script(chance.shape(), memory=turn % 4 * 5, events=200))

    def cycles(self) -> None:
        shape = "open 2 2 8 1 2"
        issue, reply, fence, hit = "issue 1 0 0 0 8 0x0 -", "reply 1 0 0 0 -", "fence 1", "hit 0 1 0"
        calls = ["map", "cycle 5", issue, hit, reply, fence, "cycle 5", hit, "set_phase 0", hit, "cycle 70", hit]
        self.play([shape, *calls, "end_cycle", issue, "flush", "close"])
        due = [shape, reply, fence, hit, hit, hit, issue, hit, issue]
        expect(self.trace.read_bytes(), reference(due))
        lines = "1 0 5\n1 1 5\n2 0 5\n2 1 5\n2 2 5\n1 2 5\n2 3 70\n"
        expect((self.folder / "trace.lfts.map").read_text(encoding="utf-8"), lines)

    def misuses(self) -> None:
        """Those of misuses.txt that can be said in SystemVerilog."""
        made = 0
        for script, due in misuses():
            last = script[-1].split()
            known = script[0] in ABBREVIATIONS.values() and last[0] not in ("map", "close")
            if not known or due.status in ("BYTES", "NOT_OPEN") or "op is" in due.error:
                continue
            calls = [script[0].replace("path m.lfts ", ""), *script[1:]]
            printed = self.play([*calls, "close"] if "as was told" not in due.error else calls, limit=10)
            if due.call == "evict2" and "mask" in due.error:
                due_text = "lfts_evict2: mask has a bit above 63; allowed: bits 0 to 63"
            else:
                due_text = due.error
            if due_text not in printed:
                raise Failure(f"{script[-1]}: {due_text!r} is not in {printed!r}")
            made += 1
        if made < 40:
            raise Failure(f"only {made} misuses")

    def unknown(self) -> None:
        """The signals without a value are named by their bits, and nothing is recorded."""
        shape = "open 1 1 8 1 2"
        printed = self.play([shape, "unknown 3 5", "unknown 0 2", "refused", "close"], limit=10)
        told = [line.partition("port monitor")[2] for line in printed.splitlines() if "%Error" in line]
        expect(told, [f" {names} is X or Z; allowed: 0 and 1" for names in ("3: tag data", "0: size")], printed)
        expect("refused 2\n" in printed, True, printed)
        expect(self.trace.read_bytes(), reference([shape]))

    def fatal(self) -> None:
        """It closes no recorder, so the trace has no end. Before the first event nothing is flushed, unless the number of
        memory records was told."""
        shape, told, issue, later = "open 1 1 8 1 2", "memory_count 0", "issue 0 0 0 0 8 0x0 -", "issue 0 0 0 1 8 0x0 -"
        header, one = reference([shape])[:-END], reference([shape, issue])[:-END]
        cases: list[tuple[list[str], bytes]] = [
            ([], b""),
            ([told], header),
            ([issue], one),
            (["cycle 5", issue], header),
            (["cycle 5", issue, "end_cycle"], one),
        ]
        for calls, due in cases:
            printed = self.play([shape, *calls, "flush", later, "fatal"], status=None)
            expect("driver: no call fatal" in printed, True, printed)
            expect(self.trace.read_bytes(), due, str(calls))

    def compiles(self) -> None:
        include = run(["verilator", "--getenv", "VERILATOR_ROOT"]).stdout.strip() + "/include/vltstd"
        warnings = "-Wall -Wextra -Wpedantic -Wconversion -Wshadow -Werror".split()
        for compiler in (["gcc", "-std=c99"], ["g++", "-std=c++11", "-x", "c++"]):
            words = [*compiler, *warnings, f"-I{C}", "-isystem", include, "-c", str(SV / "lfts_dpi.c")]
            run([*words, "-o", "/dev/null"], seconds=120)


def check(checks: Checks) -> None:
    """Makes the checks of recorders/systemverilog."""
    if shutil.which("verilator") is None:
        checks.skip("recorders/systemverilog", "verilator not installed")
        same_calls.check(checks, None)
        return
    with tempfile.TemporaryDirectory(prefix="recorders_sv_") as folder:
        recorder = SvRecorder(checks, Path(folder))
        checks.check("recorders/systemverilog: the driver, by Verilator without a warning", recorder.build)
        recorder.all()
        monitors.check(checks, Path(folder))
        same_calls.check(checks, Path(folder, "driver/Vdriver"))
