"""The checks of recorders/c/lfts.h. All calls are made by tests/recording/driver.c."""

from __future__ import annotations

import shutil
import struct
import subprocess
import tempfile
from dataclasses import dataclass, field
from functools import partial
from pathlib import Path
from typing import Callable, Optional

from outside import TOP, Checks, Failure, expect, judge, run

from recording.reference import EVERY_KIND, EXAMPLES, Chance, Shape, every_kind, every_kind_trace, reference

C = TOP / "recorders/c"
HERE = Path(__file__).resolve().parent
WARNINGS = "-Wall -Wextra -Wpedantic -Wconversion -Wshadow -Werror".split()
COMPILERS = {
    "C99 by gcc": ["gcc", "-std=c99"],
    "C17 by gcc": ["gcc", "-std=c17"],
    "C99 by clang": ["clang", "-std=c99"],
    "C++11 by g++": ["g++", "-std=c++11", "-x", "c++"],
    "C++20 by g++": ["g++", "-std=c++20", "-x", "c++"],
    "C++11 by clang++": ["clang++", "-std=c++11", "-x", "c++"],
}
SANITIZED = "-g -O1 -fsanitize=address,undefined -fno-sanitize-recover=all".split()
STATUSES = (
    "OK NOT_OPEN RANGE SIZE ALIGNMENT WRONG_BANK BYTES VERSION MEMORY_ORDER MEMORY_COUNT TIME CYCLE_FULL LOG_FULL "
    "OUT_OF_MEMORY IO UNKNOWN"
).split()
CYCLE_EVENTS = 1024
BUFFER_BYTES = 65536
ABBREVIATIONS = {
    "V1": "open path m.lfts 2 4 16 1 1",
    "V2": "open path m.lfts 2 4 16 1 2",
    "V3": "open path m.lfts 2 4 16 4 3",
    "ZEROS": "00" * 16,
    "ZEROS4": "00" * 64,
}


@dataclass(frozen=True)
class Answer:
    """What the driver printed of one call."""

    call: str
    status: str
    error: str


@dataclass
class Driver:
    """A driver that was built, and the scripts that it was given."""

    words: list[str]
    folder: Path
    scripts: list[list[str]] = field(default_factory=list)

    def start(self, script: list[str], trace: Optional[Path] = None) -> subprocess.CompletedProcess[bytes]:
        """Makes the calls of a script. What it writes to standard output goes to the file."""
        self.scripts.append(script)
        text = "\n".join([*script, ""]).encode()
        with open(trace or "/dev/null", "wb") as out:
            return subprocess.run(
                self.words, input=text, stdout=out, stderr=subprocess.PIPE, timeout=120, check=False, cwd=self.folder
            )

    def run(self, script: list[str], trace: Optional[Path] = None) -> list[Answer]:
        """Makes the calls of a script, and gives the answer to each."""
        done = self.start(script, trace)
        if done.returncode != 0:
            raise Failure(f"driver: status {done.returncode}\n{done.stderr.decode(errors='replace')}")
        return answers(done.stderr.decode())

    def record(self, script: list[str], trace: Optional[Path] = None) -> None:
        """Makes the calls of a script, none of which may be refused."""
        all_pass(self.run(script, trace))


def answers(text: str) -> list[Answer]:
    lines = [line.split(" ", 2) for line in text.splitlines()]
    return [Answer(line[0], STATUSES[int(line[1])], line[2] if len(line) > 2 else "") for line in lines]


def all_pass(found: list[Answer]) -> None:
    for answer in found:
        if answer.status != "OK":
            raise Failure(f"{answer.call}: {answer.status} {answer.error}")


def build(compiler: list[str], options: list[str], source: Path, program: Path) -> None:
    run([*compiler, *WARNINGS, *options, f"-I{C}", source, "-o", program], seconds=120)


def opened(script: list[str], output: str) -> list[str]:
    """The script of a reference, with its output, and closed."""
    return [script[0].replace("open", f"open {output}"), *script[1:], "close"]


def misuses() -> list[tuple[list[str], Answer]]:
    """The rows of misuses.txt: calls, and the answer to the last."""
    rows = []
    for line in (HERE / "misuses.txt").read_text(encoding="utf-8").splitlines():
        if line.startswith("#"):
            continue
        calls, answer = line.split(" => ")
        script = [" ".join(ABBREVIATIONS.get(word, word) for word in call.split()) for call in calls.split("; ")]
        status, error = answer.split(" ", 1)
        name = script[-1].split()[0]
        rows.append((script, Answer(name, status, f"lfts_{name}: {error}")))
    return rows


def is_told(driver: Driver, script: list[str], due: Answer) -> None:
    """A misuse is told by status and text, and records nothing: the trace is that of the calls without it."""
    *before, call = script
    after: list[str] = []
    if before and due.status not in ("IO", "NOT_OPEN") and due.call != "close":
        after = [f"memory 0 {ABBREVIATIONS['ZEROS']}"] if "told" in due.error else []
        after += ["fence 1" if before[0] != ABBREVIATIONS["V1"] else "stall 3 0 0", "close"]
    found = driver.run([*before, call, *after])
    expect(found.pop(len(before)), due, call)
    all_pass(found)
    if after:
        trace = driver.folder / "m.lfts"
        left = trace.read_bytes()
        driver.record([*before, *after])
        expect(left, trace.read_bytes(), f"the trace without {call}")


class CRecorder:
    """The checks over a driver that was built with sanitizers."""

    def __init__(self, checks: Checks, program: Path, folder: Path) -> None:
        self.checks, self.program, self.folder = checks, program, folder
        self.driver = Driver([str(folder / "driver_sanitized")], folder)
        self.plain = Driver([str(folder / "driver")], folder)

    def all(self) -> None:
        for name, compiler in COMPILERS.items():
            for source in (HERE / "driver.c", C / "example.c"):
                check = partial(build, compiler, ["-O2"], source, self.folder / "compiled")
                self.checks.check_with([compiler[0]], f"recorders/c: {source.name} as {name}", check)
        build(["gcc", "-std=c99"], ["-O2"], HERE / "driver.c", self.folder / "driver")
        build(
            ["clang" if shutil.which("clang") else "gcc", "-std=c99"],
            SANITIZED,
            HERE / "driver.c",
            self.folder / "driver_sanitized",
        )
        for version in EVERY_KIND:
            self.checks.check(f"recorders/c: each kind of version {version}", partial(self.every_kind, version))
        self.checks.check("recorders/c: random scripts give the bytes of the format", self.random_scripts)
        self.checks.check("recorders/c: each misuse is told and records nothing", self.misuses)
        for name, named in self.named().items():
            self.checks.check(f"recorders/c: {name}", named)
        self.checks.check_with(["valgrind"], "recorders/c: no finding under valgrind", self.under_valgrind)
        self.checks.check("recorders/c: the example is judged", self.example)
        self.checks.check_with(["clang-format"], "recorders/c: formatted by clang-format", self.formatted)

    def named(self) -> dict[str, Callable[[], None]]:
        return {
            "the events of a cycle are numbered by phase": self.phases,
            "a fence stands after replies and before issues": self.fence_in_cycle,
            "a flush before the first event": self.early_flush,
            "what code around it refuses": self.rejected,
            "a cycle has a bound": self.cycle_full,
            "a log has a bound": self.log_full,
            "the time map": self.time_map,
            "memory of any size, to a file": self.much_memory,
            "memory of any size, to a pipe": self.much_memory_to_pipe,
            "many recorders at once": self.many,
            "a write function that fails": self.failing_function,
            "a full disk": self.full_disk,
            "a file that was begun by others": self.file_with_beginning,
            "a killed model leaves a trace that is Truncated": self.killed,
        }

    def judged(self, config: str, trace: Path) -> str:
        return judge(self.program, EXAMPLES / config, trace)

    def write(self, text: str, name: str) -> Path:
        path = self.folder / name
        path.write_text(text, encoding="utf-8")
        return path

    def every_kind(self, version: int) -> None:
        script = every_kind(version)
        due = every_kind_trace(version).read_bytes()
        expect(reference(script), due, "the reference")
        trace = self.folder / "trace.lfts"
        for output in ("path trace.lfts", "file trace.lfts", "function trace.lfts 100000"):
            self.driver.record(opened(script, output))
            expect(trace.read_bytes(), due, output)
        self.driver.record(opened(script, "file -"), trace)
        expect(trace.read_bytes(), due, "standard output")
        expect(self.judged(EVERY_KIND[version], trace), f"yes events={len(script) - 3}")

    def random_scripts(self) -> None:
        chance = Chance(35)
        for turn in range(60):
            script = chance.script(chance.shape(), memory=turn % 4 * 5, events=200)
            cycles = [line for call in script[1:] for line in (call, "flush") if line != "flush" or turn % 8 == 7]
            self.driver.record(opened([script[0], *cycles], "path trace.lfts"))
            expect((self.folder / "trace.lfts").read_bytes(), reference(script), f"script {turn}")

    def misuses(self) -> None:
        for script, due in misuses():
            is_told(self.driver, script, due)

    def phases(self) -> None:
        events = {
            "reply 0 0 0 0 -": 0,
            "second_hit 0 0": 1,
            "second_primary 0 0 3": 1,
            "second_merge 0 0 3": 1,
            "second_stall 0 0": 1,
            "fill2 0 0 " + "00" * 16: 1,
            "evict2 0 0 0 0 -": 1,
            "hit 0 0 0": 2,
            "primary 0 0 0 1": 2,
            "merge 0 0 0 1": 2,
            "stall 0 0 0": 2,
            "fill1 0 0 " + "00" * 8: 2,
            "evict1 0 0 0 -": 2,
            "issue 0 0 0 0 8 0x0 -": 3,
        }
        chance = Chance(7).random
        for _ in range(20):
            called = chance.sample(sorted(events), len(events))
            ordered = sorted(called, key=events.__getitem__)
            self.same("open 1 1 8 2 3", ["cycle 4", *called, "cycle 5", *called], [*ordered, *ordered])
        self.same(
            "open 1 1 8 1 2", ["cycle 4", "hit 0 0 0", "cycle 4", "reply 0 0 0 0 -"], ["reply 0 0 0 0 -", "hit 0 0 0"]
        )
        self.same(
            "open 1 1 8 1 2",
            ["cycle 4", "set_phase 2", "reply 0 0 0 0 -", "set_phase 0", "hit 0 0 0", "hit 0 0 1"],
            ["hit 0 0 0", "reply 0 0 0 0 -", "hit 0 0 1"],
        )
        self.same(
            "open 1 1 8 1 2",
            ["cycle 4", "hit 0 0 0", "end_cycle", "hit 0 0 1", "reply 0 0 0 0 -"],
            ["hit 0 0 0", "hit 0 0 1", "reply 0 0 0 0 -"],
        )

    def same(self, shape: str, called: list[str], ordered: list[str]) -> None:
        """The calls give the trace in which the events stand in that order."""
        self.driver.record(opened([shape, *called], "path trace.lfts"))
        expect((self.folder / "trace.lfts").read_bytes(), reference([shape, *ordered]), "; ".join(called))

    def fence_in_cycle(self) -> None:
        reply, issue = "reply 0 0 0 0 -", "issue 0 0 0 0 8 0x0 -"
        other = "reply 1 0 0 0 -"
        self.same("open 1 1 8 1 2", ["cycle 1", issue, "fence 0", reply], [reply, "fence 0", issue])
        self.same("open 2 1 8 1 2", ["cycle 1", other, "fence 0"], ["fence 0", other])
        late = ["cycle 1", "set_phase 3", reply, "fence 0", "fence 0", other, "fence 1", issue]
        self.same("open 2 1 8 1 2", late, [other, "fence 1", reply, "fence 0", "fence 0", issue])
        given = ["cycle 1", reply, "set_phase 2", "fence 0", "second_hit 0 0", "fence 0", "hit 0 0 0"]
        self.same("open 2 1 8 1 2", given, [reply, "fence 0", "second_hit 0 0", "fence 0", "hit 0 0 0"])

    def early_flush(self) -> None:
        """Before the first event a flush does nothing: the count of the memory records may still come."""
        script = Chance(10).script(Shape(2, 4, 64, 1, 2), memory=3, events=20)
        count, memory, events = "memory_count 3", script[1:4], script[4:]
        for output in ("path trace.lfts", "file trace.lfts", "function trace.lfts 100000"):
            for calls in (["flush", count, "flush", *memory], ["flush", memory[0], "flush", *memory[1:], "flush"]):
                self.driver.record(opened([script[0], *calls, "cycle 1", "flush", "end_cycle", *events], output))
                expect((self.folder / "trace.lfts").read_bytes(), reference(script), output)

    def rejected(self) -> None:
        """What code around the recorder refuses is counted, and is not recorded."""
        script = ["open path trace.lfts 1 1 8 1 2", "set_phase 0", "reject 15 the data is X", "cycle 1", "hit 0 0 0"]
        found = self.driver.run([*script, "reply 0 0 0 0 -", "refused 1", "close", "reject 15 closed"])
        expect(found.pop(2), Answer("reject", "UNKNOWN", "the data is X"))
        expect(found.pop().status, "NOT_OPEN")
        all_pass(found)
        due = reference(["open 1 1 8 1 2", "reply 0 0 0 0 -", "hit 0 0 0"])
        expect((self.folder / "trace.lfts").read_bytes(), due)

    def cycle_full(self) -> None:
        script = ["open path trace.lfts 1 1 8 1 2", "cycle 9", *["stall 0 0 0"] * CYCLE_EVENTS]
        found = self.driver.run([*script, "hit 0 0 0", "cycle 10", "hit 0 0 0", "close"])
        error = f"lfts_hit: events of the cycle at 9 are {CYCLE_EVENTS}; allowed: no more"
        expect(found.pop(len(script)), Answer("hit", "CYCLE_FULL", error))
        all_pass(found)
        due = reference(["open 1 1 8 1 2", *["stall 0 0 0"] * CYCLE_EVENTS, "hit 0 0 0"])
        expect((self.folder / "trace.lfts").read_bytes(), due)

    def log_full(self) -> None:
        most = 1 << 20
        script = ["open path full.lfts 1 2 8 1 1", *["stall 1 0 0"] * most]
        found = self.plain.run([*script, "stall 1 0 0", "stall 0 0 0", "cycle 1", "stall 1 0 0", "close"])
        self.plain.scripts.pop()
        expect(
            found.pop(len(script)),
            Answer("stall", "LOG_FULL", f"lfts_stall: records of log 2 are {most}; allowed: no more"),
        )
        expect(found.pop(len(script) + 2).status, "LOG_FULL")
        all_pass(found)
        trace = self.folder / "full.lfts"
        expect(struct.unpack("<I", trace.read_bytes()[-4:])[0], most + 1, "records")
        trace.unlink()

    def time_map(self) -> None:
        script = ["hit 0 0 0", "cycle 5", "issue 1 0 0 0 8 0x0 -", "reply 1 0 0 0 -", "hit 0 0 0", "fence 1"]
        script += ["cycle 18446744073709551615", "hit 0 0 0", "fill1 1 1 0000000000000000", "end_cycle", "hit 0 0 0"]
        due = "1 0 5\n1 1 5\n2 1 5\n1 2 5\n2 2 18446744073709551615\n3 0 18446744073709551615\n"
        for output in ("path trace.map", "file trace.map", "function trace.map 1000"):
            self.driver.record(["open path trace.lfts 2 2 8 1 2", f"map {output}", *script, "close"])
            expect((self.folder / "trace.map").read_text(encoding="utf-8"), due, output)

    def much_memory(self) -> None:
        script = Chance(3).script(Shape(2, 4, 64, 1, 2), memory=2000, events=50)
        for output in ("path trace.lfts", "file trace.lfts"):
            self.driver.record(opened(script, output))
            expect((self.folder / "trace.lfts").read_bytes(), reference(script), output)

    def much_memory_to_pipe(self) -> None:
        script = Chance(4).script(Shape(2, 4, 64, 1, 2), memory=2000, events=3000)
        told = opened([script[0], "memory_count 2000", *script[1:]], "file /dev/stdout")
        shell = Driver(["sh", "-c", f"{self.driver.words[0]} | cat"], self.folder)
        shell.record(told, self.folder / "trace.lfts")
        expect((self.folder / "trace.lfts").read_bytes(), reference(script), "with a count")
        found = self.driver.run(opened(script, "function trace.lfts 10000000"))
        refused = next(answer for answer in found if answer.status != "OK")
        fit = (BUFFER_BYTES - 16) // 68
        error = f"lfts_memory: memory records are {fit}; allowed: more only after lfts_memory_count"
        expect(refused, Answer("memory", "MEMORY_COUNT", error))

    def many(self) -> None:
        chance = Chance(9)
        scripts = [opened(chance.script(chance.shape(), 3, 100), f"path many{place}.lfts") for place in range(4)]
        mixed = [line for calls in zip(*scripts) for place, call in enumerate(calls) for line in (f"use {place}", call)]
        self.driver.record(mixed)
        for place, script in enumerate(scripts):
            due = reference([script[0].replace(f"path many{place}.lfts ", ""), *script[1:-1]])
            expect((self.folder / f"many{place}.lfts").read_bytes(), due, f"recorder {place}")

    def failing_function(self) -> None:
        script = Chance(5).script(Shape(1, 1, 64, 1, 2), memory=0, events=4000)
        found = self.driver.run([*opened(script, "function trace.lfts 70000"), "close"])
        first = next(place for place, answer in enumerate(found) if answer.status != "OK")
        error = f"lfts_{found[first].call}: output: the write function failed"
        for answer in found[first:-1]:
            expect(answer, Answer(answer.call, "IO", error))
        size = (self.folder / "trace.lfts").stat().st_size
        if not 70000 - BUFFER_BYTES < size <= 70000:
            raise Failure(f"{size} bytes were written")
        config = self.write(CONFIG.format(ports=1, banks=1, block=64), "one.toml")
        expect(judge(self.program, config, self.folder / "trace.lfts")[:24], "refused format Truncated")

    def full_disk(self) -> None:
        for output in ("path /dev/full", "file /dev/full"):
            found = self.driver.run([f"open {output} 1 1 8 1 2", "fence 0", "flush", "fence 0", "close"])
            due = "lfts_flush: output: No space left on device"
            expect([(answer.status, answer.error) for answer in found[2:]], [("IO", due)] * 3, output)
            expect(found[1].status, "OK", output)

    def file_with_beginning(self) -> None:
        """The count is patched where the trace begins in its file."""
        script = Chance(8).script(Shape(2, 4, 64, 1, 2), memory=2000, events=50)
        trace = self.folder / "trace.lfts"
        done = subprocess.run(
            ["sh", "-c", f"(printf before; exec {self.driver.words[0]}) > {trace}"],
            input="\n".join([*opened(script, "file -"), ""]).encode(),
            stderr=subprocess.PIPE,
            timeout=120,
            check=True,
            cwd=self.folder,
        )
        all_pass(answers(done.stderr.decode()))
        expect(trace.read_bytes(), b"before" + reference(script))

    def killed(self) -> None:
        script = Chance(6).script(Shape(2, 4, 64, 1, 2), memory=2000, events=9000)
        config = self.write(CONFIG.format(ports=2, banks=4, block=64), "four.toml")
        trace = self.folder / "trace.lfts"
        sizes = []
        for length in (1, 900, 1500, 2001, 2002, 2300, 5000, 11001):
            done = self.driver.start([*opened(script[:length], "path trace.lfts")[:-1], "kill"])
            expect(done.returncode, -9, "the driver's status")
            line = judge(self.program, config, trace)
            expect(line[:24], "refused format Truncated", f"killed after {length} calls")
            sizes.append(trace.stat().st_size)
            lost = len(reference(script[:length])) - 8 - sizes[-1]
            if lost > BUFFER_BYTES:
                raise Failure(f"{lost} bytes were lost after {length} calls")
        if not sizes[0] == 0 < sizes[-1]:
            raise Failure(f"sizes {sizes}")

    def under_valgrind(self) -> None:
        """All scripts of the other checks, but for those that end by a signal, in one run."""
        words = "valgrind -q --error-exitcode=99 --leak-check=full --show-leak-kinds=definite,possible".split()
        scripts = [script for script in self.driver.scripts if "kill" not in script and "file -" not in script[0]]
        short = [script for script in scripts if len(script) < 1500 and script[-1] == "close"]
        driver = Driver([*words, *self.plain.words], self.folder)
        driver.run([line for script in short for line in script])

    def example(self) -> None:
        build(["gcc", "-std=c99"], SANITIZED, C / "example.c", self.folder / "example")
        run([self.folder / "example", "example.lfts"], cwd=self.folder)
        config = C / "example.toml"
        line = judge(self.program, config, self.folder / "example.lfts")
        if not line.startswith("yes events="):
            raise Failure(line)

    def formatted(self) -> None:
        folders = (C, HERE, TOP / "recorders/systemverilog", TOP / "library", TOP / "tests/linked", TOP / "bench")
        files = [path for folder in folders for path in folder.iterdir() if path.suffix in (".c", ".cpp", ".h", ".hpp")]
        run(["clang-format", "--dry-run", "-Werror", *files])


CONFIG = """ports = {ports}
banks = {banks}
block = {block}
tags = 4

[level1]
sets = 1
ways = 1
organisation = "explicit"
registers = 1
entries = 1

[level2]
sets = 1
ways = 1
organisation = "explicit"
registers = 1
entries = 1
"""


def check(checks: Checks, program: Path) -> None:
    """Makes the checks of recorders/c."""
    with tempfile.TemporaryDirectory(prefix="recorders_c_") as folder:
        CRecorder(checks, program, Path(folder)).all()
