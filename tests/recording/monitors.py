"""The checks of recorders/systemverilog/lfts_monitor.sv: under Verilator, and where there is an X under Icarus Verilog."""

from __future__ import annotations

import re
from functools import partial
from pathlib import Path
from outside import TOP, Checks, Failure, expect, run

from recording.reference import reference

SV = TOP / "recorders/systemverilog"
HERE = Path(__file__).resolve().parent

# The calls of lfts_pkg that the monitors make, with their arguments.
CALLS = {
    "reply": "port bank tag size data",
    "issue": "port bank op tag size address data",
    "fence": "port",
    "hit": "bank port tag",
    "stall": "bank port tag",
    "primary": "bank port tag miss",
    "merge": "bank port tag miss",
    "fill1": "bank block data",
    "evict1": "bank block mask data",
    "second_hit": "bank block",
    "second_stall": "bank block",
    "second_primary": "bank block miss",
    "second_merge": "bank block miss",
    "fill2": "bank block data",
    "evict2": "bank block mask data",
}
# What Icarus Verilog 11 does not know of the monitors, and what says the same to it.
FOR_ICARUS = {
    r"\$sampled\(": "(",
    r"!= null": "!= 0",
    r"parameter int unsigned": "parameter",
    r"lfts_op_t'\(i\.store\)": "i.store",
    r"bit stalled\[int unsigned\]": "reg stalled[0:255]",
    r"stalled\.exists\(i\.block\) == 0": "!stalled[i.block[7:0]]",
    r"stalled\[i\.block\] = 1": "stalled[i.block[7:0]] = 1",
    r"stalled\.delete\(i\.block\)": "stalled[i.block[7:0]] = 0",
}
# What unknown.sv must have the monitors call. Of what is unknown the signals are named.
PORT = "port monitor 1"
DUE_UNKNOWN = f"""\
reply 1 0 3 2 a2a1
{PORT}: reply_tag reply_data
{PORT}: reply
{PORT}: fence
issue 1 0 0 3 2 8 0
{PORT}: issue_data
{PORT}: issue_store
hit 2 0 3
level-one monitor 2: tag
evict1 2 5 1 a1
level-one monitor 2: evict_mask
level-one monitor 2: fill_data
"""
DUE_TRACE = [
    "open 2 1 8 1 2",
    "issue 0 0 1 4 2 0x8 a1a2",
    "issue 1 0 1 5 1 0x1 b1",
    "second_stall 0 3",
    "second_stall 0 7",
    "second_hit 0 3",
    "second_stall 0 3",
    "reply 1 0 5 0 -",
    "fence 1",
]
# so many edges have its events; in whole units of time some of them are one
EDGES = 6


def stand_in() -> str:
    """A package lfts_pkg that prints each call."""
    lines = ["package lfts_pkg;", "  int lfts_recorder = 1;"]
    lines += ["  task lfts_edge(int r, real at, longint shown);", "  endtask"]
    lines += ["  task lfts_unknown(int r, string monitor, int place, bit [7:0] unknown, string names);"]
    lines += ['    $display("unknown %s %0d|%b|%s", monitor, place, unknown, names);', "  endtask"]
    for name, words in CALLS.items():
        arguments = words.split()
        values = ", ".join(f"bit [63:0] {argument}" for argument in arguments)
        lines.append(f"  task lfts_{name}(int r, {values});")
        lines.append(f'    $display("{name}{" %0h" * len(arguments)}", {", ".join(arguments)});')
        lines.append("  endtask")
    return "\n".join([*lines, "endpackage", ""])


def named(line: str) -> str:
    """The line of a call, where those of lfts_unknown have the names of the signals."""
    if not line.startswith("unknown "):
        return line
    monitor, bits, names = line[len("unknown ") :].split("|")
    chosen = [name for name, bit in zip(names.split(), reversed(bits)) if bit == "1"]
    return f"{monitor}: {' '.join(chosen)}"


def unknown(folder: Path) -> None:
    """An event with an X or Z in a signal that it needs is told with the signal, and not recorded."""
    text = (SV / "lfts_monitor.sv").read_text(encoding="utf-8")
    for pattern, replacement in FOR_ICARUS.items():
        text, made = re.subn(pattern, replacement, text)
        if made == 0:
            raise Failure(f"no {pattern}")
    (folder / "monitor.sv").write_text(text, encoding="utf-8")
    (folder / "package.sv").write_text(stand_in(), encoding="utf-8")
    run(["iverilog", "-g2012", "-o", "unknown", "package.sv", "monitor.sv", HERE / "unknown.sv"], cwd=folder)
    printed = run(["vvp", "-n", "unknown"], cwd=folder).stdout.splitlines()
    expect("".join(f"{named(line)}\n" for line in printed if "finish" not in line), DUE_UNKNOWN)


def recorded(folder: Path, threads: int) -> None:
    """Arrays of ports, blocks that stall, signals assigned at the edge, edges within a unit of time, other names."""
    built = folder / f"monitors_{threads}"
    words = ["verilator", "--binary", "--timing", "-j", "1", "-Wall", "--top-module", "monitors", "-Mdir", str(built)]
    # what the design of the test does on purpose
    words += ["-Wno-BLKSEQ", "-Wno-MULTIDRIVEN", "-Wno-TIMESCALEMOD", "-Wno-DECLFILENAME", "-Wno-UNUSED"]
    # the monitors, which have no unit of time of their own, get that of the design
    words += ["--timescale", "1ns/1ps", "--threads", str(threads)]
    words += ["-CFLAGS", f"-I{TOP / 'recorders/c'}", "-MAKEFLAGS", "OPT_FAST=-O0"]
    sources = [SV / "lfts_pkg.sv", SV / "lfts_monitor.sv", HERE / "monitors.sv", SV / "lfts_dpi.c"]
    run([*words, *sources], seconds=300, cwd=folder)
    trace = folder / f"monitors_{threads}.lfts"
    printed = run([built / "Vmonitors", f"+trace={trace}"], cwd=folder).stdout
    if "Error" in printed:
        raise Failure(printed)
    expect(trace.read_bytes(), reference(DUE_TRACE))
    times = (folder / f"{trace.name}.map").read_text(encoding="utf-8").split()[2::3]
    expect(len(times), len(DUE_TRACE) - 1)
    expect(len(set(times)) < EDGES, True, f"{times}: the edges have times of their own")


def check(checks: Checks, folder: Path) -> None:
    """Makes the checks of the monitors."""
    checks.check_with(["iverilog", "vvp"], "recorders/systemverilog: X and Z are told", lambda: unknown(folder))
    for threads in (1, 2):
        name = f"recorders/systemverilog: the monitors, in {threads} thread{'s' * (threads > 1)}"
        checks.check_with(["verilator"], name, partial(recorded, folder, threads))
