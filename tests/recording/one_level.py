"""A cache with one level, recorded as docs/RECORDING.md says: level two is the mirror of level one.

    record(path)    writes the trace of a random run
    CONFIG          the configuration of the cache"""

from __future__ import annotations

import random
import sys
from pathlib import Path
from typing import Dict, List, NamedTuple

from outside import TOP

sys.path.insert(0, str(TOP / "recorders/python/src"))
import lfts  # noqa: E402

SETS, WAYS, REGISTERS, ENTRIES, TAGS = 2, 2, 3, 2, 6
# blocks that are far apart in memory share a set
BLOCKS = [place + 32768 * far for place in range(4) for far in range(6)]
LEVEL = f"""sets = {SETS}
ways = {WAYS}
organisation = "explicit"
registers = {REGISTERS}
"""
CONFIG = f"""ports = 1
banks = 1
block = 8
tags = {TAGS}
[level1]
{LEVEL}entries = {ENTRIES}
[level2]
{LEVEL}entries = 1
"""


class Request(NamedTuple):
    """A load or a store of a whole block."""

    tag: int
    block: int
    stored: bytes


class Cache:
    """Level one over a memory. What it does at level two in the trace stands in no level of its own."""

    def __init__(self, recorder: lfts.Recorder, seed: int) -> None:
        self.recorder, self.random = recorder, random.Random(seed)
        self.lines: Dict[int, bytes] = {}
        self.masks: Dict[int, int] = {}
        self.memory: Dict[int, bytes] = {}
        self.targets: Dict[int, List[Request]] = {}
        self.registers: Dict[int, int] = {}
        self.free = list(range(TAGS))

    def serve(self, request: Request) -> None:
        if request.stored:
            self.lines[request.block], self.masks[request.block] = request.stored, 0xFF
        self.recorder.reply(0, 0, request.tag, b"" if request.stored else self.lines[request.block])
        self.free.append(request.tag)

    def accept(self) -> None:
        block = self.random.choice(BLOCKS)
        free = set(range(REGISTERS)) - set(self.registers.values())
        full = len(self.targets.get(block, [])) == ENTRIES
        if not self.free or (block not in self.lines and (full or block not in self.registers and not free)):
            return
        request = Request(self.free.pop(0), block, self.random.choice((b"", self.random.randbytes(8))))
        op = lfts.STORE if request.stored else lfts.LOAD
        self.recorder.issue(0, 0, op, request.tag, 8, block * 8, request.stored)
        if block in self.lines:
            self.recorder.hit(0, 0, request.tag)
            self.serve(request)
        elif block in self.registers:
            self.recorder.merge(0, 0, request.tag, self.registers[block])
            self.targets[block].append(request)
        else:
            self.registers[block] = register = min(free)
            self.recorder.primary(0, 0, request.tag, register)
            self.recorder.second_primary(0, block, register)
            self.targets[block] = [request]

    def fill(self) -> None:
        block = self.random.choice(list(self.registers))
        of_set = [line for line in self.lines if line % SETS == block % SETS]
        if len(of_set) == WAYS:
            victim = self.random.choice(of_set)
            mask, data = self.masks.pop(victim), self.lines.pop(victim)
            self.recorder.evict1(0, victim, mask, data)
            self.recorder.evict2(0, victim, [mask], [data])
            self.memory[victim] = data
        data = self.memory.get(block, bytes(8))
        self.recorder.fill2(0, block, [data])
        self.recorder.fill1(0, block, data)
        self.lines[block], self.masks[block] = data, 0
        del self.registers[block]
        for request in self.targets.pop(block):
            self.serve(request)


def record(path: Path, seed: int = 1) -> None:
    """Writes the trace of a run, in the order in which things happen."""
    with lfts.Recorder(path, ports=1, banks=1, block=8) as recorder:
        cache = Cache(recorder, seed)
        for _ in range(3000):
            if cache.registers and cache.random.random() < 0.4:
                cache.fill()
            else:
                cache.accept()
