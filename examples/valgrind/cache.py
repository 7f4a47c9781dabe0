"""A small lockup-free cache, driven by the loads and stores of a program as valgrind's tool lackey prints them.

Level one chooses the victim that was used longest ago, as valgrind's tool cachegrind does. It gives up the victim when
the miss is accepted, and keeps the way for the block that is on its way. So it holds the same blocks as a cache in
which each miss is over at once, while up to `registers` misses overlap. Lackey tells no values: stores write numbers of
this model, and memory is zero at first."""

from __future__ import annotations

import re
from collections import OrderedDict, deque
from dataclasses import dataclass, field
from typing import Deque, Dict, Iterable, Iterator, List, Optional, Tuple

import lfts

LINE = re.compile(r"^ ([LSM]) ([0-9a-f]+),(\d+)$")
TAGS = 16
LAST_ADDRESS = (1 << 32) * 64 - 1
OPS = {"L": (lfts.LOAD,), "S": (lfts.STORE,), "M": (lfts.LOAD, lfts.STORE)}


@dataclass(frozen=True)
class Geometry:
    """The sizes of both levels. There is one port and one bank. Level two has as many ways as level one at least, and a
    multiple of its sets: then there is always a victim in level two that level one does not hold."""

    block: int = 64
    sets1: int = 64
    ways1: int = 8
    registers1: int = 8
    entries1: int = 4
    sets2: int = 256
    ways2: int = 16
    registers2: int = 4
    time1: int = 6
    time2: int = 40

    def configuration(self) -> str:
        """The configuration as `score` reads it."""
        return f"""ports = 1
banks = 1
block = {self.block}
tags = {TAGS}
[level1]
sets = {self.sets1}
ways = {self.ways1}
organisation = "explicit"
registers = {self.registers1}
entries = {self.entries1}
[level2]
sets = {self.sets2}
ways = {self.ways2}
organisation = "explicit"
registers = {self.registers2}
entries = 1
"""


@dataclass
class Access:
    """A load or store of the program, which may be several requests."""

    letter: str
    address: int
    size: int
    misses: int = 0


@dataclass
class Request:
    """What the port sends: 1, 2, 4 or 8 bytes at a multiple of the size."""

    access: Access
    op: lfts.Op
    address: int
    size: int
    tag: int = 0
    data: bytes = b""
    stalled: bool = False


@dataclass
class Line:
    """The bytes of a block, and which of them were written since the line came."""

    data: bytearray
    mask: int = 0


@dataclass
class Register:
    """A register of level one."""

    number: int
    targets: List[Request] = field(default_factory=list)


@dataclass
class Counts:
    """What the program did, and the model made of it."""

    letters: Dict[str, int] = field(default_factory=lambda: {"L": 0, "S": 0, "M": 0})
    clipped: int = 0
    straddling: int = 0
    missed_twice: int = 0
    requests: int = 0


def accesses(lines: Iterable[str], block: int, counts: Counts) -> Iterator[Access]:
    """The data accesses of lackey's lines. Those that are longer than a block are cut, as cachegrind does."""
    for text in lines:
        found = LINE.match(text)
        if not found:
            continue
        letter, address, size = found[1], int(found[2], 16), int(found[3])
        counts.letters[letter] += 1
        counts.clipped += size > block
        size = min(size, block)
        counts.straddling += address // block != (address + size - 1) // block
        if address + size - 1 > LAST_ADDRESS:
            raise ValueError(f"the address {address:#x} is too high for a trace")
        yield Access(letter, address, size)


def requests(access: Access) -> Iterator[Request]:
    """The requests of an access: aligned pieces, in the order of their addresses. A read-modify-write is a load and
    then a store."""
    for op in OPS[access.letter]:
        address, rest = access.address, access.size
        while rest:
            size = max(size for size in (1, 2, 4, 8) if address % size == 0 and size <= rest)
            yield Request(access, op, address, size)
            address, rest = address + size, rest - size


class Cache:
    """Both levels, with the recorder that is told of each event."""

    def __init__(self, geometry: Geometry, recorder: lfts.Recorder, counts: Counts) -> None:
        self.geometry, self.recorder, self.counts = geometry, recorder, counts
        self.time = self.written = 0
        self.free = deque(range(TAGS))
        # of each set the blocks in the order of their use; one without a line is on its way
        self.one: List[OrderedDict[int, Optional[Line]]] = [OrderedDict() for _ in range(geometry.sets1)]
        self.two: List[OrderedDict[int, Line]] = [OrderedDict() for _ in range(geometry.sets2)]
        self.memory: Dict[int, bytearray] = {}
        self.queue: Deque[Request] = deque()
        self.ready: Deque[Tuple[Request, bytes]] = deque()
        self.registers: Dict[int, Register] = {}
        self.fetches: Dict[int, int] = {}  # the registers of level two, by block
        self.asked: Deque[Tuple[int, int]] = deque()  # the block, and when level two looks it up
        self.fetched: Deque[Tuple[int, int]] = deque()
        self.supplied: Deque[int] = deque()
        self.stalled_at_two: Optional[int] = None

    def run(self, program: Iterable[Access]) -> None:
        """Runs the whole program, one cycle after the other."""
        pending = (request for access in program for request in requests(access))
        request = next(pending, None)
        while request is not None or len(self.free) < TAGS:
            with self.recorder.cycle(self.time):
                self.reply()
                self.look_up()
                self.fetch()
                self.fill()
                self.accept()
                if request is not None and self.free and len(self.queue) < 2:
                    self.issue(request)
                    request = next(pending, None)
            self.time += 1

    def issue(self, request: Request) -> None:
        request.tag = self.free.popleft()
        if request.op == lfts.STORE:
            self.written += 1
            request.data = (self.written & 0xFFFFFFFF).to_bytes(8, "little")[: request.size]
        self.counts.requests += 1
        self.recorder.issue(0, 0, request.op, request.tag, request.size, request.address, request.data)
        self.queue.append(request)

    def reply(self) -> None:
        if self.ready:
            request, data = self.ready.popleft()
            self.recorder.reply(0, 0, request.tag, data)
            self.free.append(request.tag)

    def serve(self, request: Request, line: Line) -> None:
        """A load reads the line, a store writes it."""
        offset = request.address % self.geometry.block
        place = slice(offset, offset + request.size)
        if request.op == lfts.STORE:
            line.data[place] = request.data
            line.mask |= ((1 << request.size) - 1) << offset
        self.ready.append((request, b"" if request.op == lfts.STORE else bytes(line.data[place])))

    def accept(self) -> None:
        """The oldest request hits, misses, merges or waits."""
        if not self.queue:
            return
        request = self.queue[0]
        block = request.address // self.geometry.block
        own = self.one[block % self.geometry.sets1]
        register = self.registers.get(block)
        if block not in own:
            accepted = self.miss(request, block, own)
        elif register is None:
            self.recorder.hit(0, 0, request.tag)
            line = own[block]
            assert line is not None
            self.serve(request, line)
            accepted = True
        else:
            accepted = self.merge(request, register)
        if accepted:
            self.queue.popleft()
            own.move_to_end(block)

    def miss(self, request: Request, block: int, own: OrderedDict[int, Optional[Line]]) -> bool:
        """A primary miss takes a register and the way of the victim, if there is one of each."""
        if len(self.registers) == self.geometry.registers1:
            return self.stall(request)
        if len(own) == self.geometry.ways1:
            victim = next(iter(own))
            if victim in self.registers:  # it is used longest ago, and has not come yet
                return False
            self.evict1(victim, own.pop(victim))
        used = {register.number for register in self.registers.values()}
        number = min(set(range(self.geometry.registers1)) - used)
        self.recorder.primary(0, 0, request.tag, number)
        self.registers[block] = Register(number, [request])
        own[block] = None
        self.asked.append((block, self.time + self.geometry.time1))
        request.access.misses += 1
        self.counts.missed_twice += request.access.misses == 2
        return True

    def merge(self, request: Request, register: Register) -> bool:
        if len(register.targets) == self.geometry.entries1:
            return self.stall(request)
        self.recorder.merge(0, 0, request.tag, register.number)
        register.targets.append(request)
        return True

    def stall(self, request: Request) -> bool:
        """A request that waits is recorded once."""
        if not request.stalled:
            self.recorder.stall(0, 0, request.tag)
            request.stalled = True
        return False

    def evict1(self, block: int, line: Optional[Line]) -> None:
        assert line is not None
        self.recorder.evict1(0, block, line.mask, line.data)
        write_back(self.two[block % self.geometry.sets2][block], line)

    def look_up(self) -> None:
        """Level two looks up the next block that level one asked for."""
        if not self.asked or self.asked[0][1] > self.time:
            return
        block = self.asked[0][0]
        own = self.two[block % self.geometry.sets2]
        if block in own:
            own.move_to_end(block)
            self.recorder.second_hit(0, block)
            self.supplied.append(block)
        elif len(self.fetches) < self.geometry.registers2:
            number = min(set(range(self.geometry.registers2)) - set(self.fetches.values()))
            self.recorder.second_primary(0, block, number)
            self.fetches[block] = number
            self.fetched.append((block, self.time + self.geometry.time2))
        else:
            if self.stalled_at_two != block:
                self.recorder.second_stall(0, block)
            self.stalled_at_two = block
            return
        self.stalled_at_two = None
        self.asked.popleft()

    def fetch(self) -> None:
        """Memory gives level two a block. The victim is one that level one does not hold."""
        if not self.fetched or self.fetched[0][1] > self.time:
            return
        block = self.fetched.popleft()[0]
        own = self.two[block % self.geometry.sets2]
        if len(own) == self.geometry.ways2:
            victim = next(other for other in own if other not in self.one[other % self.geometry.sets1])
            line = own.pop(victim)
            self.recorder.evict2(0, victim, [line.mask], [line.data])
            below = Line(self.memory.setdefault(victim, bytearray(self.geometry.block)))
            write_back(below, line)
        data = bytearray(self.memory.get(block, bytes(self.geometry.block)))
        self.recorder.fill2(0, block, [data])
        own[block] = Line(data)
        del self.fetches[block]
        self.supplied.append(block)

    def fill(self) -> None:
        """Level two gives level one a block, and the targets of its register are served."""
        if not self.supplied:
            return
        block = self.supplied.popleft()
        line = Line(bytearray(self.two[block % self.geometry.sets2][block].data))
        self.recorder.fill1(0, block, line.data)
        for request in self.registers.pop(block).targets:
            self.serve(request, line)
        self.one[block % self.geometry.sets1][block] = line


def write_back(below: Line, line: Line) -> None:
    """The written bytes of a line go to the level below."""
    for place in range(len(line.data)):
        if line.mask >> place & 1:
            below.data[place] = line.data[place]
    below.mask |= line.mask
