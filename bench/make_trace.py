#!/usr/bin/env python3
"""A small lockup-free cache model that records what it does: it writes legal traces of any shape and
size, for benchmarks and as an example of how a model of your own records a trace.

    make_trace.py --events 100000 --ports 4 --banks 4 --out big.lfts --config big.toml
    make_trace.py --version 3 --factor 2 --out wide.lfts --config wide.toml
    make_trace.py --log-by-log --out logs.lfts --config logs.toml
    make_trace.py --mixed --out mixed.lfts --config mixed.toml

In versions 2 and 3 a port drains its tags now and then and records a fence. In version 3 a block of
level two may be 2 or 4 blocks of level one. Both levels hold copies of the bytes, as a cache does.

It records by `lfts.Recorder` of recorders/python: one call for each event, which takes the next number
of the event's bank. The format is in docs/FORMAT.md, the rules are in docs/RULES.md, and the
configuration that `--config` writes is that of the same shape."""

from __future__ import annotations

import argparse
import collections
import functools
import io
import pathlib
import random
import sys
from dataclasses import dataclass
from typing import BinaryIO, Callable, Deque, Dict, Generic, List, NamedTuple, Optional, Set, Tuple, TypeVar, Union

sys.path.insert(0, str(pathlib.Path(__file__).resolve().parent.parent / "recorders/python/src"))
import lfts  # noqa: E402
from lfts import LOAD, STORE  # noqa: E402

Memory = Dict[int, bytearray]
Out = Union[str, BinaryIO]
Logs = List[List[bytes]]
Asked = TypeVar("Asked")
Held = TypeVar("Held")


@dataclass
class Shape:
    """The arguments: the cache, and what is run on it."""

    version: int
    factor: int
    ports: int
    banks: int
    block: int
    tags: int
    sets1: int
    ways1: int
    organisation1: str
    registers1: int
    entries1: int
    sets2: int
    ways2: int
    organisation2: str
    registers2: int
    entries2: int
    events: int
    seed: int
    footprint: int
    fences: int
    crowded: int
    log_by_log: bool
    mixed: bool
    out: str
    config: Optional[str]


class Request(NamedTuple):
    port: int
    tag: int
    op: lfts.Op
    size: int
    block: int
    offset: int
    data: bytes


@dataclass(frozen=True)
class Target(Generic[Asked]):
    """What waits for a block in a register: at level one a request, at level two one of the block's own blocks."""

    register: int
    block: int
    position: int
    asked: Asked


class File(Generic[Asked]):
    """The registers of one level of one bank: a list of targets in the order of acceptance."""

    def __init__(self, organisation: str, registers: int, entries: int, destinations: int) -> None:
        self.organisation, self.entries = organisation, entries
        self.registers = destinations if organisation == "inverted" else registers
        self.targets: List[Target[Asked]] = []

    def holds(self, block: int) -> bool:
        return any(t.block == block for t in self.targets)

    def free(self, register: int) -> bool:
        return all(t.register != register for t in self.targets)

    def register_for(self, block: int, destination: int, position: int) -> Optional[int]:
        """The register that a target may take, if there is room."""
        if self.organisation == "inverted":
            return destination if self.free(destination) else None
        if not self.holds(block):
            return next((r for r in range(self.registers) if self.free(r)), None)
        register = next(t.register for t in self.targets if t.block == block)
        own = [t for t in self.targets if t.register == register]
        if self.organisation == "implicit":
            return register if all(t.position != position for t in own) else None
        return register if len(own) < self.entries else None

    def release(self, block: int) -> List[Target[Asked]]:
        released = [t for t in self.targets if t.block == block]
        self.targets = [t for t in self.targets if t.block != block]
        return released


class Line:
    """The bytes of a block, and which of them were written since the line came."""

    def __init__(self, data: bytes) -> None:
        self.data, self.mask = bytearray(data), 0


def write_back(data: bytearray, line: Line) -> None:
    """The written bytes of a line go to the level below."""
    for place, byte in enumerate(line.data):
        if line.mask >> place & 1:
            data[place] = byte


class Level(Generic[Held]):
    """The lines of one level of one bank. `index` says the set of a block, off the number of sets."""

    def __init__(self, sets: int, ways: int, index: Callable[[int], int]) -> None:
        self.sets, self.ways, self.index = sets, ways, index
        self.lines: Dict[int, Held] = {}
        self.by_set: Dict[int, List[int]] = collections.defaultdict(list)

    def set_of(self, block: int) -> int:
        return self.index(block) % self.sets

    def full(self, block: int) -> bool:
        return len(self.by_set[self.set_of(block)]) >= self.ways

    def put(self, block: int, line: Held) -> None:
        self.lines[block] = line
        self.by_set[self.set_of(block)].append(block)

    def take(self, block: int) -> Held:
        self.by_set[self.set_of(block)].remove(block)
        return self.lines.pop(block)


class Bank:
    """One bank of both levels, over the blocks of memory below it. A line of level two is on a
    second-level block: it is the list of the `Line`s of its blocks."""

    def __init__(
        self, number: int, shape: Shape, recorder: lfts.Recorder, memory: Memory, random: random.Random
    ) -> None:
        self.number, self.shape, self.recorder, self.memory, self.random = number, shape, recorder, memory, random
        self.banks, self.factor = shape.banks, shape.factor
        self.queues: List[Deque[Request]] = [collections.deque() for _ in range(shape.ports)]
        self.one: Level[Line] = Level(shape.sets1, shape.ways1, self.index_in_one)
        self.two: Level[List[Line]] = Level(shape.sets2, shape.ways2, lambda second: second // self.banks)
        destinations = shape.ports * shape.tags
        self.file1: File[Request] = File(shape.organisation1, shape.registers1, shape.entries1, destinations)
        self.file2: File[int] = File(shape.organisation2, shape.registers2, shape.entries2, self.file1.registers)
        self.asked: List[Tuple[int, int]] = []
        self.supplied: List[int] = []
        self.ready: List[Tuple[Request, bytes]] = []

    def index_in_one(self, block: int) -> int:
        return block // self.factor // self.banks * self.factor + block % self.factor

    def blocks_of(self, second: int) -> range:
        return range(second * self.factor, (second + 1) * self.factor)

    def line_below(self, block: int) -> Line:
        """The line of a block in its second-level block's line."""
        return self.two.lines[block // self.factor][block % self.factor]

    def serve(self, request: Request, line: Line) -> bytes:
        """A load reads the line, a store writes it. What the reply carries."""
        place = slice(request.offset, request.offset + request.size)
        if request.op == STORE:
            line.data[place] = request.data
            line.mask |= ((1 << request.size) - 1) << request.offset
            return b""
        return bytes(line.data[place])

    def accept(self, port: int) -> bool:
        """The oldest request of a port hits, misses, merges or stalls."""
        request = self.queues[port][0]
        line = self.one.lines.get(request.block)
        if line is not None:
            self.queues[port].popleft()
            self.recorder.hit(self.number, port, request.tag)
            self.ready.append((request, self.serve(request, line)))
            return True
        destination, position = port * self.shape.tags + request.tag, request.offset // 8
        register = self.file1.register_for(request.block, destination, position)
        if register is None:
            if self.random.random() < 0.05:
                self.recorder.stall(self.number, port, request.tag)
                return True
            return False
        self.queues[port].popleft()
        if self.file1.holds(request.block):
            self.recorder.merge(self.number, port, request.tag, register)
        else:
            self.recorder.primary(self.number, port, request.tag, register)
            self.asked.append((request.block, register))
        self.file1.targets.append(Target(register, request.block, position, request))
        return True

    def look_up(self) -> bool:
        """Level two looks up a block that level one asked for."""
        block, destination = item = self.random.choice(self.asked)
        second, place = divmod(block, self.factor)
        if second in self.two.lines:
            self.recorder.second_hit(self.number, block)
            self.asked.remove(item)
            self.supplied.append(block)
            return True
        register = self.file2.register_for(second, destination, place)
        if register is None:
            if self.random.random() < 0.05:
                self.recorder.second_stall(self.number, block)
                return True
            return False
        if self.file2.holds(second):
            self.recorder.second_merge(self.number, block, register)
        else:
            self.recorder.second_primary(self.number, block, register)
        self.asked.remove(item)
        self.file2.targets.append(Target(register, second, place, block))
        return True

    def evict1(self, block: int) -> None:
        line = self.one.take(block)
        self.recorder.evict1(self.number, block, line.mask, line.data)
        below = self.line_below(block)
        write_back(below.data, line)
        below.mask |= line.mask

    def fetch(self) -> bool:
        """Level two gets a second-level block from memory, or makes room for it."""
        second = self.random.choice(self.file2.targets).block
        if self.two.full(second):
            return self.make_room_at_two(second)
        lines = [Line(self.memory.get(block, bytes(self.shape.block))) for block in self.blocks_of(second)]
        self.recorder.fill2(self.number, second, [line.data for line in lines])
        self.supplied += [target.asked for target in self.file2.release(second)]
        self.two.put(second, lines)
        return True

    def make_room_at_two(self, second: int) -> bool:
        own = self.two.by_set[self.two.set_of(second)]
        movable = [s for s in own if not any(self.file1.holds(block) for block in self.blocks_of(s))]
        if not movable:
            return False
        victim = self.random.choice(movable)
        above = next((block for block in self.blocks_of(victim) if block in self.one.lines), None)
        if above is not None:
            self.evict1(above)
            return True
        lines = self.two.take(victim)
        self.recorder.evict2(self.number, victim, [line.mask for line in lines], [line.data for line in lines])
        for block, line in zip(self.blocks_of(victim), lines):
            write_back(self.memory.setdefault(block, bytearray(self.shape.block)), line)
        return True

    def fill(self) -> bool:
        """Level one gets a block that level two supplied, or makes room for it."""
        block = self.random.choice(self.supplied)
        if self.one.full(block):
            self.evict1(self.random.choice(self.one.by_set[self.one.set_of(block)]))
            return True
        line = Line(self.line_below(block).data)
        self.recorder.fill1(self.number, block, bytes(line.data))
        for target in self.file1.release(block):
            self.ready.append((target.asked, self.serve(target.asked, line)))
        self.supplied.remove(block)
        self.one.put(block, line)
        return True

    def step(self) -> bool:
        """One event of the bank, if one can happen."""
        ports = [port for port, queue in enumerate(self.queues) if queue]
        choices: List[Callable[[], bool]] = [functools.partial(self.accept, port) for port in ports]
        if self.asked:
            choices.append(self.look_up)
        if self.file2.targets:
            choices.append(self.fetch)
        if self.supplied:
            choices.append(self.fill)
        self.random.shuffle(choices)
        return any(choice() for choice in choices)


def block_for(shape: Shape, chance: random.Random) -> int:
    """A block to touch. Of a hundred requests `crowded` go to bank 0, and the others to any bank."""
    block = chance.randrange(shape.footprint)
    if shape.crowded and chance.randrange(100) < shape.crowded:
        block -= block // shape.factor % shape.banks * shape.factor
    return block


def run(shape: Shape, out: Out) -> lfts.Recorder:
    """Runs the cache, and records the trace into a file. The recorder, when the trace is whole."""
    chance = random.Random(shape.seed)
    memory = {block: bytearray(chance.randbytes(shape.block)) for block in range(0, shape.footprint, 3)}
    with lfts.Recorder(out, shape.ports, shape.banks, shape.block, shape.factor, shape.version) as recorder:
        for block, data in memory.items():
            recorder.memory(block, data)
        drive(shape, recorder, memory, chance)
    return recorder


def drive(shape: Shape, recorder: lfts.Recorder, memory: Memory, chance: random.Random) -> None:
    """Sends random requests, until there are as many events as the shape says."""
    banks = [Bank(number, shape, recorder, memory, chance) for number in range(shape.banks)]
    free = [list(range(shape.tags)) for _ in range(shape.ports)]
    draining: Set[int] = set()
    while recorder.events < shape.events:
        port = chance.randrange(shape.ports)
        if port in draining:
            if len(free[port]) == shape.tags:
                recorder.fence(port)
                draining.remove(port)
                continue
        elif free[port] and chance.random() < 0.5:
            tag = free[port].pop(chance.randrange(len(free[port])))
            op, size = chance.choice((LOAD, LOAD, STORE)), chance.choice((1, 2, 4, 8))
            block = block_for(shape, chance)
            address = block * shape.block + chance.randrange(shape.block // size) * size
            data = chance.randbytes(size) if op == STORE else b""
            request = Request(port, tag, op, size, block, address % shape.block, data)
            bank = banks[block // shape.factor % shape.banks]
            recorder.issue(port, bank.number, op, tag, size, address, data)
            bank.queues[port].append(request)
            if shape.fences and chance.randrange(shape.fences) == 0:
                draining.add(port)
            continue
        bank = chance.choice(banks)
        if bank.ready and chance.random() < 0.5:
            request, data = bank.ready.pop(0)
            recorder.reply(request.port, bank.number, request.tag, data)
            free[request.port].append(request.tag)
        else:
            bank.step()


def rearranged(trace: bytes, arrange: Callable[[Logs], List[bytes]]) -> bytes:
    """The same trace with its records in another order, which `arrange` makes of the logs."""
    reader = lfts.Reader(trace)
    first = bytearray(reader.header.encode(reader.memory_records))
    logs: Logs = [[] for _ in range(reader.header.logs)]
    for item in reader:
        if isinstance(item, lfts.Record):
            logs[item.log].append(item.encode())
        else:
            first += item.encode()
    end = trace[-8:]
    return b"".join((first, *arrange(logs), end))


def log_by_log(logs: Logs) -> List[bytes]:
    """One log after another."""
    return [record for log in logs for record in log]


def mixed(chance: random.Random) -> Callable[[Logs], List[bytes]]:
    """All logs mixed at random: of all ways to mix them each is as likely as any other."""

    def mix(logs: Logs) -> List[bytes]:
        turns = [log for log, records in enumerate(logs) for _ in records]
        chance.shuffle(turns)
        left = [iter(records) for records in logs]
        return [next(left[log]) for log in turns]

    return mix


def configuration(shape: Shape) -> str:
    """The configuration of the shape, as `score check` reads it."""
    lines = [f"ports = {shape.ports}", f"banks = {shape.banks}", f"block = {shape.block}", f"tags = {shape.tags}"]
    for level in "12":
        organisation = getattr(shape, "organisation" + level)
        lines += [f"[level{level}]"]
        lines += [f"{key} = {getattr(shape, key + level)}" for key in ("sets", "ways")]
        lines += [f'organisation = "{organisation}"']
        if organisation != "inverted":
            lines += [f"registers = {getattr(shape, 'registers' + level)}"]
        if organisation == "explicit":
            lines += [f"entries = {getattr(shape, 'entries' + level)}"]
    if shape.factor > 1:
        lines += [f"blocks = {shape.factor}"]
    return "\n".join(lines) + "\n"


def main() -> None:
    parser = argparse.ArgumentParser(description=__doc__, formatter_class=argparse.RawDescriptionHelpFormatter)
    parser.add_argument("--events", type=int, default=10000)
    parser.add_argument("--seed", type=int, default=1)
    parser.add_argument("--footprint", type=int, default=4096, help="how many blocks the requests touch")
    parser.add_argument("--version", type=int, default=1, choices=(1, 2, 3), help="the version of the trace")
    parser.add_argument(
        "--factor", type=int, default=1, choices=(1, 2, 4), help="how many blocks a second-level block has"
    )
    parser.add_argument(
        "--fences",
        type=int,
        default=50,
        metavar="N",
        help="from version 2 on a port records a fence after about N issues, and none where N is 0",
    )
    parser.add_argument(
        "--crowded",
        type=int,
        default=0,
        metavar="PERCENT",
        help="how many of a hundred requests go to bank 0 whatever the block, so that one bank has most events",
    )
    order = parser.add_mutually_exclusive_group()
    order.add_argument("--log-by-log", action="store_true", help="write the records of each log together")
    order.add_argument("--mixed", action="store_true", help="write the logs mixed at random, each in its own order")
    parser.add_argument("--out", required=True, help="the trace to write")
    parser.add_argument("--config", help="the configuration to write")
    for name, default in (("ports", 4), ("banks", 4), ("block", 32), ("tags", 16)):
        parser.add_argument("--" + name, type=int, default=default)
    for level, sets, ways in (("1", 32, 4), ("2", 128, 8)):
        parser.add_argument("--sets" + level, type=int, default=sets)
        parser.add_argument("--ways" + level, type=int, default=ways)
        parser.add_argument("--organisation" + level, default="explicit", choices=("implicit", "explicit", "inverted"))
        parser.add_argument("--registers" + level, type=int, default=8)
        parser.add_argument("--entries" + level, type=int, default=4)
    shape = Shape(**vars(parser.parse_args()))
    if shape.factor > 1 and shape.version < 3:
        parser.error("before version 3 a second-level block is one block")
    if shape.version == 1:
        shape.fences = 0
    if shape.log_by_log or shape.mixed:
        trace = io.BytesIO()
        recorder = run(shape, trace)
        arrange = mixed(random.Random(shape.seed)) if shape.mixed else log_by_log
        pathlib.Path(shape.out).write_bytes(rearranged(trace.getvalue(), arrange))
    else:
        recorder = run(shape, shape.out)
    if shape.config:
        with open(shape.config, "w") as out:
            out.write(configuration(shape))
    print(f"{recorder.events} events, logs of {', '.join(map(str, recorder.counts))} records")


if __name__ == "__main__":
    main()
