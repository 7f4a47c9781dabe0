#!/usr/bin/env python3
"""A lockup-free cache of one port and one bank in some fifty lines, that records itself.

    example.py FOLDER        writes example.toml, example.lfts and example.map there
    score check FOLDER/example.toml FOLDER/example.lfts

Level one has two sets of one line. Level two holds each block that was ever fetched, and never evicts."""

import collections
import pathlib
import random
import sys

import lfts

SETS, REGISTERS, ENTRIES, TAGS, BLOCKS = 2, 2, 4, 4, 16
CONFIG = f"""ports = 1
banks = 1
block = 8
tags = {TAGS}
[level1]
sets = {SETS}
ways = 1
organisation = "explicit"
registers = {REGISTERS}
entries = {ENTRIES}
[level2]
sets = {BLOCKS}
ways = 1
organisation = "explicit"
registers = {REGISTERS}
entries = 1
"""
Request = collections.namedtuple("Request", "op tag block data")


class Cache:
    def __init__(self, recorder):
        self.recorder, self.free = recorder, list(range(TAGS))
        self.one, self.two, self.dirty, self.registers = {}, {}, {}, {}
        self.waiting = collections.defaultdict(list)  # the requests of the block of each register
        self.queue, self.asked, self.fetched, self.supplied, self.ready = (collections.deque() for _ in range(5))

    def serve(self, request):
        if request.op == lfts.STORE:
            self.one[request.block], self.dirty[request.block] = request.data, 0xFF
        self.ready.append((request.tag, b"" if request.op == lfts.STORE else self.one[request.block]))

    def accept(self):
        request = self.queue[0]
        block, register = request.block, self.registers.get(request.block)
        unused = set(range(REGISTERS)) - set(self.registers.values())
        if block in self.one:
            self.recorder.hit(0, 0, request.tag)
            self.serve(self.queue.popleft())
        elif register is not None and len(self.waiting[block]) < ENTRIES:
            self.recorder.merge(0, 0, request.tag, register)
            self.waiting[block].append(self.queue.popleft())
        elif register is None and unused:
            self.registers[block] = unused.pop()
            self.recorder.primary(0, 0, request.tag, self.registers[block])
            self.waiting[block].append(self.queue.popleft())
            self.asked.append(block)
        else:
            self.recorder.stall(0, 0, request.tag)

    def fill(self):
        block = self.supplied.popleft()
        for victim in [other for other in self.one if other % SETS == block % SETS]:
            self.recorder.evict1(0, victim, self.dirty[victim], self.one[victim])
            self.two[victim] = self.one.pop(victim)
        self.recorder.fill1(0, block, self.two[block])
        self.one[block], self.dirty[block] = self.two[block], 0
        del self.registers[block]
        for request in self.waiting.pop(block):
            self.serve(request)

    def look_up(self):
        block = self.asked.popleft()
        if block in self.two:
            self.recorder.second_hit(0, block)
            self.supplied.append(block)
        else:
            self.recorder.second_primary(0, block, self.registers[block])
            self.fetched.append(block)

    def cycle(self, time, chance):
        with self.recorder.cycle(time):
            if self.ready:
                tag, data = self.ready.popleft()
                self.recorder.reply(0, 0, tag, data)
                self.free.append(tag)
            if self.asked:
                self.look_up()
            elif self.fetched and chance.random() < 0.3:
                block = self.fetched.popleft()
                self.two[block] = bytes(8)
                self.recorder.fill2(0, block, [bytes(8)])
                self.supplied.append(block)
            if self.supplied:
                self.fill()
            elif self.queue:
                self.accept()
            if self.free and chance.random() < 0.7:
                op, tag, block = chance.choice(list(lfts.Op)), self.free.pop(0), chance.randrange(BLOCKS)
                data = chance.randbytes(8) if op == lfts.STORE else b""
                self.recorder.issue(0, 0, op, tag, 8, block * 8, data)
                self.queue.append(Request(op, tag, block, data))


def main():
    folder, chance = pathlib.Path(sys.argv[1]), random.Random(1)
    (folder / "example.toml").write_text(CONFIG)
    trace, time_map = folder / "example.lfts", folder / "example.map"
    with lfts.Recorder(trace, ports=1, banks=1, block=8, time_map=time_map) as recorder:
        cache = Cache(recorder)
        for time in range(1000):
            cache.cycle(time, chance)
    print(f"{recorder.events} events")


if __name__ == "__main__":
    main()
