#!/usr/bin/env python3
"""Tells how long requests and fills took in a run, by the time maps of its traces.

    latencies.py [--jobs N] OUT

OUT is the folder of a run (docs/FARM.md). The time map of traces/run.lfts, packed or not, is traces/run.map. Of each
legal trace that has one these times are taken:

    issue_to_reply      of each request of a port
    accepted_to_fill    of a bank, from a miss or merge that is accepted to the fill of its block in level one
    supplied_to_fill    of a bank, from level two's hit or fill of a block to its fill in level one

OUT/latencies.tsv has a line for each configuration, port or bank, and one of these: the three, how often it was there,
the least, the median and the most. From the environment: SCORE, the program (score). The exit status is 0, or 1 if no
legal trace has a time map."""

from __future__ import annotations

import argparse
import os
import statistics
import sys
from collections import Counter, defaultdict
from concurrent.futures import ProcessPoolExecutor
from dataclasses import dataclass, field
from pathlib import Path
from typing import Counter as Counts
from typing import Dict, Iterable, Iterator, List, Set, Tuple

from program import UNPACK, score
from table import Row, rows

# of a place and a wait, how often it had each length
Lengths = Dict[Tuple[str, str], Counts[int]]


@dataclass(frozen=True)
class Event:
    """A line of `score dump`, and when it was."""

    word: str
    of: Dict[str, str]
    time: int

    def number(self, name: str) -> int:
        return int(self.of[name], 0)

    @property
    def request(self) -> Tuple[int, int]:
        return self.number("port"), self.number("tag")


@dataclass
class Bank:
    """What waits in a bank, while its events are taken in the order of their numbers."""

    block: int
    factor: int
    issued: Dict[Tuple[int, int], Event] = field(default_factory=dict)
    accepted: Dict[int, List[int]] = field(default_factory=lambda: defaultdict(list))
    asked: Dict[int, Set[int]] = field(default_factory=lambda: defaultdict(set))
    supplied: Dict[int, int] = field(default_factory=dict)

    def take(self, event: Event) -> Iterator[Tuple[str, str, int]]:
        """The waits that end with this event: the place, the name and how long."""
        if event.word in ("load", "store"):
            self.issued[event.request] = event
        elif event.word in ("primary", "merge") and event.request in self.issued:
            block = self.issued[event.request].number("address") // self.block
            self.accepted[block].append(event.time)
        elif event.word in ("second_primary", "second_merge"):
            self.asked[event.number("block") // self.factor].add(event.number("block"))
        elif event.word == "second_hit":
            self.supplied[event.number("block")] = event.time
        elif event.word == "fill2":
            self.supplied.update(dict.fromkeys(self.asked.pop(event.number("block"), ()), event.time))
        elif event.word == "fill1":
            yield from self.fill(f"bank={event.of['bank']}", event.number("block"), event.time)
        elif event.word == "reply" and event.request in self.issued:
            yield f"port={event.of['port']}", "issue_to_reply", event.time - self.issued.pop(event.request).time

    def fill(self, place: str, block: int, time: int) -> Iterator[Tuple[str, str, int]]:
        for accepted in self.accepted.pop(block, ()):
            yield place, "accepted_to_fill", time - accepted
        if block in self.supplied:
            yield place, "supplied_to_fill", time - self.supplied.pop(block)


def fields_of(line: str) -> Tuple[str, Dict[str, str]]:
    word, *parts = line.partition(" ; ")[0].split(" ")
    return word, dict(part.split("=", 1) for part in parts)


def times_of(path: Path) -> Dict[Tuple[int, int], int]:
    """The time of each log and place of a map."""
    words = (line.split() for line in path.read_text().splitlines())
    return {(int(log), int(place)): int(time) for log, place, time in words}


def lengths_of(lines: Iterable[str], times: Dict[Tuple[int, int], int]) -> Lengths:
    """The waits of a trace. An event that the map does not have is left out."""
    lines = iter(lines)
    header = {name: int(value) for name, value in fields_of(next(lines))[1].items()}
    places: Counts[int] = Counter()
    events: List[Event] = []
    for word, of in map(fields_of, lines):
        if word in ("memory", "end"):
            continue
        is_port = word in ("load", "store", "reply", "fence")
        log = int(of["port"]) if is_port else header["ports"] + int(of["bank"])
        time = times.get((log, places[log]))
        places[log] += 1
        if time is not None and word != "fence":
            events.append(Event(word, of, time))
    banks = [Bank(header["block"], header["factor"]) for _ in range(header["banks"])]
    lengths: Lengths = defaultdict(Counter)
    for event in sorted(events, key=lambda event: event.number("number")):
        for place, name, length in banks[event.number("bank")].take(event):
            lengths[place, name][length] += 1
    return lengths


def map_of(trace: str) -> Path:
    path = Path(trace)
    return (path.with_suffix("") if path.suffix in UNPACK else path).with_suffix(".map")


def lengths_in(row: Row) -> Lengths:
    return lengths_of(score(["dump"], row.trace).splitlines(), times_of(map_of(row.trace)))


def told(lengths: Counts[int]) -> List[int]:
    """How many there are, and the least, the median and the most of them."""
    return [sum(lengths.values()), min(lengths), statistics.median_low(lengths.elements()), max(lengths)]


def main() -> int:
    parser = argparse.ArgumentParser(description=__doc__, formatter_class=argparse.RawDescriptionHelpFormatter)
    parser.add_argument("--jobs", type=int, default=os.cpu_count(), help="how many are read at once")
    parser.add_argument("out", type=Path, metavar="OUT")
    given = parser.parse_args()
    timed = [row for row in rows(given.out / "table.tsv") if row.word == "yes" and map_of(row.trace).exists()]
    if not timed:
        print("latencies.py: no legal trace has a time map beside it", file=sys.stderr)
        return 1
    sums: Dict[Tuple[str, str, str], Counts[int]] = defaultdict(Counter)
    with ProcessPoolExecutor(given.jobs) as pool:
        for row, lengths in zip(timed, pool.map(lengths_in, timed)):
            for (place, name), counts in lengths.items():
                sums[row.configuration, place, name].update(counts)
    lines = ["\t".join([*key, *map(str, told(counts))]) for key, counts in sorted(sums.items())]
    text = "".join(f"{line}\n" for line in lines)
    (given.out / "latencies.tsv").write_text(text)
    sys.stdout.write(text)
    return 0


if __name__ == "__main__":
    sys.exit(main())
