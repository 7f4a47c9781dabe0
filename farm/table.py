"""The table of a run, as docs/FARM.md has it: what to_junit.py and groups.py read."""

from __future__ import annotations

import re
import sys
from dataclasses import dataclass
from pathlib import Path
from typing import Iterator, List, Optional

WORDS = {"0": "yes", "1": "no", "2": "refused"}


@dataclass(frozen=True)
class Row:
    """A row of a table."""

    status: str
    microseconds: str
    trace: str
    line: str
    host: str = "-"
    restarts: str = "0"
    configuration: str = ""

    @property
    def seconds(self) -> float:
        return int(self.microseconds) / 1e6

    @property
    def word(self) -> str:
        """The first word of the answer, if it is one that goes with the status."""
        word = self.line.split(" ")[0]
        return word if WORDS.get(self.status) == word else "unanswered"

    @property
    def rule(self) -> Optional[str]:
        found = re.search(r" rule=(\w+)", self.line)
        return found[1] if found else None

    @property
    def kind(self) -> str:
        """What is wrong, in a word or two, by which a report groups: a rule, `no numbering`, `refused format`."""
        return self.rule or " ".join(self.line.split(" ")[:2])


def lines(path: Path) -> Iterator[List[str]]:
    """The cells of each line of a file."""
    with open(path, encoding="utf-8", errors="backslashreplace", newline="\n") as file:
        for number, line in enumerate(file, 1):
            cells = line.rstrip("\n").split("\t")
            if len(cells) < 2:
                raise SystemExit(f"{Path(sys.argv[0]).name}: {path}, line {number}: no tab in it")
            yield cells


def rows(path: Path) -> Iterator[Row]:
    for number, cells in enumerate(lines(path), 1):
        if not 4 <= len(cells) <= 7 or not cells[1].isdecimal():
            raise SystemExit(f"{Path(sys.argv[0]).name}: {path}, line {number}: not a row of a table")
        yield Row(*cells)
