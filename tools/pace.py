"""How far the proofs of a build are, by the time that each takes. proof_seconds.txt has the processor seconds of each
crate on one machine; how fast this one is shows once crates have ended."""

from __future__ import annotations

import functools
import math
import time
from pathlib import Path
from typing import Dict, List, Mapping

TABLE = Path(__file__).resolve().with_name("proof_seconds.txt")
# what a crate takes that is not in the table
SECONDS = 60.0


class Pace:
    """What of some crates has ended. Each has the crates that it stands on."""

    def __init__(self, uses: Mapping[str, List[str]], jobs: int) -> None:
        lines = TABLE.read_text(encoding="utf-8").splitlines()
        table = {it.split()[0]: float(it.split()[1]) for it in lines if it[:1] != "#"}
        self.work = {crate: table.get(crate, SECONDS) for crate in uses}
        self.uses, self.jobs, self.ended, self.start = uses, jobs, 0, 0.0
        self.done: Dict[str, float] = {}

    def end(self, crate: str, is_new: bool) -> None:
        """A crate has ended. One that was proved before this build is no work of it."""
        self.ended += 1
        if is_new:
            self.done[crate] = self.work[crate]
            # what comes before the first proof is none
            self.start = self.start or time.monotonic() - self.work[crate]
        else:
            del self.work[crate]

    def least(self, work: Mapping[str, float]) -> float:
        """The least time that this work takes on the table's machine: as a whole, or its longest chain of crates, each
        over the one before."""

        @functools.lru_cache(None)
        def chain(crate: str) -> float:
            return work.get(crate, 0.0) + max(map(chain, self.uses.get(crate, [])), default=0.0)

        return max(sum(work.values()) / self.jobs, *map(chain, work))

    def line(self) -> str:
        told = f"{self.ended} of {len(self.uses)} crates"
        if not self.done:
            return told
        share = sum(self.done.values()) / sum(self.work.values())
        seconds = time.monotonic() - self.start
        minutes = math.ceil((self.least(self.work) / self.least(self.done) - 1) * seconds / 60)
        left = f", about {minutes} minute{'s' * (minutes != 1)} left" if minutes else ""
        return f"{told}, {share:.0%} of the work{left}"
