"""The checks of the library in SystemC: examples/systemc is judged while it runs."""

from __future__ import annotations

import re
from functools import partial
from pathlib import Path

from outside import Checks, Failure, expect, judge, run
from recording.systemc import PERIOD, ROW, Simulation, missing, readme

STOPPED = re.compile(r"^(\d+) ns: (broken .*)$", re.M)


class Judged(Simulation):
    """A simulation that is linked to the library."""

    def legal(self) -> None:
        self.run("requests=500")
        expect(judge(self.program, self.config, self.trace).split("=")[0], "yes events")

    def fault(self, number: str) -> None:
        """Stopped half a clock after the record that `watch` names, with its line. The trace ends in that cycle, and
        is whole."""
        told = STOPPED.findall(self.run(f"bug={number}", status=1))
        due = run([self.program, "watch", self.config, self.trace], status=1).stdout.rstrip("\n")
        expect([line for _, line in told], [due])
        place = re.search(r"upon log=(\d+) event=(\d+) at=\d+$", due)
        if not place:
            raise Failure(due)
        times = {tuple(it[:2]): int(it[2]) for it in map(str.split, self.map.read_text().splitlines())}
        upon = times[place.groups()]
        expect(int(told[0][0]) * 1000, upon + PERIOD // 2, "when it stopped")
        expect(max(times.values()), upon, "the last record")
        expect(judge(self.program, self.config, self.trace).split(" ")[0], "no")


def check(checks: Checks, program: Path, library: Path, folder: Path) -> None:
    """Makes the checks of the library in SystemC."""
    if missing():
        checks.skip("in SystemC", f"{missing()} not installed")
        return
    simulation = Judged(program, folder)
    checks.check("in SystemC: built without a warning", partial(simulation.build, f"LIBRARY={library}"))
    checks.check("in SystemC: a yes", simulation.legal)
    for number, name, _ in ROW.findall(readme()):
        checks.check(f"in SystemC: stopped by fault {number}, {name}", partial(simulation.fault, number))
