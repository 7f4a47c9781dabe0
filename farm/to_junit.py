#!/usr/bin/env python3
"""Writes tables of answers as a JUnit report, with a test suite for each table.

    to_junit.py [--due DUE] [--failures] [--out REPORT] [NAME=]TABLE ..

A table has the form of docs/FARM.md. A trace passes if its answer is yes. A no is a failure, and its type is the rule
that was broken. A refusal and a trace without an answer are errors. DUE has lines `TRACE<tab>WORD` or
`TRACE<tab>WORD<tab>RULE` for traces that must have another answer, for example those of a design with a known fault.
Such a trace passes if its answer has that word and, if a rule is named, that rule. If it is in no table, that is an
error. With --failures the traces of a table that pass are one case together. The exit status is 0 if all pass, and 1
otherwise."""

from __future__ import annotations

import argparse
import re
import sys
import xml.etree.ElementTree as xml
from dataclasses import dataclass
from pathlib import Path
from typing import Dict, List, Optional

from table import Row, lines, rows

# what XML 1.0 cannot hold, not even by an entity
UNWRITABLE = re.compile("[^\t\n\r\x20-\ud7ff\ue000-\ufffd\U00010000-\U0010ffff]")


@dataclass(frozen=True)
class Due:
    """The answer that a trace has to have."""

    word: str = "yes"
    rule: Optional[str] = None

    def is_met(self, row: Row) -> bool:
        return row.word == self.word and self.rule in (None, row.rule)

    def __str__(self) -> str:
        return f"{self.word} rule={self.rule}" if self.rule else self.word


@dataclass
class Suite:
    """A table as a test suite, with its counts."""

    element: xml.Element
    tests: int = 0
    failures: int = 0
    errors: int = 0
    seconds: float = 0.0


def counts(suites: List[Suite]) -> Dict[str, str]:
    return {
        "tests": str(sum(suite.tests for suite in suites)),
        "failures": str(sum(suite.failures for suite in suites)),
        "errors": str(sum(suite.errors for suite in suites)),
        "time": f"{sum(suite.seconds for suite in suites):.6f}",
    }


def writable(text: str) -> str:
    return UNWRITABLE.sub(lambda found: f"\\x{ord(found[0]):02x}", text)


def suite_of(name: str, table: List[Row], due: Dict[str, Due], only_failures: bool) -> Suite:
    suite = Suite(xml.Element("testsuite", name=writable(name)))
    is_mixed = len({row.configuration for row in table}) > 1
    if only_failures:
        passing = [row for row in table if due.get(row.trace, Due()).is_met(row)]
        table = [row for row in table if not due.get(row.trace, Due()).is_met(row)]
        suite.tests, suite.seconds = 1, sum(row.seconds for row in passing)
        attributes = {"classname": writable(name), "name": f"{len(passing)} traces that pass"}
        xml.SubElement(suite.element, "testcase", attributes, time=f"{suite.seconds:.6f}")
    for row in table:
        case_name = f"{row.trace} of {row.configuration}" if is_mixed else row.trace
        attributes = {"classname": writable(name), "name": writable(case_name), "time": f"{row.seconds:.6f}"}
        case = xml.SubElement(suite.element, "testcase", attributes)
        wanted = due.get(row.trace, Due())
        if not wanted.is_met(row):
            is_error = row.word not in ("yes", "no")
            suite.errors += is_error
            suite.failures += not is_error
            told = xml.SubElement(case, "error" if is_error else "failure")
            told.attrib.update(type=writable(row.kind), message=writable(row.line))
            told.text = writable(f"{row.line}\ndue: {wanted}\nstatus {row.status}")
        xml.SubElement(case, "system-out").text = writable(f"{row.line}\nhost {row.host}, {row.restarts} restarts")
        suite.tests += 1
        suite.seconds += row.seconds
    suite.element.attrib.update(counts([suite]), skipped="0")
    return suite


def report_of(tables: Dict[str, List[Row]], due: Dict[str, Due], only_failures: bool) -> List[Suite]:
    suites = [suite_of(name, table, due, only_failures) for name, table in tables.items()]
    judged = {row.trace for table in tables.values() for row in table}
    lacking = [Row("3", "0", trace, "missing in each table") for trace in due if trace not in judged]
    return suites + ([suite_of("due", lacking, due, False)] if lacking else [])


def main() -> int:
    parser = argparse.ArgumentParser(description=__doc__, formatter_class=argparse.RawDescriptionHelpFormatter)
    parser.add_argument("--due", type=Path, help="the answers that are due where they are not yes")
    parser.add_argument("--failures", action="store_true", help="a case only for each trace that does not pass")
    parser.add_argument("--out", type=Path, metavar="REPORT", help="where the report goes, if not to standard output")
    parser.add_argument("tables", nargs="+", metavar="[NAME=]TABLE")
    given = parser.parse_args()
    due = {cells[0]: Due(*cells[1:3]) for cells in lines(given.due)} if given.due else {}
    tables = {}
    for table in given.tables:
        name, equals, path = table.partition("=")
        tables[name] = list(rows(Path(path if equals else table)))
    suites = report_of(tables, due, given.failures)
    top = xml.Element("testsuites", counts(suites))
    top.extend(suite.element for suite in suites)
    xml.indent(top)
    text = xml.tostring(top, encoding="utf-8", xml_declaration=True) + b"\n"
    if given.out:
        given.out.write_bytes(text)
    else:
        sys.stdout.buffer.write(text)
    return 1 if any(suite.failures or suite.errors for suite in suites) else 0


if __name__ == "__main__":
    sys.exit(main())
