#!/usr/bin/env python3
"""Runs the program and tests of the crates with their first growth refused, then with their second, and so on
until a run meets no refusal, and tells each run in which a refused growth was not answered as out of memory.

    refused_growth.py [WORD] [--program PROGRAM]      only the runs whose name has the word

The programs are those that `rt run` in crates/score and `rt test` in each crate left in out/. It needs a C compiler
(cc, or the one that CC names), for a library that refuses one call of malloc, of realloc or of pthread_create. Where a
growth is refused, the program must print `refused memory`, or `refused thread` where it was the making of a thread, and
end with status 2. Of several traces each line is that of ample memory or says so. `dump` says so below what it printed
by then, from which the lines of at most one read are missing. The file that a command writes then has its old bytes or
all the new ones, and no part of it lies beside it. Runs of `demo`, whose number of growths changes from run to run, and
of a trace of several reads are tried at some growths alone. Those of the library are swept by `tests/library`.

Each test whose name begins with `refused_growth_of_` must then end with `out of memory`, where the call told it
and what it left was right, or with `a thread was refused` where the making of a thread was refused, which may have been
the memory that it takes (a call with one worker has a clause that it never tells so); with AllocError or no memory
where the growth was one of the samples that the test makes, before the call. The test of a session with
four workers also ends well where a thread was refused, or the memory for one. Other ends are findings: a test that
ends well, since an answer was given in place of out of memory, and one that an assertion stopped. The tests of
`TOLD` are examples of further calls: they must fail and say `out of memory`. A test of which no crate in out/
has the name is told as not built.

The last lines are a table: for each run how many growths of the call were refused and told, how many of the
samples before it, and the findings."""

from __future__ import annotations

import argparse
import glob
import os
import re
import subprocess
import sys
import tempfile
from typing import Callable, Dict, Iterator, List, Optional, Tuple

TOP = os.path.join(os.path.dirname(os.path.abspath(__file__)), "..")
EXAMPLES = os.path.join(TOP, "examples")

SHIM = r"""
#define _GNU_SOURCE
#include <dlfcn.h>
#include <errno.h>
#include <pthread.h>
#include <stdio.h>
#include <stdlib.h>
#include <unistd.h>

extern void *__libc_malloc(size_t);
extern void *__libc_realloc(void *, size_t);
extern ssize_t __read(int, void *, size_t);
static long turn, bytes_read;

static int is_refused(const char *what, size_t size) {
    static long at = -1;
    if (at < 0) {
        const char *word = getenv("REFUSED_GROWTH");
        at = word ? strtol(word, 0, 10) : 0;
    }
    if (__sync_add_and_fetch(&turn, 1) != at)
        return 0;
    char line[80];
    int length = snprintf(line, sizeof line, "refused %s %zu after %ld\n", what, size, bytes_read);
    return write(2, line, length) > 0;
}

void *malloc(size_t size) {
    if (is_refused("bytes", size)) {
        errno = ENOMEM;
        return 0;
    }
    return __libc_malloc(size);
}

void *realloc(void *block, size_t size) {
    if (is_refused("bytes", size)) {
        errno = ENOMEM;
        return 0;
    }
    return __libc_realloc(block, size);
}

ssize_t read(int file, void *bytes, size_t size) {
    ssize_t n = __read(file, bytes, size);
    if (n > 0) __sync_add_and_fetch(&bytes_read, n);
    return n;
}

int pthread_create(pthread_t *thread, const pthread_attr_t *how, void *(*start)(void *), void *with) {
    int (*next)(pthread_t *, const pthread_attr_t *, void *(*)(void *), void *) = dlsym(RTLD_NEXT, "pthread_create");
    return is_refused("thread", 0) ? EAGAIN : next(thread, how, start, with);
}
"""

# Commands of the program, each with how that begins which it prints with ample memory. Files of examples/ are named so,
# MAP is a time map, LIST names two traces, CUT is a broken trace without its end, and OUT.vcd and its like are written.
COMMANDS = [
    ("check small.toml empty_trace.lfts", "yes events=0"),
    ("check small.toml load_misses_both_levels.lfts", "yes events=6"),
    ("check small.toml load_merges_behind_store.lfts", "yes events=9"),
    ("check small.toml reply_with_a_wrong_byte.lfts", "no bank=0 number=5 rule=ReplyData"),
    ("check small.toml initial_memory.lfts", "yes events=6"),
    ("check two_ports.toml cycle_of_two_logs.lfts", "no cycle logs=0,1"),
    ("check four_banks.toml lowest_bank.lfts", "no bank=1 number=0 rule=NotHead"),
    ("check four_ports.toml four_ports.lfts", "yes events="),
    ("check four_ports_wide.toml four_ports_wide.lfts", "yes events="),
    ("check --complete --progress small.toml load_misses_both_levels.lfts", "yes events=6"),
    ("check small.toml load_misses_both_levels.lfts reply_with_a_wrong_byte.lfts", f"{EXAMPLES}/load_misses"),
    ("check --list small.toml LIST", f"{EXAMPLES}/load_misses"),
    ("check too_many_ways.toml load_misses_both_levels.lfts", "refused config Range level1.ways"),
    ("stats small.toml load_merges_behind_store.lfts", "bank=0 hits=0 primary=1 merges=1 stalls=0 peak=1"),
    ("stats small.toml explicit_entries_full.lfts", "bank=0 hits=0 primary=1 merges=1 stalls=1 peak=1"),
    ("stats inverted.toml inverted_two_registers.lfts", "bank=0 hits=0 primary=1 merges=1 stalls=0 peak=2"),
    ("watch small.toml load_misses_both_levels.lfts", "yes events=6"),
    ("watch small.toml reply_with_a_wrong_byte.lfts", "broken bank=0 number=5 rule=ReplyData upon"),
    ("watch small.toml bank_broken_before_a_port.lfts", "broken bank=0 number=1 rule=NotPresent upon log=1 event=0"),
    ("explain small.toml load_misses_both_levels.lfts", "yes events=6"),
    ("explain small.toml reply_with_a_wrong_byte.lfts", "no bank=0 number=5 rule=ReplyData"),
    ("explain --map MAP small.toml reply_with_a_wrong_byte.lfts", "no bank=0 number=5 rule=ReplyData"),
    ("explain --json small.toml load_misses_both_levels.lfts", '{"events":6,"line":"yes events=6"'),
    ("explain --json small.toml reply_with_a_wrong_byte.lfts", '{"fault":{"asks":"the reply has the bytes'),
    ("explain --json --map MAP small.toml load_misses_both_levels.lfts", '{"events":6,"line":"yes events=6"'),
    ("explain two_ports.toml cycle_of_two_logs.lfts", "no cycle logs=0,1"),
    ("explain --first small.toml bank_broken_before_a_port.lfts", "broken bank=0 number=1 rule=NotPresent upon"),
    ("explain --complete small.toml eviction_of_a_dirty_line.lfts", "no incomplete port=0 tag=0"),
    ("explain small.toml CUT", "refused format Truncated at=124"),
    ("explain two_ports.toml load_misses_both_levels.lfts", "refused header Ports"),
    ("explain too_many_ways.toml load_misses_both_levels.lfts", "refused config Range level1.ways"),
    ("explain not_toml.toml load_misses_both_levels.lfts", "refused config NotToml"),
    ("explain --json not_toml.toml load_misses_both_levels.lfts", '{"'),
    ("cover small.toml load_misses_both_levels.lfts", "bank=0 "),
    ("cover --dat OUT.dat small.toml load_misses_both_levels.lfts", "bank=0 "),
    ("cover --dat OUT.dat small.toml reply_with_a_wrong_byte.lfts", "no bank=0 number=5 rule=ReplyData"),
    ("dump initial_memory.lfts", "lfts version=1 "),
    ("dump --bank 0 initial_memory.lfts", "lfts version=1 "),
    ("dump --last 2 initial_memory.lfts", "lfts version=1 "),
    ("assemble load_misses_both_levels.text OUT.lfts", ""),
    ("shrink small.toml load_misses_both_levels.lfts OUT.lfts", "yes events=6"),
    ("shrink small.toml reply_with_a_wrong_byte.lfts OUT.lfts", "no bank=0 number="),
    ("shrink --first small.toml bank_broken_before_a_port.lfts OUT.lfts", "no bank=0 number="),
    ("shrink --map MAP small.toml reply_with_a_wrong_byte.lfts OUT.lfts", "no bank=0 number="),
    ("view small.toml load_misses_both_levels.lfts OUT.vcd", "yes events=6"),
    ("view --complete small.toml eviction_of_a_dirty_line.lfts OUT.vcd", "no incomplete port=0 tag=0"),
    ("view small.toml reply_with_a_wrong_byte.lfts OUT.vcd", "no bank=0 number=5 rule=ReplyData"),
    ("view --map MAP small.toml load_misses_both_levels.lfts OUT.vcd", "yes events=6"),
]

# Commands on LONG, which takes several reads, tried at these growths.
LONG_COMMANDS = [("dump LONG", "lfts version="), ("dump --bank 0 LONG", "lfts version=")]
LONG_GROWTHS = [*range(1, 60), *range(60, 6000, 41)]
LONG_EVENTS = 6000

# the bytes of one read
PIECE = 65536

# A time map of a trace with one port and one bank.
MAP = "".join(f"{log} {place} {10 * place + log}\n" for log in (0, 1) for place in range(8))

# What lies in a file before it is written.
BEFORE_IT = b"as it was"

# Where more workers are taken, the making of a thread is refused too.
WITH_WORKERS = ("check --workers 2 four_banks.toml lowest_bank.lfts", "no bank=1 number=0 rule=NotHead")

# Tests that say how a call answered, in whichever crates have them. Each is at least one run of these.
SWEPT = "refused_growth_of_"
RUNS = [
    *[
        f"{call}_on_{trace}"
        for call in ("check", "session", "run")
        for trace in ("empty_trace", "load_misses_both_levels", "load_merges_behind_store", "cycle_of_two_logs")
    ],
    "check_with_two_workers",
    "session_by_four_workers",
    "read",
    "recheck",
    "encode",
    "stats",
    "ten_events",
    "a_step",
    "a_reader",
]

# Examples that fail where a growth is refused, with the crate that has them. The engine's example of the first name
# writes its line to a list of its own, whose growth is none of the call's.
TOLD = [
    ("log_tests", "gaps_and_doubles"),
    ("verdict_tests", "gaps_and_doubles"),
    ("log_tests", "many_records_before_their_turn"),
    ("log_tests", "least_order"),
    ("bank_tests", "load_merges_behind_store_by_replay"),
]

# A session with several workers goes on without a thread that was refused, or the memory for it: so many bytes for the
# thread of the entries and for that of the banks.
BESIDE = "refused_growth_of_session_by_four_workers"
THREAD_BYTES = b"96"

# The status of a test that returned an error. One that an assertion stops ends by a signal.
FAILED = 101


def shim_in(folder: str) -> str:
    source, shim = os.path.join(folder, "shim.c"), os.path.join(folder, "shim.so")
    with open(source, "w", encoding="ascii") as file:
        file.write(SHIM)
    subprocess.run([os.environ.get("CC", "cc"), "-O1", "-shared", "-fPIC", "-o", shim, source, "-ldl"], check=True)
    return shim


# What a run answered, and what the library says of the growth that it refused, where it did.
Ran = subprocess.CompletedProcess[bytes]
Told = Optional["re.Match[bytes]"]
Judge = Callable[[Ran, Told], Optional[str]]

# A growth of the samples that a test makes was refused.
BEFORE = "before the call"


class Runs:
    """Runs with one growth refused, a row of counts for each name, and the faults found in them."""

    def __init__(self, shim: str, word: str) -> None:
        self.shim, self.word = shim, word
        self.count = self.faults = self.missing = 0
        self.rows: List[Tuple[str, int, int, int]] = []

    def refusing(self, n: int, words: List[str], folder: str) -> Tuple[Ran, Told]:
        env = {"LD_PRELOAD": self.shim, "REFUSED_GROWTH": str(n)}
        ran = subprocess.run(words, env=env, cwd=folder, capture_output=True, timeout=120)
        self.count += 1
        told = re.search(rb"^refused (bytes|thread) (\d+) after (\d+)$", ran.stderr, re.M)
        return ran, told

    def fault(self, name: str, n: int, told: Told, text: str) -> None:
        self.faults += 1
        what = f"{told[1].decode()} {told[2].decode()}" if told else "none"
        print(f"  {name}, growth {n} refused ({what}): {text!r}", flush=True)

    def lacks(self, name: str) -> None:
        if self.word in name:
            self.missing += 1
            print(f"{name} is not built", flush=True)

    def sweep(
        self, name: str, words: List[str], judge: Judge, folder: str, numbers: Optional[Iterator[int]] = None
    ) -> None:
        """Refuses each growth in turn. `judge` says what is wrong with a run, or `BEFORE`, or None."""
        if self.word not in name:
            return
        refused = before = findings = n = 0
        while True:
            n = n + 1 if numbers is None else next(numbers, 0)
            if not n:
                break
            ran, told = self.refusing(n, words, folder)
            wrong = judge(ran, told)
            if wrong == BEFORE:
                before += 1
            elif wrong is not None:
                findings += 1
                self.fault(name, n, told, wrong)
            elif told:
                refused += 1
            if not told and numbers is None:
                break
        self.rows.append((name, refused, before, findings))
        print(f"{name}: {refused} growths refused", flush=True)

    def table(self) -> None:
        print("\n| Run | Growths refused and told | Before the call | Findings |\n|---|---|---|---|")
        for row in self.rows:
            print("| {} | {} | {} | {} |".format(*row))


def is_cut(text: str, whole: str) -> bool:
    """Whether these are some lines of the whole, in their order."""
    lines = iter(whole.splitlines())
    return all(line in lines for line in text.splitlines())


class ProgramRun:
    """A command of the program, with what it prints and writes with ample memory."""

    def __init__(self, program: str, line: str, begin: str, folder: str) -> None:
        self.name, self.begin = f"score {line}", begin
        self.outs = [os.path.join(folder, f"OUT.{kind}") for kind in ("dat", "lfts", "vcd", "gtkw", "map")]
        places = {os.path.basename(it): it for it in glob.glob(os.path.join(folder, "*"))}
        places |= {os.path.basename(out): out for out in self.outs}
        self.words = [program, *(places.get(word) or example(word) for word in line.split())]
        self.folder = folder
        self.prepare()
        ran = subprocess.run(self.words, cwd=folder, capture_output=True)
        self.text, self.status, self.written = ran.stdout.decode(errors="replace"), ran.returncode, self.files()
        self.prepare()

    def prepare(self) -> None:
        for out in self.outs:
            with open(out, "wb") as file:
                file.write(BEFORE_IT)

    def files(self) -> List[bytes]:
        found = []
        for out in self.outs:
            with open(out, "rb") as file:
                found.append(file.read())
        return found

    def is_told(self, text: str, told: "re.Match[bytes]") -> bool:
        """Whether the program says that a growth was refused. `dump` says so below what it has printed by then, and
        JSON is printed once the words are read."""
        lawful = ["refused memory\n"] + ["refused thread\n"] * (told[1] == b"thread")
        if "--json" in self.words:
            lawful.append('{"line":"refused memory","verdict":"refused"}\n')
        if "dump" in self.words and text.endswith(lawful[0]):
            printed = text.removesuffix(lawful[0])
            return is_cut(printed, self.text) if "--last" in self.words else self.is_but_for_one(printed, int(told[3]))
        return text in lawful or self.is_of_each(text)

    def is_but_for_one(self, printed: str, bytes_read: int) -> bool:
        """Whether these are the first lines of all, and those that are missing end in what was read last."""
        missing = self.text.removeprefix(printed)
        ends = [int(at) for at in re.findall(r" ; at (\d+)$", missing, re.M)[1:]]
        return printed + missing == self.text and (not ends or ends[0] > bytes_read - PIECE)

    def is_of_each(self, text: str) -> bool:
        """Whether each line is that of ample memory, or says that memory ran out for its trace."""
        lines, whole = text.splitlines(), self.text.splitlines()
        lawful = [(due, f"{due.partition(': ')[0]}: refused memory") for due in whole]
        return ": " in self.text and lines != whole and len(lines) == len(whole) and all(map(in_pair, lines, lawful))

    def judge(self, ran: Ran, told: Told) -> Optional[str]:
        text, files = ran.stdout.decode(errors="replace"), self.files()
        parts = glob.glob(os.path.join(self.folder, "*.part"))
        self.prepare()
        if parts:
            return f"{text} and {parts}"
        if not told:
            same = (text, ran.returncode, files) == (self.text, self.status, self.written)
            return None if same and text.startswith(self.begin) else text
        if any(found not in (BEFORE_IT, whole) for found, whole in zip(files, self.written)):
            return f"{text} and a file of other bytes"
        return None if self.is_told(text, told) and ran.returncode == 2 else text


def in_pair(line: str, pair: Tuple[str, str]) -> bool:
    return line in pair


def example(word: str) -> str:
    path = os.path.join(EXAMPLES, word)
    return path if os.path.exists(path) else word


def judge_told(ran: Ran, told: Told) -> Optional[str]:
    passed = ran.returncode == 0
    said = (ran.stdout + ran.stderr).decode(errors="replace")
    if not told:
        return None if passed else said
    return None if not passed and re.search(r"[mM]emory|Alloc(Failed|Error)|Thread", said) else said


def judge_swept(ran: Ran, told: Told) -> Optional[str]:
    said = (ran.stdout + ran.stderr).decode(errors="replace")
    if not told:
        return None if ran.returncode == 0 else said
    if ran.returncode == FAILED and re.search(r"^error: .*(AllocError|AllocFailed|no memory|no order)", said, re.M):
        return BEFORE
    is_told = re.search("^(out of memory|a thread was refused)$", said, re.M)
    return None if ran.returncode == FAILED and is_told else said


def judge_beside(ran: Ran, told: Told) -> Optional[str]:
    if told and ran.returncode == 0 and (told[1] == b"thread" or told[2] == THREAD_BYTES):
        return None
    return judge_swept(ran, told)


def judge_demo(out: str) -> Judge:
    """Whether `demo` tells a refused growth, and leaves its file as it was."""

    def judge(ran: Ran, told: Told) -> Optional[str]:
        text, parts = ran.stdout.decode(errors="replace"), glob.glob(f"{out}.*")
        with open(out, "rb+") as file:
            written = file.read()
            file.seek(0)
            file.truncate()
            file.write(BEFORE_IT)
        if not told:
            is_well = text.startswith("demo events=") and written.startswith(b"LFTS")
        else:
            due = "refused thread\n" if told[1] == b"thread" else "refused memory\n"
            is_well = text == due and ran.returncode == 2 and written == BEFORE_IT
        return None if is_well and not parts else f"{text} and {len(written)} bytes, {parts}"

    return judge


def tests_by_name() -> Dict[str, List[Tuple[str, str]]]:
    """The tests that are built: for each name of a function the programs and the full names."""
    found: Dict[str, List[Tuple[str, str]]] = {}
    for program in sorted(glob.glob(os.path.join(TOP, "crates", "*", "out", "*_tests"))):
        listed = subprocess.run([program, "--list"], capture_output=True, text=True).stdout
        for test in re.findall(r"^(\S+): test$", listed, re.M):
            found.setdefault(test.split("::")[-1], []).append((program, test))
    return found


def crate_of(program: str) -> str:
    """The crate whose tests the program runs."""
    return os.path.basename(program).removesuffix("_tests")


def make_files(folder: str) -> None:
    """The files that commands read, beside those of examples/."""
    legal, broken = example("load_misses_both_levels.lfts"), example("reply_with_a_wrong_byte.lfts")
    with open(broken, "rb") as file:
        cut = file.read()[:128]
    for name, data in (("MAP", MAP.encode()), ("LIST", f"{legal}\n{broken}\n".encode()), ("CUT", cut)):
        with open(os.path.join(folder, name), "wb") as file:
            file.write(data)
    words = ["--events", str(LONG_EVENTS), "--out", "LONG", "--config", "LONG.toml"]
    subprocess.run([sys.executable, os.path.join(TOP, "bench", "make_trace.py"), *words], cwd=folder, check=True)


def sweep_program(runs: Runs, score: str, folder: str) -> None:
    if not os.path.exists(score):
        runs.lacks("score")
        return
    make_files(folder)
    for line, begin in [*COMMANDS, WITH_WORKERS]:
        run = ProgramRun(score, line, begin, folder)
        runs.sweep(run.name, run.words, run.judge, folder)
    for line, begin in LONG_COMMANDS:
        run = ProgramRun(score, line, begin, folder)
        runs.sweep(run.name, run.words, run.judge, folder, iter(LONG_GROWTHS))
    out = os.path.join(folder, "demo.lfts")
    with open(out, "wb") as file:
        file.write(BEFORE_IT)
    for shape in ("small.toml", "two_ports.toml", "four_ports_wide.toml"):
        words = [score, "demo", os.path.join(EXAMPLES, shape), out]
        numbers = iter([*range(1, 150), *range(150, 3000, 37)])
        runs.sweep(f"score demo {shape}", words, judge_demo(out), folder, numbers)


def sweep_tests(runs: Runs, folder: str) -> None:
    built = tests_by_name()
    swept = sorted({SWEPT + run for run in RUNS} | {name for name in built if name.startswith(SWEPT)})
    rows = [(crate_of(program), name, program, test) for name in built for program, test in built[name]]
    wanted = [row for name in swept for row in rows if row[1] == name] + [
        row for told in TOLD for row in rows if row[:2] == told
    ]
    for crate, name, program, test in wanted:
        judge = judge_told if (crate, name) in TOLD else judge_beside if name == BESIDE else judge_swept
        runs.sweep(f"{crate} {test}", [program, test], judge, folder)
    for name in swept + [f"{crate} {name}" for crate, name in TOLD]:
        if not any(name in (row[1], f"{row[0]} {row[1]}") for row in wanted):
            runs.lacks(name)


def main() -> int:
    parser = argparse.ArgumentParser(description=__doc__, formatter_class=argparse.RawDescriptionHelpFormatter)
    parser.add_argument("word", nargs="?", default="")
    parser.add_argument("--program", default=os.path.join(TOP, "crates", "score", "out", "score"))
    arguments = parser.parse_args()
    with tempfile.TemporaryDirectory() as folder:
        runs = Runs(shim_in(folder), arguments.word)
        sweep_program(runs, os.path.abspath(arguments.program), folder)
        sweep_tests(runs, folder)
        runs.table()
        print(f"runs={runs.count} not_answered={runs.faults} not_built={runs.missing}")
        return 1 if runs.faults or runs.missing else 0


if __name__ == "__main__":
    sys.exit(main())
