"""What the tests from outside share: checks that print a line each, and programs that run for a limited time.

    checks = Checks()
    checks.check("a name", function)          the function raises a Failure where something differs
    checks.skip("another name", "gcc is not installed")
    sys.exit(checks.finish())

A check prints `ok NAME`, `FAILED NAME: what` or `skipped NAME: why`, and the last line is
`N passed, M failed, K skipped`."""

from __future__ import annotations

import argparse
import contextlib
import os
import pty
import shutil
import signal
import subprocess
import threading
import traceback
from pathlib import Path
from typing import Callable, Mapping, Optional, Sequence, Union

TOP = Path(__file__).resolve().parent.parent
PROGRAM = TOP / "crates/score/out/score"
SECONDS = 60
STATUS = {"yes": 0, "no": 1, "refused": 2}

Word = Union[str, Path]


class Failure(Exception):
    """What a check found, and what was expected in its place."""


class Checks:
    """The checks of one script, in the order in which they are made."""

    def __init__(self) -> None:
        self.passed = self.failed = self.skipped = 0

    def check(self, name: str, function: Callable[[], None]) -> None:
        """Makes a check. It fails where the function raises: a `Failure` is told as it is, anything else with its
        place in the script."""
        try:
            function()
        except Failure as failure:
            self._fail(name, str(failure))
        except Exception:
            self._fail(name, traceback.format_exc())
        else:
            self.passed += 1
            print(f"ok {name}", flush=True)

    def skip(self, name: str, why: str) -> None:
        """Tells a check that cannot be made here, since a tool is not installed."""
        self.skipped += 1
        print(f"skipped {name}: {why}", flush=True)

    def check_with(self, tools: Sequence[str], name: str, function: Callable[[], None]) -> None:
        """Makes a check that needs tools, and skips it where one is not installed."""
        missing = [tool for tool in tools if shutil.which(tool) is None]
        if missing:
            self.skip(name, f"{', '.join(missing)} not installed")
        else:
            self.check(name, function)

    def finish(self) -> int:
        """Prints the counts, and gives the status of the script."""
        print(f"{self.passed} passed, {self.failed} failed, {self.skipped} skipped", flush=True)
        return 1 if self.failed or not (self.passed or self.skipped) else 0

    def _fail(self, name: str, what: str) -> None:
        self.failed += 1
        print(f"FAILED {name}: " + what.rstrip().replace("\n", "\n    "), flush=True)


def program_argument(description: Optional[str]) -> argparse.ArgumentParser:
    """A command line whose one argument, `program`, is the built `score`."""
    parser = argparse.ArgumentParser(description=description, formatter_class=argparse.RawDescriptionHelpFormatter)
    parser.add_argument("program", nargs="?", type=built_program, default=str(PROGRAM), help=f"default: {PROGRAM}")
    return parser


def built_program(path: str) -> Path:
    """The absolute path of a program, which must be built."""
    program = Path(path).resolve()
    if not os.access(program, os.X_OK) or not program.is_file():
        raise argparse.ArgumentTypeError(f"{path} is not built")
    return program


def run(
    words: Sequence[Word],
    *,
    seconds: float = SECONDS,
    status: Optional[int] = 0,
    cwd: Optional[Path] = None,
    env: Optional[Mapping[str, str]] = None,
    stdin: Optional[bytes] = None,
) -> subprocess.CompletedProcess[str]:
    """Runs a program and gives its output as text. A status other than the one given (None allows each) and a run
    that takes longer are a `Failure`; what still runs then is killed with all that it started. `env` is added to the
    environment."""
    command = [str(word) for word in words]
    process = subprocess.Popen(
        command,
        stdin=subprocess.DEVNULL if stdin is None else subprocess.PIPE,
        stdout=subprocess.PIPE,
        stderr=subprocess.PIPE,
        cwd=cwd,
        env={**os.environ, **(env or {})},
        start_new_session=True,
    )
    try:
        out, err = process.communicate(stdin, timeout=seconds)
    except BaseException as error:
        with contextlib.suppress(ProcessLookupError):
            os.killpg(process.pid, signal.SIGKILL)
        process.communicate()
        if isinstance(error, subprocess.TimeoutExpired):
            raise Failure(f"{' '.join(command)}: no end after {seconds} seconds") from None
        raise
    done = subprocess.CompletedProcess(command, process.returncode, text(out), text(err))
    if status is not None and done.returncode != status:
        told = "\n".join((done.stdout + done.stderr).splitlines()[-20:])
        raise Failure(f"{' '.join(command)}: status {done.returncode} and not {status}\n{told}")
    return done


def run_on_terminal(words: Sequence[Word]) -> subprocess.CompletedProcess[str]:
    """Runs a program whose standard error is a terminal, and gives what it printed and what the terminal showed."""
    master, slave = pty.openpty()
    shown = bytearray()

    def listen() -> None:
        # a terminal that nothing writes to any more answers an error
        with contextlib.suppress(OSError):
            while data := os.read(master, 4096):
                shown.extend(data)

    try:
        command = [str(word) for word in words]
        process = subprocess.Popen(command, stdin=subprocess.DEVNULL, stdout=subprocess.PIPE, stderr=slave)
        os.close(slave)
        listener = threading.Thread(target=listen)
        listener.start()
        out, _ = process.communicate(timeout=SECONDS)
        listener.join(SECONDS)
    finally:
        os.close(master)
    return subprocess.CompletedProcess(command, process.returncode, text(out), text(bytes(shown)))


def text(data: bytes) -> str:
    """Output as text, whatever bytes it has."""
    return data.decode(errors="backslashreplace")


def judge(program: Path, config: Path, trace: Path) -> str:
    """The line that `score check` prints of a trace. Its status must be that of the answer, and standard error
    must be empty."""
    done = run([program, "check", config, trace], status=None)
    line, rest = done.stdout.rstrip("\n"), done.stderr
    if rest or STATUS.get(line.split(" ")[0]) != done.returncode:
        raise Failure(f"check {trace}: status {done.returncode}, printed {done.stdout!r}, standard error {rest!r}")
    return line


def expect(found: object, expected: object, what: str = "") -> None:
    """Fails where two values differ."""
    if found != expected:
        where = f"{what}: " if what else ""
        if isinstance(found, (str, bytes)) and isinstance(expected, (str, bytes)):
            place = len(os.path.commonprefix([found, expected]))  # type: ignore[list-item]
            where += f"from {place} on "
            found, expected = found[max(0, place - 10) :], expected[max(0, place - 10) :]
        raise Failure(f"{where}{shortened(found)} and not {shortened(expected)}")


def shortened(value: object) -> str:
    """A value as it is shown, of at most 300 characters."""
    shown = repr(value)
    return shown if len(shown) <= 300 else shown[:300] + ".."
