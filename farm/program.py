"""Calls of the program score, from groups.py and latencies.py."""

from __future__ import annotations

import os
import subprocess
from pathlib import Path
from typing import Sequence

SCORE = os.environ.get("SCORE", "score")
LIMIT = float(os.environ.get("LIMIT", "600"))
UNPACK = {".gz": ["gzip", "-dc", "--"], ".zst": ["zstd", "-dc", "--"]}


def score(command: Sequence[str], trace: str, *after: str) -> str:
    """What a command of the program prints of a trace, which is unpacked on the way."""
    unpack = UNPACK.get(Path(trace).suffix)
    words = [SCORE, *command, "-" if unpack else trace, *after]
    if not unpack:
        done = subprocess.run(words, stdin=subprocess.DEVNULL, stdout=subprocess.PIPE, timeout=LIMIT, check=False)
        return done.stdout.decode(errors="backslashreplace")
    with subprocess.Popen([*unpack, trace], stdin=subprocess.DEVNULL, stdout=subprocess.PIPE) as unpacking:
        done = subprocess.run(words, stdin=unpacking.stdout, stdout=subprocess.PIPE, timeout=LIMIT, check=False)
    return done.stdout.decode(errors="backslashreplace")
