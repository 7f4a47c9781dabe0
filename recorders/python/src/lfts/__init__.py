"""Traces of a two-level lockup-free cache: recorded from a model, and read.

`Recorder` has a call for each event of a cache and writes the trace, `Reader` iterates over the records of a trace,
and `write` spells a trace from records. The format is that of docs/FORMAT.md of the scoreboard `score`."""

from lfts.errors import Fault, FormatError, RecordError
from lfts.reader import Reader
from lfts.recorder import Cycle, Phase, Recorder
from lfts.trace import (
    NO_BANK,
    Event,
    Evict1,
    Evict2,
    Fence,
    Fill1,
    Fill2,
    Header,
    Hit,
    Issue,
    Kind,
    Memory,
    Merge,
    Op,
    Primary,
    Record,
    Reply,
    SecondHit,
    SecondMerge,
    SecondPrimary,
    SecondStall,
    Stall,
    write,
)

__version__ = "0.3.0"

LOAD, STORE = Op.LOAD, Op.STORE

__all__ = [
    "LOAD",
    "NO_BANK",
    "STORE",
    "Cycle",
    "Event",
    "Evict1",
    "Evict2",
    "Fault",
    "Fence",
    "Fill1",
    "Fill2",
    "FormatError",
    "Header",
    "Hit",
    "Issue",
    "Kind",
    "Memory",
    "Merge",
    "Op",
    "Phase",
    "Primary",
    "Reader",
    "Record",
    "RecordError",
    "Recorder",
    "Reply",
    "SecondHit",
    "SecondMerge",
    "SecondPrimary",
    "SecondStall",
    "Stall",
    "__version__",
    "write",
]
