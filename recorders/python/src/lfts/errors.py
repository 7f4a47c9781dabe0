"""What is told of a call that breaks the format, and of a trace that does not keep it."""

from __future__ import annotations

import enum
import reprlib


class RecordError(ValueError):
    """A call of a `Recorder` would break the format. Nothing was recorded by it, and the recorder goes on.

    `call` and `argument` are the names of the call and of its argument, `value` is what was given, and `allowed` says
    what may be given."""

    def __init__(self, call: str, argument: str, value: object, allowed: str) -> None:
        super().__init__(call, argument, value, allowed)
        self.call, self.argument, self.value, self.allowed = call, argument, value, allowed

    def __str__(self) -> str:
        return f"{self.call}: {self.argument} is {reprlib.repr(self.value)}; allowed: {self.allowed}"


class Fault(enum.Enum):
    """Why a trace cannot be read. The values are the names that `score check` prints."""

    MAGIC = "Magic"
    VERSION = "Version"
    HEADER_RANGE = "HeaderRange"
    MEMORY_ORDER = "MemoryOrder"
    KIND = "Kind"
    LOG_KIND = "LogKind"
    BANK_RANGE = "BankRange"
    WRONG_BANK = "WrongBank"
    RESERVED = "Reserved"
    OP = "Op"
    SIZE = "Size"
    ALIGNMENT = "Alignment"
    BLOCK_RANGE = "BlockRange"
    MASK_RANGE = "MaskRange"
    TOO_MANY = "TooMany"
    COUNT = "Count"
    TRUNCATED = "Truncated"
    TRAILING = "Trailing"


class FormatError(ValueError):
    """A trace does not keep the format. `offset` is the first byte of the header or record in which the fault stands,
    or the first byte after the end record. `found` says what stands there and what is allowed."""

    def __init__(self, fault: Fault, offset: int, found: str) -> None:
        super().__init__(fault, offset, found)
        self.fault, self.offset, self.found = fault, offset, found

    def __str__(self) -> str:
        return f"{self.fault.value} at {self.offset}: {self.found}"
