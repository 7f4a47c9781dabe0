"""The checks of the arguments of a recorder's calls. Each gives the value as it is recorded."""

from __future__ import annotations

import operator
from typing import Iterable, Optional, Sequence, Tuple, TypeVar, Union

from lfts.errors import RecordError

Bytes = Union[bytes, bytearray, memoryview]
T = TypeVar("T")


def listed(values: Sequence[int]) -> str:
    """`1, 2 or 4`."""
    texts = [str(int(value)) for value in values]
    return " or ".join([", ".join(texts[:-1]), texts[-1]] if len(texts) > 1 else texts)


def whole(value: object) -> Optional[int]:
    """A number of any type that stands for a whole one, and None for anything else."""
    try:
        return operator.index(value)  # type: ignore[arg-type]
    except TypeError:
        return None


def within(call: str, argument: str, value: int, least: int, most: int) -> int:
    """A whole number from `least` to `most`."""
    number = whole(value)
    if number is None or not least <= number <= most:
        raise RecordError(call, argument, value, f"{least} to {most}")
    return number


def one_of(call: str, argument: str, value: int, allowed: Sequence[int]) -> int:
    """One of some numbers."""
    number = whole(value)
    if number is None or number not in allowed:
        raise RecordError(call, argument, value, listed(allowed))
    return number


def carried(call: str, argument: str, value: Bytes, sizes: Sequence[int]) -> bytes:
    """Bytes, as many as one of the sizes says."""
    try:
        data = bytes(memoryview(value))
    except TypeError:
        raise RecordError(call, argument, value, f"bytes, {listed(sizes)} of them") from None
    if len(data) not in sizes:
        raise RecordError(call, argument, data, f"{listed(sizes)} bytes, and not {len(data)}")
    return data


def each(call: str, argument: str, values: Iterable[T], count: int) -> Tuple[T, ...]:
    """So many values: one for each block of a second-level block."""
    try:
        given = tuple(values)
    except TypeError:
        given = ()
    if len(given) != count:
        raise RecordError(call, argument, values, f"a list of {count}, one for each block")
    return given
