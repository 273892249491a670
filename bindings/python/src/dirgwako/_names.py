"""Names, resolutions and buckets, as the library takes them."""
from __future__ import annotations

import math
import re
from typing import Iterable

from ._dirgwako import words
from ._faults import NotWhole, Refusal

INF = float("inf")
MOST = 2**48 - 1
EMPTY, BAD_BYTE, TOO_LONG, RESERVED, BAD_BOUNDS = 1, 2, 3, 4, 10
NAME_BYTES = 128
LABEL = re.compile("[a-zA-Z_][a-zA-Z0-9_]*")
MOMENTS = ("_timestamp_seconds", "_start_time_seconds")


def full_name(name: str, namespace: str, subsystem: str, unit: str, suffix: str = "") -> str:
    """The name as the text shows it: of a counter it ends in `_total`, behind the unit."""
    if not name:
        raise Refusal(EMPTY, words(EMPTY))
    full = "_".join(part for part in (namespace, subsystem, name) if part)
    if suffix:
        full = full.removesuffix(suffix)
    if unit and not full.endswith("_" + unit):
        full += "_" + unit
    return full + suffix


def digits_of(name: str, resolution: float | None) -> int:
    """By how many decimal digits the text shifts the metric's units."""
    if resolution is None:
        named = name.removesuffix("_total")
        if named.endswith(MOMENTS):  # microseconds since 1970 are over 2^48 - 1
            return 3
        return 6 if named.endswith("_seconds") else 0
    for digits in range(10):
        if abs(resolution * 10**digits - 1) < 1e-9:
            return digits
    raise ValueError(f"{name}: a resolution is 1, 0.1, 0.01 and so on to 1e-9, not {resolution!r}")


def bounds_of(name: str, buckets: Iterable[float | str], digits: int) -> tuple[int, ...]:
    """The bounds in units, without the last one, which is always there."""
    given = [float(it) if isinstance(it, str) else it for it in buckets]
    if given and given[-1] == INF:
        given.pop()
    return tuple(_bound(name, it, digits) for it in given)


def _bound(name: str, bucket: float, digits: int) -> int:
    if math.isnan(bucket):
        raise NotWhole(f"{name}: a bucket is not a number")
    if not 0 <= bucket * 10**digits <= MOST:
        raise Refusal(BAD_BOUNDS, words(BAD_BOUNDS), name)
    units = int(round(bucket * 10**digits))
    if abs(bucket * 10**digits - units) > 1e-9 * units:
        raise NotWhole(f"{name}: the bucket {bucket!r} is no whole count of units: give whole buckets, or make the metric with a resolution (resolution=1e-6)")
    return units


def names_of(name: str, labelnames: Iterable[str]) -> tuple[str, ...]:
    """A text is made of its letters, which is never what is meant."""
    if isinstance(labelnames, str):
        raise TypeError(f"{name}: labelnames is a list of names, not one text")
    labels = tuple(labelnames)
    for it in labels:
        number = _label_fault(it)
        if number:
            raise Refusal(number, f"label {it!r}: {words(number)}", name)
    return labels


def _label_fault(label: str) -> int:
    """Why this is no label's name; 0 where it is one."""
    if not label:
        return EMPTY
    if not LABEL.fullmatch(label):
        return BAD_BYTE
    if len(label) > NAME_BYTES:
        return TOO_LONG
    return RESERVED if label.startswith("__") else 0
