"""Counter, Gauge and Histogram."""
from __future__ import annotations

from typing import Iterable, Sequence

from . import _dirgwako
from ._around import TimerCalls
from ._calls import SECONDS, CounterCalls, GaugeCalls, HistogramCalls, counter_name, plain_name
from ._registry import REGISTRY, CollectorRegistry


class Timer(TimerCalls, _dirgwako.Timer):
    __slots__ = ()


class Counter(CounterCalls, _dirgwako.Counter):
    """A number that rises: `Counter("jobs", "Jobs done.", ["kind"]).labels("mail").inc()`. The text calls it `jobs_total`."""

    __slots__ = ()

    def __init__(
        self,
        name: str,
        documentation: str,
        labelnames: Iterable[str] = (),
        namespace: str = "",
        subsystem: str = "",
        unit: str = "",
        registry: CollectorRegistry = REGISTRY,
        *,
        resolution: float | None = None,
        group: int = 0,
    ) -> None:
        self._register(registry, counter_name(name, namespace, subsystem, unit), documentation, labelnames, resolution, group)


class Gauge(GaugeCalls, _dirgwako.Gauge):
    """A number that rises and falls: `Gauge("jobs_open", "Jobs open.").set(17)`."""

    __slots__ = ()

    def __init__(
        self,
        name: str,
        documentation: str,
        labelnames: Iterable[str] = (),
        namespace: str = "",
        subsystem: str = "",
        unit: str = "",
        registry: CollectorRegistry = REGISTRY,
        *,
        resolution: float | None = None,
        group: int = 0,
    ) -> None:
        self._register(registry, plain_name(name, namespace, subsystem, unit), documentation, labelnames, resolution, group)

    def time(self) -> Timer:
        """Sets it to the seconds that a block or a function takes: `with` it, or as a decorator."""
        return Timer(self)


class Histogram(HistogramCalls, _dirgwako.Histogram):
    """How many values were at most each bucket's bound, their sum and their count: `Histogram("answer_seconds", "Answers.").observe(0.25)`."""

    __slots__ = ()

    def __init__(
        self,
        name: str,
        documentation: str,
        labelnames: Iterable[str] = (),
        namespace: str = "",
        subsystem: str = "",
        unit: str = "",
        registry: CollectorRegistry = REGISTRY,
        *,
        buckets: Sequence[float | str] = SECONDS,
        resolution: float | None = None,
        group: int = 0,
    ) -> None:
        self._register(registry, plain_name(name, namespace, subsystem, unit), documentation, labelnames, resolution, group, buckets)

    def time(self) -> Timer:
        """Counts the seconds that a block or a function takes: `with` it, or as a decorator."""
        return Timer(self)
