"""The calls of registries and metrics that are the same over each extension module."""
from __future__ import annotations

import time
from typing import TYPE_CHECKING, Iterable, Mapping, Sequence

from ._around import ExceptionCounter, Exceptions, InprogressTracker
from ._names import INF, bounds_of, digits_of, full_name, names_of
from ._samples import Sample, samples_of

if TYPE_CHECKING:
    from ._dirgwako import Counter as _Counter, Gauge as _Gauge, Histogram as _Histogram, Metric as _Metric, Registry as _Registry
else:
    _Counter = _Gauge = _Histogram = _Metric = _Registry = object

SECONDS = (0.005, 0.01, 0.025, 0.05, 0.075, 0.1, 0.25, 0.5, 0.75, 1.0, 2.5, 5.0, 7.5, 10.0, INF)


def _by_number(labels: Mapping[str, str]) -> dict[str, str | float]:
    """The labels, with the bound of a bucket as a number."""
    found: dict[str, str | float] = dict(labels)
    try:
        found["le"] = float(found["le"])
    except (KeyError, ValueError):
        pass
    return found


class RegistryCalls(_Registry):
    """Metrics, and scrapes of them in which all series of a board are of one moment."""

    def __init__(self, auto_describe: bool = False) -> None:
        """`auto_describe` is of collectors, which are not here."""

    def samples(self) -> list[Sample]:
        """All series, by one scrape: those of a board are of one moment."""
        return list(samples_of(self._scrape().decode()))

    def get_sample_value(self, name: str, labels: Mapping[str, str] | None = None) -> float | None:
        """The value of one series by a scrape of its own, None where there is none. For tests. A bound is found by its number: `1.0` and `1` are one."""
        wanted = _by_number(labels or {})
        for sample in self.samples():
            if sample.name == name and _by_number(sample.labels) == wanted:
                return sample.value
        return None


class _Calls(_Metric):
    __slots__ = ()

    def _register(
        self,
        registry: _Registry,
        name: str,
        documentation: str,
        labelnames: Iterable[str],
        resolution: float | None,
        group: int,
        buckets: Sequence[float | str] = (),
    ) -> None:
        """A help has no blank at its edges: those that are there are cut off."""
        labels = names_of(name, labelnames)
        digits = digits_of(name, resolution)
        self._make(registry, name, documentation.strip(" \t"), labels, bounds_of(name, buckets, digits), digits, group)

    def _check_observable(self) -> None:
        if not self._is_child:
            raise ValueError(f"{self._name} has labels {self._labelnames!r}: count on what labels(..) gives")


class CounterCalls(_Calls, _Counter):
    __slots__ = ()

    def count_exceptions(self, exception: Exceptions = Exception) -> ExceptionCounter:
        """Counts the exceptions that leave a block or a function: `with` it, or as a decorator."""
        self._check_observable()
        return ExceptionCounter(self, exception)


class GaugeCalls(_Calls, _Gauge):
    __slots__ = ()

    def set_to_current_time(self) -> None:
        """Sets it to the seconds since 1970."""
        self.set(time.time() if self._digits else int(time.time()))

    def track_inprogress(self) -> InprogressTracker:
        """One up while a block or a function runs: `with` it, or as a decorator."""
        self._check_observable()
        return InprogressTracker(self)


class HistogramCalls(_Calls, _Histogram):
    __slots__ = ()

    DEFAULT_BUCKETS = SECONDS


def counter_name(name: str, namespace: str, subsystem: str, unit: str) -> str:
    return full_name(name, namespace, subsystem, unit, "_total")


def plain_name(name: str, namespace: str, subsystem: str, unit: str) -> str:
    return full_name(name, namespace, subsystem, unit)
