"""The same metrics over boards that a process shares with those that it forks: a scrape by any of them shows what all have counted, at one moment.

Import it, and make the metrics, before the fork. At most WORKERS processes count; what a killed one has counted stays."""
from __future__ import annotations

import os
import threading
from http.server import ThreadingHTTPServer
from typing import Iterable, Sequence

from . import _exposition, _shared
from ._around import TimerCalls
from ._calls import SECONDS, CounterCalls, GaugeCalls, HistogramCalls, RegistryCalls, counter_name, plain_name
from ._exposition import CONTENT_TYPE_LATEST, Asgi, Wsgi
from ._faults import NotWhole, Refusal
from ._samples import Sample
from ._shared import WORKERS

__all__ = [
    "CONTENT_TYPE_LATEST",
    "REGISTRY",
    "WORKERS",
    "CollectorRegistry",
    "Counter",
    "Gauge",
    "Histogram",
    "MetricsHandler",
    "NotWhole",
    "Refusal",
    "Sample",
    "generate_latest",
    "make_asgi_app",
    "make_wsgi_app",
    "start_http_server",
    "write_to_textfile",
]


class CollectorRegistry(RegistryCalls, _shared.Registry):
    """Metrics of all processes that are forked behind it."""


REGISTRY = CollectorRegistry()


class Timer(TimerCalls, _shared.Timer):
    __slots__ = ()


class Counter(CounterCalls, _shared.Counter):
    """A number that rises, counted by all processes."""

    __slots__ = ()

    def __init__(
        self,
        name: str,
        documentation: str,
        labelnames: Iterable[str] = (),
        namespace: str = "",
        subsystem: str = "",
        unit: str = "",
        registry: CollectorRegistry = REGISTRY,
        *,
        resolution: float | None = None,
        group: int = 0,
    ) -> None:
        self._register(registry, counter_name(name, namespace, subsystem, unit), documentation, labelnames, resolution, group)


class Gauge(GaugeCalls, _shared.Gauge):
    """A number that rises and falls: the sum of what the processes have moved it by, or set it to, also those that have ended."""

    __slots__ = ()

    def __init__(
        self,
        name: str,
        documentation: str,
        labelnames: Iterable[str] = (),
        namespace: str = "",
        subsystem: str = "",
        unit: str = "",
        registry: CollectorRegistry = REGISTRY,
        *,
        resolution: float | None = None,
        group: int = 0,
    ) -> None:
        self._register(registry, plain_name(name, namespace, subsystem, unit), documentation, labelnames, resolution, group)

    def time(self) -> Timer:
        """Sets it to the seconds that a block or a function takes."""
        return Timer(self)


class Histogram(HistogramCalls, _shared.Histogram):
    """How many values of all processes were at most each bucket's bound, their sum and their count."""

    __slots__ = ()

    def __init__(
        self,
        name: str,
        documentation: str,
        labelnames: Iterable[str] = (),
        namespace: str = "",
        subsystem: str = "",
        unit: str = "",
        registry: CollectorRegistry = REGISTRY,
        *,
        buckets: Sequence[float | str] = SECONDS,
        resolution: float | None = None,
        group: int = 0,
    ) -> None:
        self._register(registry, plain_name(name, namespace, subsystem, unit), documentation, labelnames, resolution, group, buckets)

    def time(self) -> Timer:
        """Counts the seconds that a block or a function takes."""
        return Timer(self)


class MetricsHandler(_exposition.MetricsHandler):
    """Answers requests with the metrics of `registry`."""

    registry = REGISTRY


def generate_latest(registry: CollectorRegistry = REGISTRY) -> bytes:
    """The text of a scrape, all series of a board at one moment of all processes."""
    return _exposition.generate_latest(registry)


def start_http_server(port: int, addr: str = "0.0.0.0", registry: CollectorRegistry = REGISTRY) -> tuple[ThreadingHTTPServer, threading.Thread]:
    """Serves the metrics of all processes from a thread of this one."""
    return _exposition.start_http_server(port, addr, registry)


def make_wsgi_app(registry: CollectorRegistry = REGISTRY, disable_compression: bool = True) -> Wsgi:
    """A WSGI application that shows the metrics of all processes."""
    return _exposition.make_wsgi_app(registry)


def make_asgi_app(registry: CollectorRegistry = REGISTRY, disable_compression: bool = True) -> Asgi:
    """An ASGI application that shows the metrics of all processes."""
    return _exposition.make_asgi_app(registry)


def write_to_textfile(path: str | os.PathLike[str], registry: CollectorRegistry = REGISTRY) -> None:
    """For the textfile collector of the node exporter."""
    _exposition.write_to_textfile(path, registry)
