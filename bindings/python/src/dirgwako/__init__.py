"""Prometheus metrics by the names and calls of prometheus_client, whose scrapes are of one moment: all series of a board, in each scrape."""
from ._python import refuse_free_threaded

refuse_free_threaded()

from ._exposition import (  # noqa: E402  (the extension is of no use to a Python that was refused)
    CONTENT_TYPE_LATEST,
    MetricsHandler,
    generate_latest,
    make_asgi_app,
    make_wsgi_app,
    start_http_server,
    write_to_textfile,
)
from ._faults import NotWhole, Refusal  # noqa: E402
from ._metrics import Counter, Gauge, Histogram  # noqa: E402
from ._registry import REGISTRY, CollectorRegistry  # noqa: E402
from ._samples import Sample  # noqa: E402

__all__ = [
    "CONTENT_TYPE_LATEST",
    "REGISTRY",
    "CollectorRegistry",
    "Counter",
    "Gauge",
    "Histogram",
    "MetricsHandler",
    "NotWhole",
    "Refusal",
    "Sample",
    "generate_latest",
    "make_asgi_app",
    "make_wsgi_app",
    "start_http_server",
    "write_to_textfile",
]
