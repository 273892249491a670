from ._dirgwako import (
    CHANGES as CHANGES,
    COUNTERS as COUNTERS,
    GAUGES as GAUGES,
    HISTOGRAMS as HISTOGRAMS,
    WORKERS as WORKERS,
    Counter as Counter,
    Gauge as Gauge,
    Histogram as Histogram,
    Metric as Metric,
    Registry as Registry,
    Timer as Timer,
    words as words,
)
