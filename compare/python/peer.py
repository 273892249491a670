"""The work of compare/ over Python's prometheus_client. The words are those of rust/src/main.rs."""
import os
import sys
import threading
import time
from wsgiref.simple_server import make_server

# Without the series that tell when each metric was made, so that the texts have the same series. The library reads it where it is imported.
os.environ["PROMETHEUS_DISABLE_CREATED_SERIES"] = "True"
from prometheus_client import CollectorRegistry, Counter, Histogram, generate_latest, make_wsgi_app
from prometheus_client.exposition import ThreadingWSGIServer, _SilentHandler

import page

# How many families of counters a service has, how many of histograms, and how many bounds each histogram has.
SERVICES = {"small": (8, 1, 10), "large": (32, 4, 24)}
BOUNDS = [5, 10, 25, 50, 100, 250, 500, 1_000, 2_500, 5_000]


def bound(place):
    """They are 5, 10, 25, 50, 100, 250 and so on."""
    return (5, 10, 25)[place % 3] * 10 ** (place // 3)


def service(counters, histograms, bounds):
    """A registry of a service, counted."""
    registry = CollectorRegistry()
    for family in range(counters):
        made = Counter(f"requests_{family:02}_total", f"Requests answered so far by service part {family:02}.", ["handler"], registry=registry)
        for child in range(8):
            made.labels(f"/api/v1/{child}").inc(10_007 * (family % 32) + 1_009 * (child + 1))
    for family in range(histograms):
        all_bounds = [bound(place) for place in range(bounds)]
        made = Histogram(f"response_{family:02}_micros", f"Microseconds taken by answers of part {family:02}.", ["handler"], registry=registry, buckets=all_bounds)
        for child in range(8):
            histogram = made.labels(f"/api/v1/{child}")
            for observed in range(1_000 * bounds):
                histogram.observe(all_bounds[observed % bounds])
    return registry


def gather(registry, rounds):
    """Prints the nanoseconds of a scrape with its text: the fastest of a hundred batches of a tenth of the rounds."""
    least, rounds = float("inf"), rounds // 10 + 1
    for _batch in range(100):
        start = time.perf_counter_ns()
        for _round in range(rounds):
            generate_latest(registry)
        least = min(least, (time.perf_counter_ns() - start) / rounds)
    print(f"{least:.0f}")


def serve(registry, port):
    """Serves it by the library's own server until the program is killed."""
    server = make_server("127.0.0.1", port, make_wsgi_app(registry), ThreadingWSGIServer, handler_class=_SilentHandler)
    print(f"listening {server.server_port}", flush=True)
    server.serve_forever()


def torn(scrapes):
    """Prints so many scrapes, each behind a line of its own, while another thread counts without rest: rust/src/chain.rs."""
    registry, begun, ended = CollectorRegistry(), threading.Event(), threading.Event()
    a = Counter("a_total", "First.", registry=registry)
    b = Counter("b_total", "Second.", registry=registry)
    size = Histogram("c_bytes", "Bytes.", registry=registry, buckets=[10, 100])
    children = Counter("d_total", "Children.", ["child"], registry=registry)
    first, second = children.labels("1"), children.labels("2")

    def count():
        while not ended.is_set():
            a.inc()
            b.inc()
            size.observe(7)
            first.inc()
            second.inc()
            begun.set()

    counting = threading.Thread(target=count)
    counting.start()
    begun.wait()
    try:
        for _scrape in range(scrapes):
            sys.stdout.buffer.write(b"---\n" + generate_latest(registry))
    finally:
        ended.set()
        counting.join()


def each(threads, rounds, operation):
    """The nanoseconds of an operation by so many threads at once: the time until all have ended by the rounds of one."""
    def often():
        for _round in range(rounds):
            operation()

    # The last of them is this one.
    all_threads = [threading.Thread(target=often) for _thread in range(threads - 1)]
    start = time.perf_counter_ns()
    for thread in all_threads:
        thread.start()
    often()
    for thread in all_threads:
        thread.join()
    return (time.perf_counter_ns() - start) / rounds


def line(name, rounds, operation):
    """Prints the nanoseconds of an operation: by one thread, the fastest of a hundred batches of a tenth of the rounds, and by four at once."""
    print(f"{name} 1 {min(each(1, rounds // 10 + 1, operation) for _batch in range(100)):.1f}")
    print(f"{name} 4 {each(4, rounds, operation):.1f}")


def updates(rounds):
    """Prints all lines."""
    one = Counter("one_total", "One.", registry=None)
    line("inc", rounds, one.inc)
    sizes = Histogram("sizes", "Sizes.", registry=None, buckets=BOUNDS)
    line("observe", rounds, lambda: sizes.observe(7))
    family = Counter("ten_total", "Ten.", ["n"], registry=None)
    ten = [family.labels(str(n)) for n in range(10)]
    line("inc_10", max(rounds // 10, 1), lambda: [it.inc() for it in ten])
    line("observe_10", max(rounds // 10, 1), lambda: [sizes.observe(it) for it in BOUNDS])


def main(words):
    match words:
        case ["torn", scrapes]:
            torn(int(scrapes))
        case ["updates", rounds]:
            updates(int(rounds))
        case ["gather", rounds, size]:
            gather(service(*SERVICES[size]), int(rounds))
        case ["serve", port, size]:
            serve(service(*SERVICES[size]), int(port))
        case ["page", scrapes, how]:
            page.measure(how, int(scrapes))
        case _:
            sys.exit("usage: peer.py torn SCRAPES | updates ROUNDS | gather ROUNDS SIZE | serve PORT SIZE | page SCRAPES one|whole")


if __name__ == "__main__":
    main(sys.argv[1:])
