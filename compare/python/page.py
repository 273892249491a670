"""The series of a page of several boards: families of counters, of histograms and of gauges with one label, in one registry."""
import sys
import time

from prometheus_client import CollectorRegistry, Counter, Gauge, Histogram, generate_latest

# How many families there are of counters, of histograms and of gauges, and how many children each of these has.
PAGES = {"one": ((1, 256), (1, 32), (1, 64)), "whole": ((40, 250), (40, 25), (20, 25))}
BOUNDS = [5, 10, 25, 50, 100, 250, 500, 1_000, 2_500, 5_000]
# How often each bound of a histogram is observed.
TIMES = 100


def handler(child, children):
    """The value of the label of a child, of so many. They do not come in the order in which children are made."""
    return f"/api/v1/{child * 101 % children:03}"


def amount(family, child):
    """What is counted of a child."""
    return 10_007 * (family % 32) + 1_009 * (child % 256 + 1)


def registered(registry, page):
    """All families, with their children."""
    (counters, of_counter), (histograms, of_histogram), (gauges, of_gauge) = page
    made = {
        Counter: [Counter(f"requests_{it:02}_total", f"Requests answered so far by service part {it:02}.", ["handler"], registry=registry) for it in range(counters)],
        Histogram: [Histogram(f"response_{it:02}_micros", f"Microseconds taken by answers of part {it:02}.", ["handler"], registry=registry, buckets=BOUNDS) for it in range(histograms)],
        Gauge: [Gauge(f"waiting_{it:02}", f"Requests that wait at service part {it:02}.", ["handler"], registry=registry) for it in range(gauges)],
    }
    for kind, children in ((Counter, of_counter), (Histogram, of_histogram), (Gauge, of_gauge)):
        for family in made[kind]:
            for child in range(children):
                family.labels(handler(child, children))
    return made


def count(made, page):
    """Counts all."""
    _, of_counter = page[0]
    _, of_histogram = page[1]
    _, of_gauge = page[2]
    for kind, children in ((Counter, of_counter), (Gauge, of_gauge)):
        for number, family in enumerate(made[kind]):
            for child in range(children):
                family.labels(handler(child, children)).inc(amount(number, child))
    for family in made[Histogram]:
        for child in range(of_histogram):
            histogram = family.labels(handler(child, of_histogram))
            for at in range(len(BOUNDS) * TIMES):
                histogram.observe(BOUNDS[at % len(BOUNDS)])


def in_turn(name, counters):
    """Prints the nanoseconds of one of 4,000 increments of these counters in turn, in the fastest of a hundred batches."""
    least, rounds = float("inf"), 4_000
    for _batch in range(100):
        start = time.perf_counter_ns()
        for at in range(rounds):
            counters[at % len(counters)].inc()
        least = min(least, (time.perf_counter_ns() - start) / rounds)
    print(f"{name} {least:.2f}")


def measure(how, scrapes):
    """Prints the nanoseconds of registering a page, those of so many scrapes with their texts, the least and the median, how many bytes the text
    has, and those of an increment of one counter, and of one of each family in turn; or one text, where there are no scrapes to make."""
    page, registry = PAGES[how], CollectorRegistry()
    start = time.perf_counter_ns()
    made = registered(registry, page)
    taken = time.perf_counter_ns() - start
    count(made, page)
    if scrapes == 0:
        sys.stdout.buffer.write(generate_latest(registry))
        return
    times, size = [], 0
    for _scrape in range(scrapes):
        start = time.perf_counter_ns()
        size = len(generate_latest(registry))
        times.append(time.perf_counter_ns() - start)
    times.sort()
    print(f"register {taken}\ngather {times[0]} {times[scrapes // 2]}\nbytes {size}")
    firsts = [family.labels(handler(0, page[0][1])) for family in made[Counter]]
    in_turn("inc", firsts[:1])
    in_turn("inc_in_turn", firsts)
