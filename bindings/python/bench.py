"""What a call takes, in nanoseconds: the best of turns of 100,000 calls, the loop within; beside prometheus_client where that is installed.

    python bench.py            the calls of a service, and a scrape of 64 counters and 8 histograms
    python bench.py shared     the same over boards that forked processes share
    python bench.py torn       scrapes beside a thread that counts, here and there: how many show what never stood together
    python bench.py processes  the same beside three forked processes that count, over shared boards, and in the peer's multiprocess mode"""
import itertools
import os
import signal
import sys
import tempfile
import threading
import time

os.environ.setdefault("PROMETHEUS_DISABLE_CREATED_SERIES", "True")
if sys.argv[1:] == ["processes"]:  # the peer looks at this when it is imported
    files = tempfile.TemporaryDirectory()
    os.environ["PROMETHEUS_MULTIPROC_DIR"] = files.name
import dirgwako  # noqa: E402
from dirgwako import shared  # noqa: E402

try:
    import prometheus_client
except ImportError:
    prometheus_client = None

BOUNDS = [5, 10, 25, 50, 100, 250, 500, 1_000, 2_500, 5_000]


def nanoseconds(call, *given, turns=21, calls=100_000):
    best = float("inf")
    for _ in range(turns):
        since = time.perf_counter_ns()
        for _ in itertools.repeat(None, calls):
            call(*given)
        best = min(best, (time.perf_counter_ns() - since) / calls)
    return best


def cases(of):
    """The calls by their names, over one library's metrics."""
    r = of.CollectorRegistry()
    c, one = of.Counter("c", "C.", registry=r), of.Counter("one", "O.", ["path"], registry=r)
    two = of.Counter("two", "T.", ["path", "code"], registry=r)
    g, h = of.Gauge("g", "G.", registry=r), of.Histogram("h", "H.", buckets=BOUNDS, registry=r)
    s = of.Histogram("s_seconds", "S.", registry=r)

    def timed():
        with s.time():
            pass

    return {
        "inc()": (c.inc,), "inc(2)": (c.inc, 2), "observe(300), 10 buckets": (h.observe, 300), "observe(0.02), seconds, 14 buckets": (s.observe, 0.02),
        "gauge: inc()": (g.inc,), "gauge: set(7)": (g.set, 7), "labels('/api').inc()": (lambda: one.labels("/api").inc(),),
        "labels('/api', '200').inc()": (lambda: two.labels("/api", "200").inc(),),
        "labels(path=.., code=..).inc()": (lambda: two.labels(path="/api", code="200").inc(),),
        "with h.time(): pass": (timed,),
    }


def service(of):
    r = of.CollectorRegistry()
    for n in range(64):
        of.Counter(f"requests_{n:02}_total", f"Requests answered by part {n:02}.", registry=r).inc(10_007 * n)
    for n in range(8):
        h = of.Histogram(f"response_{n}_micros", f"Microseconds of part {n}.", buckets=BOUNDS, registry=r)
        for value in range(0, 6000, 7):
            h.observe(value)
    return r


def calls(of):
    there = cases(prometheus_client) if prometheus_client else {}
    print("| ns a call | dirgwako | prometheus_client |\n|---|---|---|")
    for name, case in cases(of).items():
        peer = f"{nanoseconds(*there[name], turns=7):.0f}" if there else "-"
        print(f"| `{name}` | {nanoseconds(*case):.0f} | {peer} |", flush=True)
    r = of.CollectorRegistry()
    a, b = of.Counter("a", "A.", registry=r), of.Counter("b", "B.", registry=r)
    h = of.Histogram("h", "H.", buckets=BOUNDS, registry=r)
    for changes in (((a, 1), (b, 1)), ((a, 1), (b, 2), (h, 30))):
        print(f"| `publish`, {len(changes)} changes | {nanoseconds(r.publish, *changes):.0f} | - |", flush=True)
    peer = f"{nanoseconds(prometheus_client.generate_latest, service(prometheus_client), calls=50) / 1000:.0f}" if prometheus_client else "-"
    print(f"| a scrape of 64 counters and 8 histograms, in us | {nanoseconds(of.generate_latest, service(of), calls=500) / 1000:.1f} | {peer} |")


def torn(of, seconds, interval):
    """One thread raises eight counters in turn without rest: two neighbours differ by one at one place, or nowhere."""
    sys.setswitchinterval(interval)
    r = of.CollectorRegistry()
    chain = [of.Counter(f"c{n}", "C.", registry=r) for n in range(8)]
    stop = threading.Event()

    def count():
        while not stop.is_set():
            for it in chain:
                it.inc()

    thread = threading.Thread(target=count)
    thread.start()
    scrapes = bad = 0
    end = time.monotonic() + seconds
    while time.monotonic() < end:
        now = [int(float(it.split()[1])) for it in of.generate_latest(r).decode().splitlines() if it.startswith("c")]
        falls = [a - b for a, b in zip(now, now[1:])]
        bad += min(falls) < 0 or sum(falls) > 1
        scrapes += 1
    stop.set()
    thread.join()
    print(f"| {of.__name__}, switch interval {interval} s | {bad} of {scrapes} | {100 * bad / scrapes:.1f} % |", flush=True)


def processes(of, seconds, many):
    """Each child raises eight counters in turn, and observes 7: two neighbours differ by at most the number of children, in all, and the sum is 7 times
    the count."""
    told = of.__name__
    r = shown = of.CollectorRegistry()
    if of is prometheus_client:
        from prometheus_client import multiprocess

        multiprocess.MultiProcessCollector(shown)
    own = of.CollectorRegistry() if of is prometheus_client else r
    chain, h = [of.Counter(f"c{n}", "C.", registry=own) for n in range(8)], of.Histogram("h", "H.", buckets=[5, 10], registry=own)
    children = []
    for _ in range(many):
        children.append(os.fork())
        while not children[-1]:
            for it in chain:
                it.inc()
            h.observe(7)
    time.sleep(0.2)
    scrapes = bad = 0
    since = time.monotonic()
    while time.monotonic() < since + seconds:
        lines = of.generate_latest(shown).decode().splitlines()
        now = {name: int(float(value)) for name, value in (it.split() for it in lines if it[0] != "#")}
        falls = [now[f"c{n}_total"] - now[f"c{n + 1}_total"] for n in range(7)]
        bad += min(falls) < 0 or sum(falls) > many or now["h_sum"] != 7 * now["h_count"]
        scrapes += 1
    for child in children:
        os.kill(child, signal.SIGKILL)
        os.waitpid(child, 0)
    print(f"| {told}, {many} processes | {bad} of {scrapes} | {100 * bad / scrapes:.1f} % |", flush=True)


def main():
    if sys.argv[1:] in (["torn"], ["processes"]):
        print("| scrapes beside what counts | torn | share |\n|---|---|---|")
    if sys.argv[1:] == ["processes"]:
        for of in filter(None, (shared, prometheus_client)):
            processes(of, 3, 3)
    elif sys.argv[1:] == ["torn"]:
        for of in filter(None, (dirgwako, prometheus_client)):
            for interval in (0.005, 0.0001):
                torn(of, 3, interval)
    else:
        calls(shared if sys.argv[1:] == ["shared"] else dirgwako)


if __name__ == "__main__":
    main()
