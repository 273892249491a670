"""Threads: exact totals, scrapes that are of one moment, and lists that are seen whole."""
import sys
import threading
import time
import unittest

from dirgwako import Counter, Gauge, Histogram
from tests.cases import Case

SECONDS = 1.5


class Threads(Case):
    def setUp(self):
        super().setUp()
        self.addCleanup(sys.setswitchinterval, sys.getswitchinterval())
        sys.setswitchinterval(1e-5)

    def together(self, *works):
        threads = [threading.Thread(target=it) for it in works]
        for it in threads:
            it.start()
        return threads

    def test_totals(self):
        """No count of 40 threads is lost, of counters, gauges, histograms, lists and children that are made meanwhile."""
        c = Counter("a", "A.", ["n"], registry=self.registry)
        late = Counter("late", "L.", ["n"], registry=self.registry)
        g, h = Gauge("g", "G.", registry=self.registry), Histogram("h", "H.", buckets=[1, 2], registry=self.registry)

        def work(own):
            for n in range(500):
                c.labels(own % 4).inc()
                late.labels(n % 100).inc()
                g.inc(3)
                g.dec(2)
                h.observe(n % 4)
                self.registry.publish((h, 1), (g, 1))

        for it in self.together(*(lambda own=own: work(own) for own in range(40))):
            it.join()
        self.assertEqual([self.value("a_total", n=str(n)) for n in range(4)], [5000] * 4)
        self.assertEqual([self.value("late_total", n=str(n)) for n in range(100)], [200] * 100)
        self.assertEqual(self.value("g"), 40_000)
        self.assertEqual((self.value("h_count"), self.value("h_sum"), self.value("h_bucket", le="1")), (40_000, 50_000, 30_000))

    def test_none_is_torn(self):
        """A scrape that reads one series, lets others count, and reads the next one would show a chain, a pair or a histogram that never was."""
        chain = [Counter(f"c{n}", "C.", registry=self.registry) for n in range(8)]
        pairs = Counter("pairs", "P.", ["k"], registry=self.registry)
        x, y, h = pairs.labels("x"), pairs.labels("y"), Histogram("h", "H.", buckets=[5], registry=self.registry)
        stop = threading.Event()

        def count_chain():
            while not stop.is_set():
                for it in chain:
                    it.inc()

        def count_pairs():
            while not stop.is_set():
                self.registry.publish((x, 1), (y, 2), (h, 7))

        threads = self.together(count_chain, count_pairs, count_pairs)
        scrapes = torn = 0
        try:
            end = time.monotonic() + SECONDS
            while time.monotonic() < end:
                now = {(it.name, *it.labels.values()): it.value for it in self.registry.samples()}
                falls = [now[f"c{n}_total",] - now[f"c{n + 1}_total",] for n in range(7)]
                chained = all(it in (0, 1) for it in falls) and sum(falls) <= 1
                paired = 2 * now["pairs_total", "x"] == now["pairs_total", "y"] and now["h_count",] == now["pairs_total", "x"]
                whole = now["h_sum",] == 7 * now["h_count",] and now["h_bucket", "+Inf"] == now["h_count",] and now["h_bucket", "5"] == 0
                torn += not (chained and paired and whole)
                scrapes += 1
        finally:
            stop.set()
            for it in threads:
                it.join()
        self.assertEqual(torn, 0)
        self.assertGreater(scrapes, 50)
        self.assertGreater(now["c7_total",] + now["pairs_total", "x"], 1000)

    def test_gauge_that_is_set(self):
        """`set` of several threads ends at a value that one of them set."""
        g = Gauge("g", "G.", registry=self.registry)

        def work(own):
            for n in range(2000):
                g.set(own)

        for it in self.together(*(lambda own=own: work(own) for own in range(8))):
            it.join()
        self.assertIn(self.value("g"), range(8))
        g.set(100)
        self.assertEqual(self.value("g"), 100)


if __name__ == "__main__":
    unittest.main()
