"""Counters, gauges and histograms: names, numbers, seconds, timers."""
import asyncio
import copy
import decimal
import fractions
import math
import pickle
import time
import unittest

from dirgwako import CollectorRegistry, Counter, Gauge, Histogram, NotWhole, Refusal, generate_latest
from tests.cases import (
    BAD_BOUNDS, BAD_BYTE, CLASH, DUPLICATE, EMPTY, LE, MOST, RESERVED, TOO_LARGE, TOO_LONG, TOO_MANY_FAMILIES, TOO_MANY_LABELS, Case,
)


class Whole:
    """A number that is no int, as numpy has them."""

    def __init__(self, value):
        self.value = value

    def __index__(self):
        return self.value


class Names(Case):
    def test_shown(self):
        """A suffix that is missing, or doubled, would break each query of a counter."""
        for words, shown in [
            (("jobs",), "jobs_total"), (("jobs_total",), "jobs_total"), (("jobs", "J.", (), "n", "s", "bytes"), "n_s_jobs_bytes_total"),
            (("read_bytes_total", "J.", (), "", "", "bytes"), "read_bytes_total"), (("jobs", "J.", (), "", "s"), "s_jobs_total"),
        ]:
            self.assertEqual(Counter(*words[:1], *(words[1:] or ("J.",)), registry=CollectorRegistry())._name, shown)
        self.assertEqual(Gauge("open", "Open.", namespace="n", unit="ratio", registry=self.registry)._name, "n_open_ratio")
        self.assertEqual(Histogram("took", "Took.", unit="seconds", registry=self.registry)._name, "took_seconds")

    def test_help(self):
        """A blank at the edges of a help is cut off, not refused; what is within is shown escaped."""
        Counter("jobs", "  Jobs\\\ndone. \t", registry=self.registry)
        self.assertIn(b"# HELP jobs_total Jobs\\\\\\ndone.\n", generate_latest(self.registry))
        Gauge("open", "", registry=self.registry).set(3)
        self.assertEqual(self.value("open"), 3)

    def test_refused(self):
        r = self.registry
        Counter("jobs", "Jobs.", registry=r)
        self.refused(CLASH, "jobs_total", Counter, "jobs", "J.", registry=r)
        self.refused(CLASH, "jobs_total", Gauge, "jobs_total", "J.", registry=r)
        self.refused(EMPTY, None, Gauge, "", "N.", namespace="n", registry=r)
        self.refused(BAD_BYTE, "9", Gauge, "9", "N.", registry=r)
        self.refused(BAD_BYTE, "a\0b", Gauge, "a\0b", "N.", registry=r)
        self.refused(TOO_LONG, "a" * 129, Gauge, "a" * 129, "N.", registry=r)
        self.refused(TOO_LONG, "h", Gauge, "h", "h" * 1025, registry=r)
        for label, number in (("", EMPTY), ("1", BAD_BYTE), ("x:y", BAD_BYTE), ("é", BAD_BYTE), ("x" * 129, TOO_LONG), ("__x", RESERVED)):
            self.refused(number, "a", Gauge, "a", "N.", ["x", label], registry=r)
            with self.assertRaisesRegex(Refusal, f"^a: label '{label}': "):
                Gauge("a", "N.", ["x", label], registry=r)
        self.refused(DUPLICATE, "a", Gauge, "a", "N.", ["x", "x"], registry=r)
        self.refused(LE, "a", Histogram, "a", "N.", ["le"], buckets=[1], registry=r)
        self.refused(TOO_MANY_LABELS, "a", Gauge, "a", "N.", list("abcdefghi"), registry=r)
        self.assertEqual(set(self.series()), {("jobs_total", ())})

    def test_wrong_arguments(self):
        r = self.registry
        with self.assertRaises(TypeError):
            Counter("jobs", "Jobs.", "kind", registry=r)  # a text is not a list of names
        with self.assertRaises(TypeError):
            Counter("jobs", "Jobs.", registry=None)
        with self.assertRaises(UnicodeEncodeError):
            Counter("jobs", "\ud800", registry=r)
        with self.assertRaises(TypeError):
            Counter("jobs", "Jobs.", [1], registry=r)
        with self.assertRaises(ValueError):
            Counter("jobs", "Jobs.", group=-1, registry=r)
        self.assertEqual(self.series(), {})

    def test_made_once(self):
        c = Counter("a", "A.", registry=self.registry)
        with self.assertRaises(RuntimeError):
            c.__init__("b", "B.", registry=self.registry)
        unmade = Counter.__new__(Counter)
        for call in (unmade.inc, unmade.labels, unmade.board, lambda: self.registry.publish((unmade, 1))):
            with self.assertRaises(ValueError):
                call()
        with self.assertRaises(Refusal):
            unmade.__init__("a", "A.", registry=self.registry)
        with self.assertRaises(ValueError):
            unmade.inc()
        for copied in (c, self.registry):  # a copy would count on nothing
            with self.assertRaises(TypeError):
                copy.copy(copied)
        with self.assertRaises(TypeError):
            type("Both", (Counter, Gauge), {"__slots__": ()})("b", "B.", registry=self.registry)

    def test_families(self):
        for n in range(128):
            Gauge(f"g{n}", "G.", ["k"], registry=self.registry)
        self.refused(TOO_MANY_FAMILIES, "more", Gauge, "more", "G.", ["k"], registry=self.registry)


class Counters(Case):
    def test_inc(self):
        c = Counter("jobs", "Jobs done.", registry=self.registry)
        for call in (c.inc, lambda: c.inc(2), lambda: c.inc(amount=3), lambda: c.inc(4.0), lambda: c.inc(True), lambda: c.inc(0)):
            self.assertIsNone(call())
        c.inc(Whole(5))
        c.inc(fractions.Fraction(6))
        c.inc(decimal.Decimal(7))
        self.assertEqual(self.value("jobs_total"), 29)
        self.assertIn(b"# HELP jobs_total Jobs done.\n# TYPE jobs_total counter\njobs_total 29\n", generate_latest(self.registry))

    def test_refused(self):
        """Nothing that is refused is counted, nor rounded to nothing."""
        c = Counter("jobs", "Jobs.", registry=self.registry)
        for given in (0.5, math.nan, fractions.Fraction(1, 3)):
            with self.assertRaisesRegex(NotWhole, "jobs_total.*resolution"):
                c.inc(given)
        for given in (-1, -0.5, -1.0, Whole(-1), -(2**100), fractions.Fraction(-1, 1)):
            with self.assertRaises(ValueError, msg=repr(given)):
                c.inc(given)
        for given in ("1", None, 1j, [1]):
            with self.assertRaises(TypeError, msg=repr(given)):
                c.inc(given)
        for given in (math.inf, MOST + 1, 2.0**48, 2**63, 2**64, 2**100):
            self.refused(TOO_LARGE, "jobs_total", c.inc, given)
        with self.assertRaises(TypeError):
            c.inc(1, 2)
        with self.assertRaises(TypeError):
            c.inc(by=1)
        self.assertEqual(self.value("jobs_total"), 0)

    def test_ends(self):
        c = Counter("jobs", "Jobs.", registry=self.registry)
        c.inc(MOST)
        self.refused(TOO_LARGE, "jobs_total", c.inc)
        self.assertEqual(self.value("jobs_total"), MOST)

    def test_below_a_unit(self):
        """A number below zero that is nearest to zero is refused as well."""
        c = Counter("busy_seconds", "Busy.", registry=self.registry)
        for given in (-1e-9, fractions.Fraction(-1, 10**9)):
            with self.assertRaises(ValueError):
                c.inc(given)
        c.inc(1e-9)
        self.assertEqual(self.value("busy_seconds_total"), 0)

    def test_exceptions(self):
        c = Counter("faults", "Faults.", registry=self.registry)
        with self.assertRaises(KeyError), c.count_exceptions():
            raise KeyError
        with self.assertRaises(KeyError), c.count_exceptions(ValueError):
            raise KeyError
        with c.count_exceptions():
            pass

        @c.count_exceptions((KeyError, ValueError))
        def work():
            raise ValueError

        with self.assertRaises(ValueError):
            work()
        self.assertEqual(self.value("faults_total"), 2)
        with self.assertRaises(ValueError):
            Counter("others", "O.", ["k"], registry=self.registry).count_exceptions()


class Gauges(Case):
    def test_moves(self):
        g = Gauge("open", "Open.", registry=self.registry)
        g.inc()
        g.inc(4)
        g.dec(7)
        g.inc(-1)
        self.assertEqual(self.value("open"), -3)
        g.dec(-3)
        g.dec()
        self.assertEqual(self.value("open"), -1)
        g.set(100)
        g.set(value=3)
        self.assertEqual(self.value("open"), 3)
        for given, what in ((1.5, NotWhole), (math.nan, NotWhole), ("1", TypeError), (math.inf, Refusal), (2**48, Refusal)):
            for call in (g.set, g.inc, g.dec):
                with self.assertRaises(what):
                    call(given)
        with self.assertRaises(TypeError):
            g.set()
        self.assertEqual(self.value("open"), 3)

    def test_set_after_a_refusal(self):
        """`set` moves by the difference to the value, which a refused move must not change."""
        g = Gauge("open", "Open.", registry=self.registry)
        g.set(MOST)
        g.set(1)
        self.refused(TOO_LARGE, "open", g.set, MOST)  # its rises would pass the most in sum
        self.assertEqual(self.value("open"), 1)
        g.set(0)
        self.assertEqual(self.value("open"), 0)

    def test_progress(self):
        g = Gauge("open", "Open.", registry=self.registry)
        with g.track_inprogress():
            self.assertEqual(self.value("open"), 1)

        @g.track_inprogress()
        def depth(more):
            return depth(more - 1) if more else self.value("open")

        self.assertEqual(depth(3), 4)
        with self.assertRaises(KeyError), g.track_inprogress():
            raise KeyError
        self.assertEqual(self.value("open"), 0)

    def test_time(self):
        g = Gauge("last_seconds", "Last.", registry=self.registry)
        g.set(-1.25)
        self.assertEqual(self.value("last_seconds"), -1.25)
        self.refused(TOO_LARGE, "last_seconds", g.set_to_current_time)  # microseconds since 1970
        with g.time():
            time.sleep(0.01)
        self.assertTrue(0.01 <= self.value("last_seconds") < 5)
        for name in ("last_run_timestamp_seconds", "process_start_time_seconds"):
            stamp = Gauge(name, "Last.", registry=self.registry)
            stamp.set_to_current_time()
            self.assertAlmostEqual(self.value(name), time.time(), delta=5)
        whole = Gauge("last_run", "Last.", registry=self.registry)
        whole.set_to_current_time()
        self.assertAlmostEqual(self.value("last_run"), time.time(), delta=5)


class Histograms(Case):
    def test_buckets(self):
        h = Histogram("sizes", "Sizes.", buckets=[10, "20", 30.0], registry=self.registry)
        for size in (0, 10, 11, 30, 31):
            h.observe(size)
        h.observe(amount=5)
        shown = [it for it in generate_latest(self.registry).decode().splitlines() if it[0] != "#"]
        self.assertEqual(shown, [
            'sizes_bucket{le="10"} 3', 'sizes_bucket{le="20"} 4', 'sizes_bucket{le="30"} 5', 'sizes_bucket{le="+Inf"} 6', "sizes_sum 87", "sizes_count 6",
        ])

    def test_no_buckets(self):
        h = Histogram("sizes", "Sizes.", buckets=[], registry=self.registry)
        h.observe(7)
        self.assertEqual(self.series(), {("sizes_bucket", (("le", "+Inf"),)): 1, ("sizes_sum", ()): 7, ("sizes_count", ()): 1})

    def test_refused(self):
        r = self.registry
        self.refused(BAD_BOUNDS, "h", Histogram, "h", "H.", buckets=[5, 5], registry=r)
        self.refused(BAD_BOUNDS, "h", Histogram, "h", "H.", buckets=[5, 4], registry=r)
        self.refused(BAD_BOUNDS, "h", Histogram, "h", "H.", buckets=[-1, 4], registry=r)
        self.refused(BAD_BOUNDS, "h", Histogram, "h", "H.", buckets=[1, 2**48], registry=r)
        self.refused(BAD_BOUNDS, "h", Histogram, "h", "H.", buckets=[math.inf, math.inf], registry=r)
        self.refused(BAD_BOUNDS, "h", Histogram, "h", "H.", buckets=range(25), registry=r)
        for buckets in ([0.5], [math.nan], Histogram.DEFAULT_BUCKETS):
            with self.assertRaisesRegex(NotWhole, "h: "):
                Histogram("h", "H.", buckets=buckets, registry=r)
        h = Histogram("h", "H.", buckets=range(24), registry=r)
        for given, what in ((0.5, NotWhole), (-1, ValueError), (-0.0001, ValueError), ("1", TypeError), (MOST + 1, Refusal)):
            with self.assertRaises(what):
                h.observe(given)
        with self.assertRaises(TypeError):
            h.observe()
        self.assertEqual(self.value("h_count"), 0)

    def test_seconds(self):
        """Microseconds are counted and seconds are shown, by the library, so that no digit is lost."""
        h = Histogram("answer_seconds", "Answers.", ["path"], registry=self.registry).labels("/")
        for seconds in (0.25, 1e-7, 3, 0.0000015):
            h.observe(seconds)
        self.assertEqual(self.value("answer_seconds_sum", path="/"), 3.250002)
        self.assertEqual(self.value("answer_seconds_bucket", path="/", le="0.005"), 2)
        self.assertEqual(self.value("answer_seconds_bucket", path="/", le="0.25"), 3)
        self.assertEqual(self.value("answer_seconds_bucket", path="/", le="10"), 4)
        self.assertEqual(self.registry.get_sample_value("answer_seconds_bucket", {"path": "/", "le": "10.0"}), 4)

    def test_nanoseconds(self):
        h = Histogram("answer_seconds", "Answers.", registry=self.registry)
        for nanoseconds in (1_500_000_000, 1_499, 1_500, Whole(0)):
            h.observe_ns(nanoseconds)
        self.assertEqual(self.value("answer_seconds_sum"), 1.500003)
        with self.assertRaises(ValueError):
            h.observe_ns(-1)
        with self.assertRaises(TypeError):
            h.observe_ns(1.5)
        self.refused(TOO_LARGE, "answer_seconds", h.observe_ns, 2**100)
        self.refused(TOO_LARGE, "answer_seconds", h.observe_ns, 2**62)
        fine = Histogram("fine_seconds", "Fine.", buckets=[1], resolution=1e-9, registry=self.registry)
        fine.observe_ns(123_456_789)
        self.assertEqual(self.value("fine_seconds_sum"), 0.123456789)
        whole = Histogram("sizes", "Sizes.", buckets=[1], registry=self.registry)
        with self.assertRaisesRegex(NotWhole, "sizes.*resolution"):
            whole.observe_ns(5)
        self.assertEqual((self.value("answer_seconds_count"), self.value("sizes_count")), (4, 0))

    def test_timers(self):
        h = Histogram("answer_seconds", "Answers.", registry=self.registry)
        with h.time():
            time.sleep(0.01)

        @h.time()
        def work(more, by=1):
            "Doc."
            return work(more - 1) + by if more else 0

        self.assertEqual((work(3), work.__doc__, work.__name__), (3, "Doc.", "work"))
        self.assertEqual(self.value("answer_seconds_count"), 5)
        with self.assertRaises(KeyError), h.time():
            raise KeyError
        self.assertEqual(self.value("answer_seconds_count"), 6)
        self.assertTrue(0.01 <= self.value("answer_seconds_sum") < 5)
        with self.assertRaisesRegex(NotWhole, "sizes.*resolution"):
            Histogram("sizes", "Sizes.", buckets=[1], registry=self.registry).time()

    def test_coroutines(self):
        """What goes round a coroutine function goes round what it awaits, and not round its call alone."""
        h, g = Histogram("answer_seconds", "Answers.", registry=self.registry), Gauge("open", "Open.", registry=self.registry)
        c = Counter("faults", "F.", registry=self.registry)

        @h.time()
        @g.track_inprogress()
        @c.count_exceptions()
        async def work(seconds):
            await asyncio.sleep(seconds)
            if self.value("open") != 2:
                raise KeyError

        async def both():
            return await asyncio.gather(work(0.01), work(0.02), return_exceptions=True)

        self.assertEqual([type(it) for it in asyncio.run(both())], [type(None), KeyError])
        self.assertEqual((self.value("open"), self.value("faults_total"), self.value("answer_seconds_count")), (0, 1, 2))
        self.assertTrue(0.03 <= self.value("answer_seconds_sum") < 5)

    def test_timer_that_is_told_its_labels(self):
        h = Histogram("answer_seconds", "Answers.", ["path"], registry=self.registry)
        with h.time() as timer:
            timer.labels(path="/")
        self.assertEqual(self.value("answer_seconds_count", path="/"), 1)
        with self.assertRaises(ValueError), h.time():
            pass
        unmade = type(h.time()).__new__(type(h.time()))
        with self.assertRaises(ValueError):
            unmade.__exit__(None, None, None)
        with self.assertRaises(ValueError):
            h.time().__exit__(None, None, None)
        with self.assertRaises(TypeError):
            type(timer)(3)
        with self.assertRaises(TypeError):
            type(timer)(Counter("jobs", "Jobs.", registry=self.registry))


class Faults(Case):
    def test_carried(self):
        """A refusal that another process raised is told here as it was."""
        c = Counter("jobs", "Jobs.", registry=self.registry)
        with self.assertRaises(Refusal) as caught:
            c.inc(2**48)
        again = pickle.loads(pickle.dumps(caught.exception))
        self.assertEqual((again.number, again.cause, again.metric, str(again)), (TOO_LARGE, caught.exception.cause, "jobs_total", str(caught.exception)))
        self.assertGreater(len(again.cause), 10)


class Resolutions(Case):
    def test_shown(self):
        for resolution, given, shown in [(0.1, 2.5, 2.5), (1e-3, 0.0126, 0.013), (1e-9, 1.000000001, 1.000000001), (1, 3, 3), (0.01, 7, 7)]:
            registry = CollectorRegistry()
            Gauge("g", "G.", resolution=resolution, registry=registry).set(given)
            self.assertEqual(registry.get_sample_value("g"), shown)
        c = Counter("busy_seconds", "Busy.", registry=self.registry)
        c.inc(0.5)
        c.inc()
        self.assertEqual(self.value("busy_seconds_total"), 1.5)

    def test_most(self):
        g = Gauge("g_seconds", "G.", registry=self.registry)
        self.refused(TOO_LARGE, "g_seconds", g.set, MOST // 10**6 + 1)
        g.set(MOST // 10**6)
        self.assertEqual(self.value("g_seconds"), MOST // 10**6)

    def test_refused(self):
        for resolution in (0, 2, 1e-10, 0.5, -1, 10):
            with self.assertRaisesRegex(ValueError, "^g: "):
                Gauge("g", "G.", resolution=resolution, registry=self.registry)


if __name__ == "__main__":
    unittest.main()
