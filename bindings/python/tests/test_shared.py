"""Boards that forked processes share."""
import os
import signal
import subprocess
import sys
import textwrap
import time
import unittest
import warnings

import dirgwako
from dirgwako import shared
from tests.texts import read

NO_WORKER = 35
OTHERS = min(3, shared.WORKERS - 1)
SECONDS = 1.5


def fork(work):
    """A child that does the work and ends, with a status that tells whether it could."""
    with warnings.catch_warnings():
        warnings.simplefilter("ignore", DeprecationWarning)  # of a fork beside threads that an earlier test has left
        child = os.fork()
    if not child:
        status = 1
        try:
            work()
            status = 0
        except BaseException:
            sys.excepthook(*sys.exc_info())
        finally:
            os._exit(status)
    return child


class Shared(unittest.TestCase):
    def setUp(self):
        self.registry = shared.CollectorRegistry()
        self.children = []
        self.addCleanup(self.end)

    def end(self):
        for child in self.children:
            os.kill(child, signal.SIGKILL)
            os.waitpid(child, 0)

    def fork(self, work):
        self.children.append(fork(work))
        return self.children[-1]

    def join(self, *children):
        for child in children or list(self.children):
            self.children.remove(child)
            self.assertEqual(os.waitpid(child, 0)[1], 0, "the child could do its work")

    def value(self, name, **labels):
        return read(shared.generate_latest(self.registry).decode()).get((name, tuple(sorted(labels.items()))))

    def test_totals(self):
        """No count of any process is lost, of metrics and children that were there before the fork, and of children that come after it."""
        c = shared.Counter("c", "C.", ["k"], registry=self.registry)
        h = shared.Histogram("h_seconds", "H.", registry=self.registry)
        before = c.labels("before")

        def work(own):
            for n in range(5000):
                before.inc()
                c.labels(n % 10).inc(2)
                c.labels(f"own {own}").inc()
                self.registry.publish((h, 0.5), (before, 1))

        for own in range(OTHERS):
            self.fork(lambda own=own: work(own))
        work("parent")
        self.join()
        self.assertEqual(self.value("c_total", k="before"), 10_000 * (OTHERS + 1))
        self.assertEqual([self.value("c_total", k=str(n)) for n in range(10)], [1000 * (OTHERS + 1)] * 10)
        self.assertEqual([self.value("c_total", k=f"own {it}") for it in ["parent", *range(OTHERS)]], [5000] * (OTHERS + 1))
        self.assertEqual((self.value("h_seconds_count"), self.value("h_seconds_sum")), (5000 * (OTHERS + 1), 2500 * (OTHERS + 1)))
        c.labels("own 0").inc()
        self.assertEqual(self.value("c_total", k="own 0"), 5001)

    def test_each_scrapes(self):
        """A child's scrape shows what its parent, and another child, have counted."""
        c = shared.Counter("c", "C.", registry=self.registry)
        c.inc(3)
        self.join(self.fork(lambda: c.inc(4)))

        def scrapes():
            c.inc(5)
            assert self.value("c_total") == 12, self.value("c_total")

        self.join(self.fork(scrapes))
        self.assertEqual(self.value("c_total"), 12)

    def test_gauges(self):
        """A gauge is the sum of what the processes set it to, also those that have ended."""
        g = shared.Gauge("g", "G.", registry=self.registry)
        g.set(10)

        def work():
            g.set(500)
            g.set(7)
            self.registry.publish((g, 3))
            g.dec()

        self.join(self.fork(work))
        self.join(self.fork(work))
        self.assertEqual(self.value("g"), 10 + 9 + 9)
        g.set(1)
        self.assertEqual(self.value("g"), 1 + 9 + 9)

    def test_none_is_torn(self):
        """A scrape shows each chain of each process, and each list, as they stood together."""
        chain = [shared.Counter(f"c{n}", "C.", registry=self.registry) for n in range(8)]
        pairs = shared.Counter("pairs", "P.", ["k"], registry=self.registry)
        x, y, h = pairs.labels("x"), pairs.labels("y"), shared.Histogram("h", "H.", buckets=[5], registry=self.registry)

        def work():
            while True:
                for it in chain:
                    it.inc()
                self.registry.publish((x, 1), (y, 2), (h, 7))

        for _ in range(OTHERS):
            self.fork(work)
        scrapes = torn = 0
        end = time.monotonic() + SECONDS
        while time.monotonic() < end:
            now = {(it.name, *it.labels.values()): it.value for it in self.registry.samples()}
            falls = [now[f"c{n}_total",] - now[f"c{n + 1}_total",] for n in range(7)]
            chained = min(falls) >= 0 and sum(falls) <= OTHERS
            paired = 2 * now["pairs_total", "x"] == now["pairs_total", "y"] and now["h_count",] == now["pairs_total", "x"]
            whole = now["h_sum",] == 7 * now["h_count",] and now["h_bucket", "+Inf"] == now["h_count",] and now["h_bucket", "5"] == 0
            torn += not (chained and paired and whole)
            scrapes += 1
        self.assertEqual(torn, 0)
        self.assertGreater(scrapes, 50)
        self.assertGreater(now["c7_total",], 1000)

    def test_scrapes_beside(self):
        """Several processes scrape at once, whichever of them is stopped or killed within a scrape, and see what came since."""
        c = shared.Counter("c", "C.", ["k"], registry=self.registry)
        c.labels("x").inc()

        def scrapes():
            while True:
                assert self.value("c_total", k="x") >= 1

        for n in range(3):
            child = self.fork(scrapes)
            time.sleep(0.05)
            os.kill(child, signal.SIGKILL if n else signal.SIGSTOP)
            if n:
                os.waitpid(child, 0)
                self.children.remove(child)
            c.labels(str(n)).inc(n)
            c.labels("x").inc()
            self.assertEqual((self.value("c_total", k="x"), self.value("c_total", k=str(n))), (n + 2, n))

    def test_stopped(self):
        """Others make children, whatever a process is stopped within while it scrapes: it is often taking memory."""
        c = shared.Counter("c", "C.", ["k"], registry=self.registry)
        c.labels("x").inc()
        ready, told = os.pipe()

        def scrapes():
            os.write(told, self.registry._scrape()[:1])
            while True:
                self.registry._scrape()

        child = self.fork(scrapes)
        self.assertEqual(os.read(ready, 1), b"#")
        os.close(ready)
        os.close(told)
        for n in range(50):
            time.sleep(0.001)
            os.kill(child, signal.SIGSTOP)
            c.labels(str(n)).inc()
            os.kill(child, signal.SIGCONT)
        self.assertEqual(self.value("c_total", k="49"), 1)
        self.assertEqual(os.waitpid(child, os.WNOHANG), (0, 0), "it scrapes on")

    def test_too_many(self):
        """The process for which no recorder is left is refused, and says so; when another one ends, its recorder goes to the next."""
        c = shared.Counter("c", "C.", registry=self.registry)
        c.inc()
        ready, told = os.pipe()

        def wait():
            c.inc()
            os.write(told, b"x")
            time.sleep(60)

        for _ in range(shared.WORKERS - 1):
            self.fork(wait)
        for _ in range(shared.WORKERS - 1):
            os.read(ready, 1)
        os.close(ready)
        os.close(told)

        def refused():
            for call in (c.inc, lambda: self.registry.publish((c, 1))):
                try:
                    call()
                    raise SystemExit("a worker more than there are")
                except shared.Refusal as refusal:
                    assert refusal.number == NO_WORKER, refusal
            assert self.value("c_total") == shared.WORKERS

        self.join(self.fork(refused))
        gone = self.children.pop()
        os.kill(gone, signal.SIGKILL)
        os.waitpid(gone, 0)
        self.join(self.fork(c.inc))
        self.assertEqual(self.value("c_total"), shared.WORKERS + 1)

    def test_recorders_go_on(self):
        """Children that end one after the other, far more than there are workers, use the same recorders again."""
        c = shared.Counter("c", "C.", registry=self.registry)
        for _ in range(3 * shared.WORKERS):
            self.join(self.fork(lambda: c.inc(10)))
        self.assertEqual(self.value("c_total"), 30 * shared.WORKERS)

    def test_apart(self):
        """Metrics of the two kinds of boards do not mix."""
        with self.assertRaises(TypeError):
            shared.Counter("c", "C.", registry=dirgwako.REGISTRY)
        with self.assertRaises(TypeError):
            dirgwako.Counter("c", "C.", registry=self.registry)
        with self.assertRaises(TypeError):
            self.registry.publish((dirgwako.Counter("c", "C.", registry=dirgwako.CollectorRegistry()), 1))
        self.assertEqual(set(shared.__all__), {*dirgwako.__all__, "WORKERS"})
        name = "test_apart_total"
        shared.Counter(name, "T.").inc()
        self.assertIn(f"\n{name} 1\n".encode(), shared.generate_latest())
        self.assertNotIn(name.encode(), dirgwako.generate_latest())
        self.assertIn(f"\n{name} 1\n".encode(), b"".join(shared.make_wsgi_app()({}, lambda *_: None)))

    def test_metrics(self):
        """What a metric does, over these boards."""
        c = shared.Counter("faults", "F.", registry=self.registry)
        with self.assertRaises(KeyError), c.count_exceptions():
            raise KeyError
        h = shared.Histogram("answer_seconds", "A.", ["path"], registry=self.registry)
        with h.time() as timer:
            timer.labels("/")
        g = shared.Gauge("last_seconds", "L.", registry=self.registry)
        with g.time(), g.track_inprogress():
            pass
        with self.assertRaises(shared.NotWhole):
            c.inc(0.5)
        with self.assertRaises(shared.Refusal):
            shared.Gauge("last_seconds", "L.", registry=self.registry)
        self.assertEqual((self.value("faults_total"), self.value("answer_seconds_count", path="/")), (1, 1))


class Killed(unittest.TestCase):
    """In processes of their own: what a killed one held is never freed."""

    CODE = textwrap.dedent("""
        import os, signal, sys, time
        from dirgwako import shared
        def begin():
            r = shared.CollectorRegistry()
            x, y = shared.Counter("x", "X.", registry=r), shared.Counter("y", "Y.", registry=r)
            r.publish((x, 1), (y, 2))
            return r, x, y
        r, x, y = begin()
        anew = 0
        for n in range(150):
            ready, told = os.pipe()
            child = os.fork()
            if not child:
                try:
                    r.publish((x, 1), (y, 2))
                except shared.Refusal as refusal:
                    assert refusal.number == 35
                    os._exit(35)
                os.write(told, b"x")
                while True:
                    r.publish((x, 1), (y, 2))
            os.close(told)
            started = os.read(ready, 1)
            os.close(ready)
            time.sleep(n % 10 / 10_000)
            os.kill(child, signal.SIGKILL)
            os.waitpid(child, 0)
            r.publish((x, 1), (y, 2))
            now = {it.name: it.value for it in r.samples()}
            assert 2 * now["x_total"] == now["y_total"] >= 4, now
            if not started:  # each other recorder was lost within a call
                anew += 1
                r, x, y = begin()
        print("whole", anew)
    """)

    def run_code(self, code, **more):
        done = subprocess.run([sys.executable, "-c", code], capture_output=True, text=True, timeout=120, env={**os.environ, **more})
        self.assertEqual(done.returncode, 0, done.stderr)
        return done.stdout

    def test_killed(self):
        """What a killed child counted stays, nothing is torn, and the others count on."""
        self.assertRegex(self.run_code(self.CODE), r"^whole \d+\n$")

    def test_freed(self):
        """A registry behind which nothing was forked gives its memory back: all of these would not fit."""
        code = textwrap.dedent("""
            from dirgwako import shared
            for _ in range(60):
                r = shared.CollectorRegistry()
                shared.Counter("c", "C.", registry=r).inc()
            print(r.get_sample_value("c_total"))
        """)
        self.assertEqual(self.run_code(code, DIRGWAKO_SHARED_BYTES=str((8 if shared.WORKERS <= 4 else 96) << 20)), "1.0\n")

    def test_no_memory(self):
        """Where the memory is used up a registry, or a child, is refused, and those that are there go on."""
        code = textwrap.dedent("""
            from dirgwako import shared
            c = shared.Counter("c", "C.", ["n"])
            kept = []
            try:
                for _ in range(10_000):
                    kept.append(shared.CollectorRegistry())
            except MemoryError:
                print("none is left", len(kept) < 200)
            for _ in range(10):
                c.labels("x").inc()
            kept.clear()  # a scrape takes memory, too
            shared.CollectorRegistry()
            print(shared.REGISTRY.get_sample_value("c_total", {"n": "x"}))
        """)
        self.assertEqual(self.run_code(code, DIRGWAKO_SHARED_BYTES=str((48 if shared.WORKERS <= 16 else 160) << 20)), "none is left True\n10.0\n")


if __name__ == "__main__":
    unittest.main()
