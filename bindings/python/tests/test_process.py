"""Forks, interpreters, Pythons that are refused, and memory."""
import gc
import os
import pathlib
import resource
import subprocess
import sys
import textwrap
import unittest
import warnings
import weakref
from unittest import mock

import dirgwako
from dirgwako import CollectorRegistry, Counter, Gauge, Histogram, NotWhole, Refusal, generate_latest
from dirgwako._python import refuse_free_threaded
from tests.cases import Case


class Forks(Case):
    def forked(self, work):
        """What `work` answers in a forked child."""
        read, write = os.pipe()
        with warnings.catch_warnings():
            warnings.simplefilter("ignore", DeprecationWarning)  # of a fork beside threads that an earlier test has left
            child = os.fork()
        if not child:
            try:
                os.write(write, work())
            finally:
                os._exit(0)
        os.close(write)
        with os.fdopen(read, "rb") as pipe:
            told = pipe.read()
        os.waitpid(child, 0)
        return told

    def test_fork(self):
        """A child goes on with the numbers so far, and what it counts is its own."""
        c, g = Counter("a", "A.", registry=self.registry), Gauge("g", "G.", registry=self.registry)
        c.inc(5)
        g.set(5)

        def work():
            c.inc()
            g.set(7)
            Counter("b", "B.", registry=self.registry).inc()
            return generate_latest(self.registry)

        told = self.forked(work)
        for line in (b"a_total 6\n", b"g 7\n", b"b_total 1\n"):
            self.assertIn(line, told)
        c.inc(10)
        g.inc()
        self.assertEqual((self.value("a_total"), self.value("g"), self.value("b_total")), (15, 6, None))


class Interpreters(unittest.TestCase):
    CODE = textwrap.dedent("""
        import sys
        sys.path[:] = {path!r}
        from dirgwako import CollectorRegistry, Counter, Refusal, generate_latest
        for _ in range(3):
            r = CollectorRegistry()
            c = Counter("a", "A.", ["k"], registry=r)
            for n in range(1000):
                c.labels(n % 3).inc()
            assert b'a_total{{k="2"}} 333' in generate_latest(r)
            try:
                Counter("a", "A.", registry=r)
                raise SystemExit("a clash is refused")
            except Refusal as refusal:
                assert refusal.number == 19
        print("counted", flush=True)
    """)

    def run_within(self, make, *wanted):
        """Runs the code in interpreters of a process of its own, as one that crashes would take the tests along."""
        code = textwrap.dedent(f"""
            import sys
            try:
                import _interpreters as sub
            except ImportError:
                import _xxsubinterpreters as sub
            import dirgwako
            made = [{make} for _ in range(2)]
            for it in made:
                failed = sub.run_string(it, {self.CODE.format(path=sys.path)!r})
                if failed:
                    sys.exit(str(failed))
            for it in made:
                sub.destroy(it)
            dirgwako.Counter("x", "X.").inc()
            print(dirgwako.generate_latest().decode(), end="", flush=True)
        """)
        done = subprocess.run([sys.executable, "-X", "faulthandler", "-c", code], capture_output=True, text=True, timeout=60)
        for it in wanted:
            self.assertIn(it, done.stdout + done.stderr, done.stderr)
        return done

    def test_shared_gil(self):
        """Each interpreter has classes and registries of its own, and those of the first count on when the others have ended."""
        make = 'sub.create("legacy")' if sys.version_info >= (3, 13) else "sub.create(isolated=False)" if sys.version_info >= (3, 12) else "sub.create()"
        done = self.run_within(make)
        self.assertEqual((done.returncode, done.stdout), (0, "counted\ncounted\n# HELP x_total X.\n# TYPE x_total counter\nx_total 1\n"), done.stderr)

    @unittest.skipIf(sys.version_info < (3, 13), "interpreters with a GIL of their own: from 3.12 on, and 3.12.1 itself ends with a crash there")
    def test_own_gil(self):
        """One with a GIL of its own is refused by Python, as the module does not claim to be for it."""
        self.run_within('sub.create("isolated")', "does not support loading in subinterpreters")


class Pythons(unittest.TestCase):
    def test_free_threaded(self):
        with mock.patch("sysconfig.get_config_var", lambda name: 1 if name == "Py_GIL_DISABLED" else None):
            with self.assertRaisesRegex(ImportError, "free-threaded"):
                refuse_free_threaded()
        with mock.patch("sysconfig.get_config_var", lambda name: 0):
            refuse_free_threaded()

    def test_free_threaded_at_import(self):
        """The message comes before the extension is looked for, which such a Python would not find."""
        code = "import sysconfig\nsysconfig.get_config_var = lambda name: 1\nimport sys\nsys.modules['dirgwako._dirgwako'] = None\nimport dirgwako"
        done = subprocess.run([sys.executable, "-c", code], capture_output=True, text=True, timeout=60)
        self.assertIn("ImportError: dirgwako needs a Python with the GIL", done.stderr)

    def test_types(self):
        """The types are those of the calls, and the files which say so are installed."""
        package = pathlib.Path(dirgwako.__file__).parent
        self.assertTrue((package / "py.typed").is_file() and (package / "_dirgwako.pyi").is_file())
        stub = (package / "_dirgwako.pyi").read_text()
        for kind in ("Registry", "Metric", "Counter", "Gauge", "Histogram", "Timer"):
            for name in vars(getattr(dirgwako._dirgwako, kind)):
                if name not in ("__doc__", "__module__", "__new__"):
                    self.assertIn(f"def {name}(", stub, kind)
        try:
            import mypy.api
        except ImportError:
            self.skipTest("no mypy is installed here")
        out, err, status = mypy.api.run(["--strict", "--cache-dir", os.devnull, str(package)])
        self.assertEqual(status, 0, out + err)


def use_all():
    """A registry with metrics of all kinds, some refusals, and a cycle through it."""
    r = CollectorRegistry()
    c, h = Counter("a", "A.", ["k"], registry=r), Histogram("h_seconds", "H.", registry=r)
    g = Gauge("g", "G.", ["k", "l"], registry=r)
    for k in range(5):
        c.labels(k=k).inc(k)
        g.labels(k, k).set(k)
    h.observe(0.1)
    h.observe_ns(100)
    with h.time(), c.labels(1).count_exceptions(), g.labels(1, 1).track_inprogress():
        r.publish((h, 0.2), (c.labels("1"), 1), (g.labels(1, 1), 2))
    r.publish(*[(h, 1)] * 12)
    generate_latest(r)
    r.get_sample_value("a_total", {"k": "1"})
    for call, given in [
        (c.labels("1").inc, 0.5), (c.labels("1").inc, -1), (c.labels("1").inc, "x"), (c.labels("1").inc, 2**60), (g.labels, 1), (c.inc, 1),
        (h.observe, None), (h.observe_ns, -1), (c.labels, "\ud800"), (c.labels, "x" * 257), (r.publish, (c, 1)), (r.publish, (h, -1)),
    ]:
        try:
            call(given)
        except (ValueError, TypeError):
            pass
    for make in (lambda: Counter("a", "A.", registry=r), lambda: Gauge("9", "A.", registry=r), lambda: Histogram("h", "H.", buckets=[0.5], registry=r)):
        try:
            make()
        except (Refusal, NotWhole):
            pass
    r.metrics = (c, g, h, h.time(), c.labels(1).count_exceptions())
    return r


class Memory(unittest.TestCase):
    def test_cycle(self):
        """A registry that its own metrics are kept at is freed, and they with it."""
        registry = weakref.ref(use_all())
        gc.collect()
        self.assertIsNone(registry())

    def test_outlives_its_registry(self):
        registry = CollectorRegistry()
        c, child = Counter("a", "A.", registry=registry), Counter("b", "B.", ["k"], registry=registry).labels("x")
        del registry
        gc.collect()
        c.inc()
        child.inc()
        self.assertEqual(c.board(), 0)

    def test_no_growth(self):
        """References, blocks and bytes over 200 registries: one that is lost in each would show."""
        def turns(count):
            for _ in range(count):
                use_all()
                gc.collect()  # each is a cycle, and a board takes much memory

        turns(50)
        native = dirgwako._dirgwako
        types = (native.Metric, native.Registry, native.Timer, native.Counter, Counter, Gauge, Histogram, Refusal, NotWhole, CollectorRegistry)
        before = [sys.getrefcount(it) for it in types]
        nones, peak = sys.getrefcount(None), resource.getrusage(resource.RUSAGE_SELF).ru_maxrss
        blocks = sys.getallocatedblocks()
        turns(200)
        self.assertLess(abs(sys.getallocatedblocks() - blocks), 100)
        self.assertLess(max(abs(sys.getrefcount(it) - was) for it, was in zip(types, before)), 20)
        if sys.version_info < (3, 12):  # from 3.12 on None is not counted
            self.assertLess(abs(sys.getrefcount(None) - nones), 20)
        self.assertLess(resource.getrusage(resource.RUSAGE_SELF).ru_maxrss - peak, 4000)


if __name__ == "__main__":
    unittest.main()
