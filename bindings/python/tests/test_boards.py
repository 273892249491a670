"""Children, the boards that they are on, groups, and changes that are one version."""
import unittest

from dirgwako import CollectorRegistry, Counter, Gauge, Histogram, NotWhole, _dirgwako
from tests.cases import FULL, LABEL_COUNT, LONG_LIST, MOST, TOO_LARGE, TOO_LONG, TOO_MANY_CHILDREN, TWO_BOARDS, WRONG_REGISTRY, Case

BOARDS, CHILDREN = 96, 256


class Text(str):
    """A text that tells each comparison, which nothing may depend on."""

    def __eq__(self, other):
        raise AssertionError("compared")

    __hash__ = str.__hash__


class Named:
    def __str__(self):
        return Text("mail")


class Labels(Case):
    def test_found(self):
        """Two children of the same values would split what is counted."""
        c = Counter("jobs", "Jobs.", ["kind", "code"], registry=self.registry)
        self.assertIs(c.labels("mail", 200), c.labels(code="200", kind="mail"))
        self.assertIs(c.labels(Named(), Text("200")), c.labels("mail", "200"))
        c.labels("mail", 200).inc(2)
        c.labels(kind='a"\\\n', code="é\r\u2028").inc()
        self.assertEqual(self.value("jobs_total", kind="mail", code="200"), 2)
        self.assertEqual(self.value("jobs_total", kind='a"\\\n', code="é\r\u2028"), 1)
        self.assertEqual(self.registry.get_sample_value("jobs_total", {"kind": 'a"\\\n', "code": "é\r\u2028"}), 1)
        one = Gauge("open", "Open.", ["kind"], registry=self.registry)
        self.assertIs(one.labels("mail"), one.labels(kind=Named()))
        self.assertIs(one.labels(None), one.labels("None"))
        self.assertEqual((one.labels("mail")._labelvalues, c.labels("mail", 200)._labelvalues), (("mail",), ("mail", "200")))

    def test_refused(self):
        c = Counter("jobs", "Jobs.", ["kind", "code"], registry=self.registry)
        for call in (lambda: c.labels("x"), lambda: c.labels(kind="x"), lambda: c.labels(), lambda: c.labels("x", "y", "z")):
            self.refused(LABEL_COUNT, "jobs_total", call)
        plain = Counter("plain", "P.", registry=self.registry)
        for call in (
            lambda: c.labels("x", code="y"), lambda: c.labels(kind="x", cod="y"), c.inc, lambda: c.labels("a", "b").labels("a", "b"),
            lambda: plain.labels("a"), lambda: plain.labels(), lambda: self.registry.publish((c, 1)),
        ):
            with self.assertRaises(ValueError):
                call()
        self.refused(TOO_LONG, "jobs_total", c.labels, "x", "y" * 257)
        with self.assertRaises(UnicodeEncodeError):
            c.labels("x", "\ud800")
        c.labels("x", "y" * 256).inc()
        self.assertEqual(self.value("jobs_total", kind="x", code="y" * 256), 1)

    def test_child_during_its_making(self):
        """A value's own code may make the same child: there is one, which has both counts."""
        c = Counter("jobs", "Jobs.", ["kind"], registry=self.registry)

        class Making:
            def __str__(self):
                c.labels("mail").inc()
                return "mail"

        c.labels(Making()).inc()
        self.assertEqual(self.value("jobs_total", kind="mail"), 2)

    def test_gauge_moved_during_set(self):
        """A value's own code may move the gauge: `set` is by the value behind that."""
        g = Gauge("open", "Open.", registry=self.registry)

        class Moving:
            def __index__(self):
                g.inc(5)
                return 3

        g.set(Moving())
        self.assertEqual(self.value("open"), 3)


class Boards(Case):
    def test_more_than_one(self):
        """Each child of 20 families counts on its own slot, whichever board that is on, and is shown once."""
        counters = [Counter(f"c{n}", "C.", ["n"], registry=self.registry) for n in range(10)]
        histograms = [Histogram(f"h{n}", "H.", ["n"], buckets=[5], registry=self.registry) for n in range(10)]
        each = max(40, _dirgwako.COUNTERS // 5)
        for at in range(each):
            for n in range(10):
                counters[n].labels(at).inc(1000 * n + at)
                histograms[n].labels(at).observe(n)
        self.assertGreater(self.registry.boards(), 1)
        self.assertGreater(counters[9].labels(each - 1).board(), 0)
        series = self.series()
        for at in range(each):
            for n in range(10):
                self.assertEqual(series[f"c{n}_total", (("n", str(at)),)], 1000 * n + at)
                self.assertEqual(series[f"h{n}_sum", (("n", str(at)),)], n)
        self.assertEqual(len(series), 10 * each * 5)

    def test_group(self):
        """The metrics of a group begin on one board; those of another group find another one, once there is one."""
        a = Counter("a", "A.", ["n"], group=1, registry=self.registry)
        for n in range(_dirgwako.COUNTERS + 1):
            a.labels(n).inc()
        self.assertEqual((a.labels(0).board(), a.labels(_dirgwako.COUNTERS).board()), (0, 1))
        b, h = Counter("b", "B.", group=2, registry=self.registry), Histogram("h", "H.", ["k"], buckets=[1], group=2, registry=self.registry)
        self.assertEqual(b.board(), h.labels("x").board())
        self.registry.publish((b, 1), (h.labels("x"), 3))
        self.assertEqual((self.value("b_total"), self.value("h_sum", k="x")), (1, 3))

    def test_children(self):
        """The family's 257th child is refused, with its name, and the others count on."""
        g = Gauge("open", "Open.", ["n"], registry=self.registry)
        for n in range(CHILDREN):
            g.labels(n).set(n)
        self.refused(TOO_MANY_CHILDREN, "open", g.labels, "more")
        g.labels(7).inc()
        self.assertEqual((self.value("open", n="7"), self.value("open", n="255")), (8, 255))

    @unittest.skipIf(_dirgwako.GAUGES * BOARDS > 1000, "the library has so many slots that its boards take too much memory here")
    def test_full(self):
        """A child for which no board has a slot is refused, with its name, and all others count on."""
        most = _dirgwako.GAUGES * BOARDS
        families = [Gauge(f"g{n}", "G.", ["n"], registry=self.registry) for n in range(most // CHILDREN + 1)]
        for n in range(most):
            families[n // CHILDREN].labels(n).set(n)
        self.refused(FULL, f"g{most // CHILDREN}", families[most // CHILDREN].labels, "more")
        self.refused(FULL, "alone", Gauge, "alone", "A.", registry=self.registry)
        self.assertEqual(self.registry.boards(), BOARDS)
        families[0].labels(0).inc(5)
        self.assertEqual((self.value("g0", n="0"), self.value("g1", n="300")), (5, 300))


class Published(Case):
    def setUp(self):
        super().setUp()
        self.counter = Counter("a", "A.", registry=self.registry)
        self.histogram = Histogram("h_seconds", "H.", registry=self.registry)
        self.gauge = Gauge("g", "G.", registry=self.registry)

    def shown(self):
        return [self.value(name) for name in ("a_total", "h_seconds_sum", "h_seconds_count", "g")]

    def test_published(self):
        self.registry.publish((self.counter, 2), (self.histogram, 0.7), (self.gauge, -3), (self.counter, 1))
        self.registry.publish((self.gauge, 1))
        self.registry.publish()
        self.assertEqual(self.shown(), [3, 0.7, 1, -2])
        self.gauge.set(10)
        self.assertEqual(self.value("g"), 10)
        self.registry.publish(*[(self.counter, 1)] * 20)
        self.assertEqual(self.value("a_total"), 23)

    def test_all_or_nothing(self):
        """A list that is refused in its middle has counted nothing, and a gauge is set by its value from before."""
        self.registry.publish((self.counter, 3), (self.histogram, 0.7), (self.gauge, 5))
        other = Counter("a", "A.", registry=CollectorRegistry())
        a, g = self.counter, self.gauge
        self.refused(WRONG_REGISTRY, "a_total", self.registry.publish, (a, 1), (other, 1))
        self.refused(TOO_LARGE, None, self.registry.publish, (g, 1), (a, 1), (a, MOST - 3))
        self.refused(LONG_LIST, None, self.registry.publish, *[(a, 1)] * (_dirgwako.CHANGES + 1))
        for changes, what in [
            (((a, 1), (a, 0.5)), NotWhole), ((a, 1), TypeError), (((a, 1), (object(), 1)), TypeError), (((a, 1), (a, -1)), ValueError),
            (((a, 1), (self.histogram, -1)), ValueError), (((a, 1), [a, 1]), TypeError), (((a, 1), (a,)), TypeError), (((a, 1), (a, None)), TypeError),
        ]:
            with self.assertRaises(what):
                self.registry.publish(*changes)
        self.assertEqual(self.shown(), [3, 0.7, 1, 5])
        g.set(0)
        self.assertEqual(self.value("g"), 0)

    def test_two_boards(self):
        """Changes of two boards are no version: the refusal names the metric that is elsewhere."""
        far = Counter("far", "F.", ["n"], registry=self.registry)
        for n in range(_dirgwako.COUNTERS):
            far.labels(n)
        child = far.labels(_dirgwako.COUNTERS - 1)
        self.assertEqual((self.counter.board(), child.board()), (0, 1))
        self.refused(TWO_BOARDS, "far_total", self.registry.publish, (self.counter, 1), (self.gauge, 1), (child, 1))
        self.assertEqual((self.value("a_total"), self.value("far_total", n=str(_dirgwako.COUNTERS - 1))), (0, 0))


if __name__ == "__main__":
    unittest.main()
