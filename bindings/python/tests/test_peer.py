"""The same program over prometheus_client and over this package: what it does and what is read of it are the same."""
import os
import unittest

import dirgwako
from tests.texts import read

try:
    os.environ.setdefault("PROMETHEUS_DISABLE_CREATED_SERIES", "True")
    import prometheus_client
except ImportError:
    prometheus_client = None


def program(of):
    """A service's metrics, by the names and calls of both."""
    r = of.CollectorRegistry(auto_describe=True)
    requests = of.Counter("requests", "Requests answered.", ["path", "code"], namespace="web", registry=r)
    size = of.Histogram("answer_bytes", "Bytes of answers.", ("path",), unit="bytes", buckets=(100, 1000), registry=r)
    took = of.Histogram("answer_seconds", "Answers.", registry=r)
    queued = of.Gauge("queued", "Queued.", subsystem="jobs", registry=r)
    faults = of.Counter("faults_total", "Faults.", registry=r)
    for n in range(20):
        requests.labels("/", 200).inc()
        requests.labels(code=404, path='/"\\').inc(n)
        size.labels(path="/").observe(n * 100)
        took.observe(n / 8)
        queued.set(n)
        queued.dec(2)

    @faults.count_exceptions(ValueError)
    @queued.track_inprogress()
    def work():
        raise ValueError

    for call, words in [(work, {}), (requests.labels, {"path": "x"}), (requests.inc, {}), (faults.inc, {"amount": -1})]:
        try:
            call(**words)
            raise SystemExit(f"{call} is refused")
        except ValueError:
            pass
    assert r.get_sample_value("jobs_queued") == 17
    assert r.get_sample_value("answer_seconds_bucket", {"le": "1.0"}) == 9
    assert r.get_sample_value("none") is None
    return of.generate_latest(r).decode()


@unittest.skipUnless(prometheus_client, "no prometheus_client is installed here")
class Peer(unittest.TestCase):
    def test_same(self):
        def by_number(series):
            return {(name, *((k, float(v)) if k == "le" else (k, v) for k, v in labels)): value for (name, labels), value in series.items()}

        theirs = {key: value for key, value in by_number(read(program(prometheus_client))).items() if not key[0].endswith("_created")}
        self.assertEqual(by_number(read(program(dirgwako))), theirs)
        self.assertEqual(len(theirs), 2 + 5 + 17 + 1 + 1)

    def test_names(self):
        """Each public name that is the peer's is one there."""
        own = {"NotWhole", "Refusal", "Sample"}
        for name in set(dirgwako.__all__) - own:
            self.assertTrue(hasattr(prometheus_client, name), name)


class Alone(unittest.TestCase):
    def test_program(self):
        """The same program, where the peer is not installed."""
        series = read(program(dirgwako))
        self.assertEqual(series["web_requests_total", (("code", "404"), ("path", '/"\\'))], 190)
        self.assertEqual(len(series), 2 + 5 + 17 + 1 + 1)


if __name__ == "__main__":
    unittest.main()
