"""The text, and who serves it: HTTP, WSGI, ASGI and a file."""
import asyncio
import contextlib
import http.client
import os
import pathlib
import tempfile
import unittest
import urllib.request
from unittest import mock

import dirgwako
from dirgwako import CONTENT_TYPE_LATEST, Counter, Gauge, Histogram, Refusal, Sample, generate_latest
from tests.cases import Case
from tests.texts import read


class Shown(Case):
    def setUp(self):
        super().setUp()
        Counter("jobs", "Jobs\ndone.", ["kind"], registry=self.registry).labels('"\\\n').inc(7)
        Gauge("open", "Open.", registry=self.registry).set(-2)
        Histogram("answer_seconds", "Answers.", buckets=[0.5], registry=self.registry).observe(0.3)
        self.text = generate_latest(self.registry)

    @contextlib.contextmanager
    def served(self):
        server, thread = dirgwako.start_http_server(0, "127.0.0.1", self.registry)
        try:
            yield server.server_port
        finally:
            server.shutdown()
            server.server_close()
            thread.join(10)
        self.assertFalse(thread.is_alive())


class Texts(Shown):
    def test_samples(self):
        """The package's reader and the tests' own read the same."""
        samples = self.registry.samples()
        self.assertIn(Sample("jobs_total", {"kind": '"\\\n'}, 7.0), samples)
        self.assertEqual({(it.name, tuple(sorted(it.labels.items()))): it.value for it in samples}, read(self.text.decode()))
        self.assertIsNone(self.registry.get_sample_value("jobs_total"))
        self.assertIsNone(self.registry.get_sample_value("other"))
        self.assertEqual(self.registry.get_sample_value("answer_seconds_bucket", {"le": "0.50"}), 1)
        self.assertEqual(self.registry.get_sample_value("answer_seconds_bucket", {"le": "+Inf"}), 1)

    def test_peer_reads_it(self):
        try:
            from prometheus_client.parser import text_string_to_metric_families
        except ImportError:
            self.skipTest("no prometheus_client is installed here")
        families = {it.name: it for it in text_string_to_metric_families(self.text.decode())}
        self.assertEqual(families["jobs"].samples[0].labels, {"kind": '"\\\n'})
        self.assertEqual(families["jobs"].documentation, "Jobs\ndone.")
        self.assertEqual((families["jobs"].type, families["open"].type, families["answer_seconds"].type), ("counter", "gauge", "histogram"))
        self.assertEqual(sum(len(it.samples) for it in families.values()), len(self.registry.samples()))

    def test_grows(self):
        """A text that is longer than the one before it is whole."""
        c = Counter("long", "L.", ["k"], registry=self.registry)
        for n in range(200):
            c.labels(str(n) * 80).inc(n)
            if n % 20 == 0:
                read(generate_latest(self.registry).decode())
        self.assertEqual(sum(1 for it in self.registry.samples() if it.name == "long_total"), 200)


class Served(Shown):
    def test_http(self):
        with self.served() as port, urllib.request.urlopen(f"http://127.0.0.1:{port}/metrics?name[]=x", timeout=10) as reply:
            self.assertEqual((reply.headers["Content-Type"], reply.read()), (CONTENT_TYPE_LATEST, self.text))

    def test_http_methods(self):
        for method, path, status, body in [
            ("HEAD", "/metrics", 200, b""), ("GET", "/favicon.ico", 200, b""), ("GET", "/", 200, self.text), ("POST", "/", 501, None),
        ]:
            with self.served() as port, contextlib.closing(http.client.HTTPConnection("127.0.0.1", port, timeout=10)) as client:
                client.request(method, path)
                reply = client.getresponse()
                got = reply.read()
                self.assertEqual((reply.status, got if body is not None else None), (status, body), (method, path))

    def test_http_refused(self):
        """A scrape that is refused is told as such: nothing is shown in its place."""
        with self.served() as port, mock.patch("dirgwako._exposition.generate_latest", side_effect=Refusal(14, "given up")):
            with self.assertRaises(urllib.error.HTTPError) as caught:
                urllib.request.urlopen(f"http://127.0.0.1:{port}/", timeout=10)
        with caught.exception as error:
            self.assertEqual((error.code, error.read()), (503, b"given up (refusal 14)\n"))

    def test_http_over_ipv6(self):
        try:
            server, _ = dirgwako.start_http_server(0, "::1", self.registry)
        except OSError:
            self.skipTest("no IPv6 on this machine")
        with contextlib.closing(http.client.HTTPConnection("::1", server.server_port, timeout=10)) as client:
            client.request("GET", "/metrics")
            self.assertEqual(client.getresponse().read(), self.text)
        server.shutdown()
        server.server_close()

    def test_wsgi(self):
        app = dirgwako.make_wsgi_app(self.registry)
        for method, path, status, body in [
            ("GET", "/metrics", "200 OK", self.text), ("HEAD", "/", "200 OK", b""), ("GET", "/favicon.ico", "200 OK", b""),
            ("POST", "/", "405 Method Not Allowed", b""),
        ]:
            told = []
            got = b"".join(app({"REQUEST_METHOD": method, "PATH_INFO": path}, lambda *it: told.append(it)))
            self.assertEqual((told[0][0], got), (status, body))
        told = []
        app({"REQUEST_METHOD": "GET", "PATH_INFO": "/"}, lambda *it: told.append(it))
        self.assertEqual(dict(told[0][1]), {"Content-Type": CONTENT_TYPE_LATEST, "Content-Length": str(len(self.text))})

    def test_asgi(self):
        app = dirgwako.make_asgi_app(self.registry)

        def asked(**scope):
            sent = []

            async def send(it):
                sent.append(it)

            asyncio.run(app(scope, None, send))
            return sent

        start, body = asked(type="http", method="GET", path="/metrics")
        self.assertEqual((start["type"], start["status"], body), ("http.response.start", 200, {"type": "http.response.body", "body": self.text}))
        self.assertIn((b"content-type", CONTENT_TYPE_LATEST.encode()), start["headers"])
        self.assertEqual([it.get("status") for it in asked(type="http", method="PUT", path="/")], [405, None])
        with self.assertRaises(ValueError):
            asked(type="websocket")

    def test_textfile(self):
        with tempfile.TemporaryDirectory() as folder:
            path = pathlib.Path(folder, "jobs.prom")
            path.write_text("old")
            dirgwako.write_to_textfile(str(path), self.registry)
            self.assertEqual(path.read_bytes(), self.text)
            dirgwako.write_to_textfile(path, self.registry)
            with mock.patch("dirgwako._exposition.generate_latest", side_effect=Refusal(14, "given up")), self.assertRaises(Refusal):
                dirgwako.write_to_textfile(str(path), self.registry)
            self.assertEqual((os.listdir(folder), path.read_bytes()), (["jobs.prom"], self.text))

    def test_default_registry(self):
        name = "test_default_registry_total"
        Counter(name, "T.").inc()
        self.assertEqual(read(generate_latest().decode())[name, ()], 1)
        self.assertIn(f"\n{name} 1\n".encode(), b"".join(dirgwako.make_wsgi_app()({}, lambda *_: None)))


if __name__ == "__main__":
    unittest.main()
