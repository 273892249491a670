"""The text, and what serves it."""
from __future__ import annotations

import os
import socket
import socketserver
import threading
from http.server import BaseHTTPRequestHandler, ThreadingHTTPServer
from typing import Any, Awaitable, Callable, Iterable, NamedTuple

from ._calls import RegistryCalls
from ._faults import Refusal
from ._registry import REGISTRY

CONTENT_TYPE_LATEST = "text/plain; version=0.0.4; charset=utf-8"
METHODS = ("GET", "HEAD")

Wsgi = Callable[[dict[str, Any], Callable[..., Any]], Iterable[bytes]]
Asgi = Callable[[dict[str, Any], Callable[[], Awaitable[Any]], Callable[[dict[str, Any]], Awaitable[None]]], Awaitable[None]]


def generate_latest(registry: RegistryCalls = REGISTRY) -> bytes:
    """The text of a scrape, all series of a board at one moment."""
    return registry._scrape()


class _Reply(NamedTuple):
    status: str
    headers: list[tuple[str, str]]
    body: bytes


def _reply_to(registry: RegistryCalls, method: str, path: str) -> _Reply:
    """Each path shows the metrics, but that which browsers ask for by themselves."""
    plain = [("Content-Type", "text/plain; charset=utf-8")]
    if method not in METHODS:
        return _Reply("405 Method Not Allowed", [*plain, ("Allow", ", ".join(METHODS))], b"")
    if path == "/favicon.ico":
        return _Reply("200 OK", plain, b"")
    try:
        body = generate_latest(registry)
    except Refusal as refusal:
        return _Reply("503 Service Unavailable", plain, f"{refusal}\n".encode())
    return _Reply("200 OK", [("Content-Type", CONTENT_TYPE_LATEST), ("Content-Length", str(len(body)))], b"" if method == "HEAD" else body)


class MetricsHandler(BaseHTTPRequestHandler):
    """Answers requests with the metrics of `registry`."""

    registry: RegistryCalls = REGISTRY
    timeout = 10  # of one read: who sends nothing does not keep a thread

    @classmethod
    def factory(cls, registry: RegistryCalls) -> type[MetricsHandler]:
        """A handler of another registry."""
        return type(cls.__name__, (cls,), {"registry": registry})

    def do_GET(self) -> None:
        reply = _reply_to(self.registry, self.command, self.path.partition("?")[0])
        self.send_response(int(reply.status[:3]))
        for name, value in reply.headers:
            self.send_header(name, value)
        self.end_headers()
        self.wfile.write(reply.body)

    do_HEAD = do_GET

    def log_message(self, format: str, *args: Any) -> None:
        """A scrape is no news."""


class _Server(ThreadingHTTPServer):
    daemon_threads = True

    def __init__(self, addr: str, port: int, handler: type[BaseHTTPRequestHandler]) -> None:
        found = socket.getaddrinfo(addr or None, port, type=socket.SOCK_STREAM, flags=socket.AI_PASSIVE)
        self.address_family = found[0][0]
        super().__init__((addr, port), handler)

    def server_bind(self) -> None:
        """Without the look-up of the host's full name, which may wait for a network."""
        socketserver.TCPServer.server_bind(self)
        self.server_name = str(self.server_address[0])
        self.server_port = int(self.server_address[1])


def start_http_server(port: int, addr: str = "0.0.0.0", registry: RegistryCalls = REGISTRY) -> tuple[ThreadingHTTPServer, threading.Thread]:
    """Serves the metrics from a thread of its own; where the port is 0, `server_port` of the server tells the one that the system chose.

    A thread does not go along into a forked child: start it behind the fork, in the process whose numbers it shows."""
    server = _Server(addr, port, MetricsHandler.factory(registry))
    thread = threading.Thread(target=server.serve_forever, daemon=True, name="dirgwako")
    thread.start()
    return server, thread


def make_wsgi_app(registry: RegistryCalls = REGISTRY, disable_compression: bool = True) -> Wsgi:
    """A WSGI application that shows the metrics, which are never compressed."""

    def app(environ: dict[str, Any], start_response: Callable[..., Any]) -> Iterable[bytes]:
        reply = _reply_to(registry, environ.get("REQUEST_METHOD", "GET"), environ.get("PATH_INFO", "/"))
        start_response(reply.status, reply.headers)
        return [reply.body]

    return app


def make_asgi_app(registry: RegistryCalls = REGISTRY, disable_compression: bool = True) -> Asgi:
    """An ASGI application that shows the metrics, which are never compressed."""

    async def app(scope: dict[str, Any], receive: Callable[[], Awaitable[Any]], send: Callable[[dict[str, Any]], Awaitable[None]]) -> None:
        if scope["type"] != "http":
            raise ValueError(f"metrics are shown over http, not over {scope['type']}")
        reply = _reply_to(registry, scope.get("method", "GET"), scope.get("path", "/"))
        headers = [(name.lower().encode(), value.encode()) for name, value in reply.headers]
        await send({"type": "http.response.start", "status": int(reply.status[:3]), "headers": headers})
        await send({"type": "http.response.body", "body": reply.body})

    return app


def write_to_textfile(path: str | os.PathLike[str], registry: RegistryCalls) -> None:
    """For the textfile collector of the node exporter: who reads the file meets the old text or the new one, never a part."""
    aside = f"{os.fspath(path)}.{os.getpid()}.{threading.get_ident()}"
    try:
        with open(aside, "wb") as file:
            file.write(generate_latest(registry))
        os.replace(aside, path)
    except BaseException:
        try:
            os.unlink(aside)
        except FileNotFoundError:
            pass
        raise
