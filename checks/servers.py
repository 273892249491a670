"""The programs that serve, as they are built, with a client over loopback: which port and address they listen on, what they reply, what
they print and how they end."""
import os
import select
import socket
import subprocess
import time

from started import LIMIT, check, outcome, start

GET = b"GET /metrics HTTP/1.1\r\nHost: h\r\n\r\n"
OK = b"HTTP/1.1 200 OK\r\n"


def server(*words):
    return start(*words, stdin=subprocess.DEVNULL, stdout=subprocess.PIPE, stderr=subprocess.PIPE)


def first_line(stream):
    """The first line, which has to come within the limit. No byte after it is read."""
    line, end = b"", time.monotonic() + LIMIT
    while not line.endswith(b"\n"):
        ready, _, _ = select.select([stream], [], [], max(0, end - time.monotonic()))
        check(ready, "a server tells its port in time")
        byte = os.read(stream.fileno(), 1)
        check(byte, f"a server tells its port, and not only {line}")
        line += byte
    return line.decode()


def port_told(stream):
    """The port that a server tells in its first line."""
    words = first_line(stream).split()
    check(len(words) == 2 and words[0] == "listening" and words[1].isdigit(), f"{words} tells a port")
    return int(words[1])


def connect(port, address="127.0.0.1"):
    return socket.create_connection((address, port), timeout=LIMIT)


def read_all(client):
    """All that a client reads until the end."""
    return b"".join(iter(lambda: client.recv(65536), b""))


def ask(port, request=GET):
    """The reply to a request, which has a connection of its own."""
    with connect(port) as client:
        client.sendall(request)
        return read_all(client)


def ends_its_side(port, sent=b""):
    """The reply to a client that sends this and then ends its writing side."""
    with connect(port) as client:
        client.sendall(sent)
        client.shutdown(socket.SHUT_WR)
        return read_all(client)


def is_refused(port, address):
    try:
        connect(port, address).close()
    except ConnectionRefusedError:
        return True
    return False


def expect(program, wanted):
    got = outcome(program, given=None)
    check(got == wanted, f"{program.args}: got {got}, expected {wanted}")


def the_program_serves(program, _service, _printed):
    it = server(program, "serve", "0", "2")
    port = port_told(it.stdout)
    check(is_refused(port, "127.0.0.2"), "it listens on 127.0.0.1 alone")
    check(ask(port).startswith(OK), "a scrape is replied")
    connect(port).close()
    expect(it, (b"served 1\n", b"", 0))


def the_port_is_the_one_asked_for(program, _service, _printed):
    with socket.create_server(("127.0.0.1", 0)) as other:
        port = other.getsockname()[1]
        expect(server(program, "serve", port, "1"), (b"", b"fault\n", 3))
    it = server(program, "serve", port, "1")
    check(port_told(it.stdout) == port, "the port is told")
    check(ask(port).startswith(OK), "a scrape is replied at the port")
    expect(it, (b"served 1\n", b"", 0))


def a_body_that_nobody_reads(program, _service, _printed):
    it = server(program, "serve", "0", "1")
    with connect(port_told(it.stdout)) as client:
        # More than a head may have comes with it, so that input waits when the reply is sent.
        client.sendall(GET[:-2] + b"Content-Length: 100000\r\n\r\n" + b"x" * 100_000)
        head, _, body = read_all(client).partition(b"\r\n\r\n")
    check(head.startswith(OK) and f"Content-Length: {len(body)}\r\n".encode() in head + b"\r\n", f"the reply arrives whole: {head}")
    expect(it, (b"served 1\n", b"", 0))


def there_is_no_room_for_threads(program, _service, _printed):
    it = server("sh", "-c", 'ulimit -v 6000 && exec "$0" serve 0 1', program)
    port_told(it.stdout)
    expect(it, (b"", b"fault\n", 3))


def the_example_serves(_program, service, printed):
    it = server(service, "0", "3")
    port = port_told(it.stderr)
    with connect(port):
        # This one says nothing; after five seconds the others are served.
        since = time.monotonic()
        check(ask(port).startswith(OK), "a scrape is replied behind a silent client")
        check(time.monotonic() - since > 4, "it waits five seconds for a silent client")
    check(ask(port).startswith(OK), "the third connection is replied")
    expect(it, (printed.read_bytes(), b"", 0))


def the_example_is_at_the_port_asked_for(_program, service, printed):
    with socket.create_server(("127.0.0.1", 0)) as other:
        port = other.getsockname()[1]
        out, err, status = outcome(server(service, port, "1"), given=None)
        check((out, status) == (b"", 1), f"a taken port ends the example: {out}, {status}")
        check(b"in use" in err and b"listening" not in err, f"it says that the port is taken, and not {err}")
    it = server(service, port, "1")
    check(port_told(it.stderr) == port, "the port is told")
    check(ask(port).startswith(OK), "a scrape is replied at the port")
    expect(it, (printed.read_bytes(), b"", 0))


def the_tutorial_serves(program, _service, _printed):
    tutorial = program.parents[2] / "tutorial"
    it = server(tutorial / "out/tutorial", "1")
    reply = ask(port_told(it.stderr))
    check(reply.startswith(OK) and reply.endswith(b"\nvisits_total 3\n"), f"the tutorial's counter is scraped: {reply}")
    expect(it, ((tutorial / "stdout").read_bytes(), b"", 0))


ALL = [
    the_program_serves,
    the_port_is_the_one_asked_for,
    a_body_that_nobody_reads,
    there_is_no_room_for_threads,
    the_example_serves,
    the_example_is_at_the_port_asked_for,
    the_tutorial_serves,
]


def check_all(program, service, printed):
    """Returns how many servers were as they should be."""
    for it in ALL:
        it(program, service, printed)
    return len(ALL)
