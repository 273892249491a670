"""The program's server, as it is built, and clients that are not as they should be. Connection k goes to its thread k mod 4."""
import socket

from servers import GET, OK, ask, connect, ends_its_side, expect, port_told, read_all, server
from started import check

OTHER = b"GET / HTTP/1.1\r\nHost: h\r\n\r\n"
POST = b"POST /metrics HTTP/1.1\r\nHost: h\r\n\r\n"
# What a Prometheus server sends.
USUAL = (
    b"GET /metrics HTTP/1.1\r\nHost: localhost:9090\r\nUser-Agent: Prometheus/2.53.0\r\nAccept: text/plain;version=0.0.4;q=1,*/*;q=0.1\r\n"
    b"Accept-Encoding: gzip\r\nX-Prometheus-Scrape-Timeout-Seconds: 10\r\n\r\n"
)
# A head that goes on, and is longer than a head may be.
LONG_HEAD = b"GET /metrics HTTP/1.1\r\nHost: h\r\nX: " + b"x" * 9_000

BAD = b"HTTP/1.1 400 Bad Request\r\n"
PLAIN = b"Content-Type: text/plain; charset=utf-8\r\n"
MISSING = b"HTTP/1.1 404 Not Found\r\n" + PLAIN + b"Content-Length: 10\r\nConnection: close\r\n\r\nNot Found\n"
WRONG = (
    b"HTTP/1.1 405 Method Not Allowed\r\nAllow: GET, HEAD\r\n" + PLAIN + b"Content-Length: 19\r\nConnection: close\r\n\r\nMethod Not Allowed\n"
)
LARGE = (
    b"HTTP/1.1 431 Request Header Fields Too Large\r\n"
    + PLAIN
    + b"Content-Length: 32\r\nConnection: close\r\n\r\nRequest Header Fields Too Large\n"
)
BYTES = b"""# HELP scrape_reply_bytes Bytes of each reply.
# TYPE scrape_reply_bytes histogram
scrape_reply_bytes_bucket{le="100"} 0
scrape_reply_bytes_bucket{le="1000"} 0
scrape_reply_bytes_bucket{le="10000"} 0
scrape_reply_bytes_bucket{le="+Inf"} 0
"""


def counted(replies, size, codes):
    """What a scrape ends in behind so many replies, which have so many bytes: of each status so many."""
    lines = [f"scrape_reply_bytes_sum {size}", f"scrape_reply_bytes_count {replies}"]
    lines += ["# HELP scrape_requests_total Replies by status.", "# TYPE scrape_requests_total counter"]
    lines += [f'scrape_requests_total{{code="{code}"}} {codes.get(code, 0)}' for code in (200, 400, 404, 405, 431, 503)]
    return "".join(f"{it}\n" for it in lines).encode()


# The reply to the first scrape, before which nothing was counted: 707 bytes, 592 of them the text.
FIRST = (
    OK
    + b"Content-Type: text/plain; version=0.0.4; charset=utf-8\r\nContent-Length: 592\r\nConnection: close\r\n\r\n"
    + BYTES
    + counted(0, 0, {})
)


def serving(program, connections):
    """A server of so many connections, and its port."""
    it = server(program, "serve", "0", connections)
    return it, port_told(it.stdout)


def ended(it, replies):
    """The server ended well, and has counted so many replies."""
    expect(it, (f"served {replies}\n".encode(), b"", 0))


def begin(replies, *fronts):
    """There are as many replies as fronts, and each begins so."""
    is_so = len(replies) == len(fronts) and all(reply.startswith(front) for reply, front in zip(replies, fronts))
    check(is_so, f"replies are {replies}, and have to begin so: {fronts}")


def read_front(client, size=100):
    """Reads so many bytes, and no more."""
    while size > 0:
        piece = client.recv(size)
        check(piece, "the reply goes on")
        size -= len(piece)


def the_first_reply(program):
    it, port = serving(program, 1)
    reply = ask(port, USUAL)
    check(len(FIRST) == 707 and reply == FIRST, f"the first reply is {reply}")
    ended(it, 1)


def four_connections(program):
    """A connection without a byte is not counted."""
    it, port = serving(program, 4)
    missing, nothing, wrong, found = ask(port, OTHER), ends_its_side(port), ask(port, POST), ask(port)
    check(nothing == b"", f"who asks nothing is replied {nothing}")
    begin([missing, wrong, found], MISSING, WRONG, OK)
    ended(it, 3)


def a_scrape_shows_the_replies_before_it(program):
    """Replies of each status but 503, and then a scrape: what was counted by the threads of all of them."""
    it, port = serving(program, 9)
    old = b"POST /metrics HTTP/1.0\r\n\r\n"
    asked = [GET, b"GET /metrics HTTP/1.1\r\n\r\n", OTHER, OTHER, old, old, old]
    before = [ask(port, request) for request in asked]
    with connect(port) as client:
        client.sendall(LONG_HEAD)
        before.append(read_all(client))
        last = ask(port)
    begin(before, OK, BAD, MISSING, MISSING, WRONG, WRONG, WRONG, LARGE)
    wanted = counted(8, sum(len(reply) for reply in before), {200: 1, 400: 1, 404: 2, 405: 3, 431: 1})
    check(last.startswith(OK) and last.endswith(wanted), f"the last scrape is {last}")
    ended(it, 9)


def a_client_that_says_nothing(program):
    """One that says nothing until all others were served keeps nobody from being served, but those of its own thread."""
    it, port = serving(program, 6)
    with connect(port) as silent:
        replies = [ask(port), ask(port, OTHER), ask(port)]
        with connect(port) as another:
            replies.append(ask(port))
            silent.shutdown(socket.SHUT_WR)
            another.shutdown(socket.SHUT_WR)
    begin(replies, OK, MISSING, OK, OK)
    ended(it, 4)


def clients_that_leave(program):
    """A client that sends half a head, one that goes away within its reply, which resets the connection, and then a good one. The second
    reply was sent whole, and counts."""
    it, port = serving(program, 3)
    half = ends_its_side(port, b"GET /metrics HTTP/1.1\r\nHo")
    with connect(port) as client:
        client.sendall(GET)
        read_front(client)
    begin([half, ask(port)], BAD, OK)
    ended(it, 3)


def clients_that_send_much(program):
    """A request with a body of 100,000 bytes, which nobody reads, and a head of over 9,000: both clients get their replies whole."""
    it, port = serving(program, 2)
    body = b"POST /metrics HTTP/1.1\r\nHost: h\r\nContent-Length: 100000\r\n\r\n" + b"x" * 100_000
    replies = [ask(port, body), ask(port, LONG_HEAD)]
    check(replies == [WRONG, LARGE], f"the replies are {replies}")
    ended(it, 2)


def goes_on(client):
    """Sends until that fails, which it has to within 16 million bytes."""
    try:
        for _piece in range(4_000):
            client.sendall(b"x" * 4_000)
    except ConnectionError:
        return
    check(False, "all of 16 million bytes was taken")


def clients_that_stay(program):
    """A client that keeps its connection after the reply, and one that sends on for as long as it is read, are let go: the next one of
    their thread is served."""
    it, port = serving(program, 6)
    with connect(port) as one, connect(port) as other:
        one.sendall(GET)
        replies = [read_all(one)]
        other.sendall(POST)
        replies.append(read_all(other))
        goes_on(other)
        replies += [ask(port) for _client in range(4)]
    begin(replies, OK, WRONG, OK, OK, OK, OK)
    ended(it, 6)


ALL = [
    the_first_reply,
    four_connections,
    a_scrape_shows_the_replies_before_it,
    a_client_that_says_nothing,
    clients_that_leave,
    clients_that_send_much,
    clients_that_stay,
]


def check_all(program):
    """Returns how many servers were as they should be."""
    for it in ALL:
        it(program)
    return len(ALL)
