"""The example of a web service, as it is built, under load: each scrape beside it has numbers that were there together, and its totals are exact."""
import re
import shutil
import threading

from servers import GET, OK, ask, connect, port_told, server
from started import check, outcome, run

# What a thread sends, and the code that it is replied.
SENT = [
    (b"GET / HTTP/1.1\r\nHost: h\r\n\r\n", b"200"),
    (b"GET /other HTTP/1.1\r\nHost: h\r\n\r\n", b"404"),
    (b"no request\r\n\r\n", b"400"),
]
THREADS, TURNS = 8, 25


def numbers(text):
    """The samples of a text by what is in front of them."""
    return {line.rsplit(" ", 1)[0]: float(line.rsplit(" ", 1)[1]) for line in text.decode().splitlines() if not line.startswith("#")}


def agrees(text):
    """Whether a scrape has all that became known with each reply, or nothing of it; how many requests it has."""
    found = numbers(text)
    replied = sum(number for name, number in found.items() if name.startswith("http_requests_total"))
    check(found["http_reply_bytes_count"] == replied, f"each reply has its bytes: {found}")
    check(found["http_request_seconds_count"] == replied + found["http_lost_total"], f"each request has its time: {found}")
    check(0 <= found["http_requests_open"] <= 4, f"four threads answer: {found}")
    return replied


def scraped(port):
    head, _, text = ask(port, GET).partition(b"\r\n\r\n")
    check(head.startswith(OK), f"a scrape is replied: {head}")
    return text


def sends(port, wrong):
    for _turn in range(TURNS):
        for request, code in SENT:
            reply = ask(port, request)
            if not reply.startswith(b"HTTP/1.1 " + code):
                wrong.append(reply)


def counts_exactly(web):
    """Threads send what they know the reply to, beside scrapes; in the end each code was counted as often as it was sent. The last connection, at
    which the service ends, says nothing."""
    many = THREADS * TURNS
    it = server(web, "0", "0", many * len(SENT) + 1)
    port, metrics = port_told(it.stderr), port_told(it.stderr)
    wrong, scrapes, last = [], 0, 0
    threads = [threading.Thread(target=sends, args=(port, wrong)) for _ in range(THREADS)]
    for thread in threads:
        thread.start()
    while any(thread.is_alive() for thread in threads):
        now = agrees(scraped(metrics))
        check(now >= last, "no count falls")
        last, scrapes = now, scrapes + 1
    check(not wrong, f"each request has its reply: {wrong[:1]}")
    connect(port).close()
    out, err, status = outcome(it, given=None)
    check(not err and status == 0, f"it ends: {err}, {status}")
    found = numbers(out)
    check(agrees(out) == many * len(SENT), "each request is counted")
    for code in ("200", "400", "404"):
        check(found[f'http_requests_total{{code="{code}"}}'] == many, f"{code} is counted as often as it was sent: {found}")
    check(found["http_lost_total"] == 1 and found["http_requests_open"] == 0, f"one is lost, and none open: {found}")
    return scrapes + 1


def under_wrk(web):
    """The same beside `wrk`, where the machine has it."""
    if not shutil.which("wrk"):
        return 0
    it = server(web, "0", "0", 10**9)
    port, metrics = port_told(it.stderr), port_told(it.stderr)
    told = []
    load = threading.Thread(target=lambda: told.append(run("wrk", "-t2", "-c8", "-d3s", f"http://127.0.0.1:{port}/")))
    load.start()
    scrapes = 0
    while load.is_alive():
        agrees(scraped(metrics))
        scrapes += 1
    out, _, status = told[0]
    answered = re.search(rb"(\d+) requests in", out)
    check(status == 0 and answered and agrees(scraped(metrics)) >= int(answered[1]), f"each request is counted: {out}")
    return scrapes


def check_all(web):
    return counts_exactly(web) + under_wrk(web)
