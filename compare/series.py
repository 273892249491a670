"""What the series of a page of several boards take, beside other libraries with as many series, by turns: registering them, a scrape with its text,
increments, and memory; and what the texts are."""
import os
import subprocess

from compare.loads import compare_texts
from compare.programs import GO, OURS, PEER_PYTHON, RUST, of_size
from compare.speeds import Found
from checks.started import check, run, start

# How the series lie on boards, of which other libraries have none: of them the last two are one.
HOWS = {
    "one": "256 counters, 32 histograms of 10 bounds and 64 gauges: one board",
    "whole": "10,000 counters, 1,000 histograms and 500 gauges: 40 boards, each family on one of them",
    "spread": "the same, each family with parts on many boards",
}
PEERS = (RUST, GO, PEER_PYTHON)


def as_peer(how):
    return "one" if how == "one" else "whole"


def text_of(words, how):
    """One text of a page."""
    out, err, status = run(*words, "page", 0, how, seconds=300)
    check(status == 0 and out, f"{words[0]} page 0 {how}: status {status}: {err.decode()[-500:]}")
    return out


def turn(found, name, words, how, scrapes):
    """One turn of a program: of each line the first number, which is the least of so many; and the kilobytes of memory that it has had at most."""
    program = start(*words, "page", scrapes, how, stdout=subprocess.PIPE)
    lines = program.stdout.read().decode().splitlines()
    _pid, status, used = os.wait4(program.pid, 0)
    program.returncode = os.waitstatus_to_exitcode(status)
    program.stdout.close()
    check(program.returncode == 0 and lines, f"{words[0]} page {scrapes} {how}: status {program.returncode}")
    for line, least, *_median in (it.split() for it in lines):
        found[name, how, line].add(float(least))
    found[name, how, "memory"].add(float(used.ru_maxrss))


def measure(programs, scrapes, turns):
    """The turns of each program, and its texts. Ours is over the library of 16 threads. Python's gets a tenth of the scrapes."""
    found, texts, ours = Found(), {}, of_size(OURS, programs[OURS], "large")
    peers = [name for name in PEERS if name in programs]
    for number in range(turns):
        print(f"pages, turn {number + 1} of {turns}", flush=True)
        for how in HOWS:
            turn(found, OURS, ours, how, scrapes)
        for how in ("one", "whole"):
            for name in peers:
                turn(found, name, programs[name], how, max(scrapes // (10 if name == PEER_PYTHON else 1), 3))
    for how in HOWS:
        words = {OURS: how, **{name: as_peer(how) for name in peers}}
        texts[how] = compare_texts({name: text_of(ours if name == OURS else programs[name], each) for name, each in words.items()})
    return found, texts
