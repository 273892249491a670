"""Scrapes that were taken while a thread counted without rest: which of them show numbers that never stood together.

The thread raises `a_total`, then `b_total`, then observes 7 by `c_bytes`, then raises `d_total{child="1"}`, and then child 2, for ever. So
whatever the moment, of a, b, the histogram's count, child 1 and child 2 none is above the one before it, and a is at most 1 above child 2;
each bucket of the histogram equals its count, since all bounds are above 7, and its sum is 7 times its count. Where a round is one version,
all five are equal.
"""
from dataclasses import dataclass, field

from checks.started import check, run

CHAIN = ("a_total", "b_total", "c_bytes_count", 'd_total{child="1"}', 'd_total{child="2"}')
BYTES = 7


def numbers(text):
    """The number of each series of a text; bounds and numbers may be spelled as floats."""
    found = {}
    for line in text.splitlines():
        if line and not line.startswith("#"):
            series, _, number = line.rpartition(" ")
            found[plain(series)] = float(number)
    return found


def plain(series):
    """A series with its bound spelled in one way."""
    head, mark, rest = series.partition('le="')
    bound, quote, tail = rest.partition('"')
    return f"{head}{mark}{float(bound)}{quote}{tail}" if mark else series


def is_histogram(found):
    """Whether the histogram agrees with itself."""
    count = found["c_bytes_count"]
    buckets = [it for series, it in found.items() if series.startswith("c_bytes_bucket")]
    return len(buckets) == 3 and all(it == count for it in buckets) and found["c_bytes_sum"] == BYTES * count


def is_moment(found, is_together):
    """Whether the five numbers stood together at some moment."""
    chain = [found[series] for series in CHAIN]
    rises = any(after > before for before, after in zip(chain, chain[1:]))
    return not rises and chain[0] - chain[-1] <= (0 if is_together else 1)


@dataclass
class Torn:
    """What was found of the scrapes of one program."""
    scrapes: int = 0
    given_up: int = 0
    torn: int = 0
    torn_histograms: int = 0
    differences: list = field(default_factory=list)

    def share(self):
        return self.torn / max(self.scrapes, 1)

    def add(self, other):
        self.scrapes += other.scrapes
        self.given_up += other.given_up
        self.torn += other.torn
        self.torn_histograms += other.torn_histograms
        self.differences += other.differences


def judge(texts, wanted, is_together):
    """Judges so many scrapes, from the first one on that was taken after the thread had begun to count."""
    found = Torn()
    for text in texts:
        if found.scrapes + found.given_up == wanted:
            break
        if not text:
            found.given_up += 1
            continue
        read = numbers(text)
        if read["a_total"] == 0:
            continue
        torn_histogram = not is_histogram(read)
        found.scrapes += 1
        found.torn_histograms += torn_histogram
        found.torn += torn_histogram or not is_moment(read, is_together)
        found.differences.append(read["a_total"] - read["b_total"])
    return found


def measure(words, wanted, is_together):
    """Runs a program's `torn`, and judges so many of its scrapes. A few more are asked for, since the first ones may come too soon."""
    out, err, status = run(*words, seconds=300)
    check(status == 0, f"{words[0]}: status {status}: {err.decode()[-500:]}")
    found = judge(out.decode().split("---\n")[1:], wanted, is_together)
    check(found.scrapes + found.given_up == wanted, f"{words[0]}: {found.scrapes} scrapes, {wanted} were wanted")
    return found
