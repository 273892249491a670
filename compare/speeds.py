"""The nanoseconds of updates and of scrapes with their texts, of each program by turns."""
import statistics
from dataclasses import dataclass, field

from compare.programs import BARE, LIBRARIES, OURS, PEER_PYTHON, of_size
from checks.started import check, run

# An update, as the tables call it, and the name that the programs print it by.
UPDATES = [("an increment", "inc"), ("an observation", "observe"), ("ten increments at once", "inc_10"), ("ten observations at once", "observe_10")]
SIZES = {"small": "64 counters, 8 histograms of 10 bounds", "large": "256 counters, 32 histograms of 24 bounds"}
TALLY = f"{OURS}, in a tally"


@dataclass
class Turns:
    """What the same measurement gave in several turns. The best is the least of times, and the most of rates: what comes nearest to a
    machine that nobody else uses."""
    best_of: object = min
    all: list = field(default_factory=list)

    def add(self, value):
        self.all.append(value)

    def best(self):
        return self.best_of(self.all)

    def median(self):
        return statistics.median(self.all)


class Found(dict):
    """The turns of each key."""

    def __init__(self, best_of=min):
        super().__init__()
        self.best_of = best_of

    def __missing__(self, key):
        self[key] = Turns(self.best_of)
        return self[key]


def lines_of(words, seconds=300):
    """The lines that a program prints, cut at blanks."""
    out, err, status = run(*words, seconds=seconds)
    check(status == 0, f"{' '.join(str(it) for it in words)}: status {status}: {err.decode()[-500:]}")
    return [line.split() for line in out.decode().splitlines()]


def ours(words, rounds, lines):
    """One turn of what the bench prints over each library; of each line the nanoseconds, and those of its floor."""
    for size in LIBRARIES:
        for name, of, each, times in lines_of([*of_size(OURS, words, size), rounds]):
            lines[name, of, "ns"].add(float(each))
            lines[name, of, "floor"].add(float(each) / max(float(times), 0.01))


def turn_of(name, words, rounds, updates, gathers):
    """One turn of a program. Python's gets a tenth of the rounds."""
    less = 10 if name == PEER_PYTHON else 1
    for line, threads, each in lines_of([*words, "updates", rounds // less]):
        who = TALLY if line.startswith("tally_") else name
        updates[who, line.removeprefix("tally_"), int(threads)].add(float(each))
    for size in SIZES:
        gathers[name, size].add(float(lines_of([*of_size(name, words, size), "gather", max(rounds // 1_000 // less, 1), size])[0][0]))


def measure(programs, rounds, turns):
    """The turns of updates, of gathers, and of all lines of the bench."""
    updates, gathers, lines = Found(), Found(), Found()
    for turn in range(turns):
        print(f"updates and scrapes, turn {turn + 1} of {turns}", flush=True)
        for name, words in programs.items():
            if name != BARE:
                turn_of(name, words, rounds, updates, gathers)
        ours(programs[OURS], rounds, lines)
    return updates, gathers, lines
