"""The page of results."""
import datetime
import os
import pathlib
import platform
import time

from compare.loads import CONNECTIONS
from compare.programs import BARE, GO, OURS, PEER_PYTHON, RUST, missing, versions
from compare.series import HOWS, as_peer
from compare.speeds import SIZES, TALLY, UPDATES, Turns

PEERS = (RUST, GO, PEER_PYTHON)
APART, TOGETHER = f"{OURS}, each change a version", f"{OURS}, a round one version"


def processor():
    with open("/proc/cpuinfo", encoding="utf-8") as lines:
        names = [line.partition(":")[2].strip() for line in lines if line.startswith("model name")]
    return names[0] if names else platform.machine()


def cores():
    return len(os.sched_getaffinity(0))


def short(number):
    """A number with three digits that tell."""
    if number >= 1_000:
        return f"{round(number, 3 - len(str(int(number)))):,.0f}"
    return f"{number:.1f}" if number < 100 else f"{number:.0f}"


def which(threads):
    """The number of all turns that stands first, and that ratios are of."""
    return Turns.best if threads == 1 else Turns.median


def told(found, unit=1, threads=1):
    """The best and the median of all turns, as `A (B)`, or as `A` where both are spelled alike; a dash where nothing was measured. Of four
    threads that count the median stands first."""
    if not found.all:
        return "-"
    both = [short(it / unit) for it in (found.best(), found.median())]
    one, other = both if which(threads) is Turns.best else reversed(both)
    return one if one == other else f"{one} ({other})"


def ratio(one, other, of=Turns.best):
    """How many times the best of one is that of another, or the median."""
    if not one.all or not other.all or of(other) == 0:
        return "-"
    times = of(one) / of(other)
    return f"{times:.2f}" if times < 10 else f"{times:.0f}"


def row(*cells):
    return "| " + " | ".join(str(it) for it in cells) + " |"


def head(*cells):
    return [row(*cells), "|" + "---|" * len(cells)]


def ticks():
    """How many ticks of all cores the system has counted, and how many of them idle."""
    counted = [int(it) for it in pathlib.Path("/proc/stat").read_text().splitlines()[0].split()[1:9]]
    return sum(counted), counted[3] + counted[4]


def busy(seconds=2):
    """The share of all cores' time that is busy for so long."""
    (all_before, idle_before) = ticks()
    time.sleep(seconds)
    (all_after, idle_after) = ticks()
    return 1 - (idle_after - idle_before) / max(all_after - all_before, 1)


def machine(load, is_quick):
    """What was measured, where and when."""
    lines = [
        "# One run of the comparison",
        "",
        "`python3 -B -m compare.run` makes this page, and the pictures [torn.svg](../docs/torn.svg) and [difference.svg](../docs/difference.svg).",
        "What each line measures is told in [README.md](README.md). Two numbers, as `A (B)`, are the best and the median of the turns of this",
        "run: the best, the least of times and the most of rates, comes nearest to a machine whose host nobody else uses. Of four threads that",
        "count the median stands first: where a busy host runs them one behind the other they do not disturb each other, and seem fast. Ratios",
        "are of the number that stands first.",
        "",
        f"{datetime.date.today()}: {processor()}, {cores()} cores, {platform.system()} {platform.release()}; {load:.0%} of them busy in the two seconds before the run.",
    ]
    if is_quick:
        lines += ["", "A quick run, with few rounds: these are no figures to tell."]
    if cores() < 4:
        lines += ["", f"With {cores()} cores, lines of four threads share them, and `wrk` takes one from what it asks: these are no figures to tell."]
    if load > 0.05:
        lines += ["", "Others used the machine too: these are no figures to tell."]
    lines += ["", *head("what", "version"), *(row(*it) for it in versions()), ""]
    for line in missing().values():
        lines += [line, ""]
    return lines


def torn_lines(torn):
    lines = ["## Torn scrapes", ""]
    lines += head("scrapes while one thread counts without rest", "scrapes", "torn", "share", "of them torn within the histogram", "a - b, in truth 0 or 1", "given up, as 503")
    for name, found in torn.items():
        if found.differences:
            low, high = min(found.differences), max(found.differences)
            lines.append(row(name, f"{found.scrapes:,}", f"{found.torn:,}", f"{100 * found.share():.1f} %", f"{found.torn_histograms:,}", f"{low:,.0f} to {high:,.0f}", f"{found.given_up:,}"))
        else:
            lines.append(row(name, 0, "-", "-", "-", "-", f"{found.given_up:,}"))
    return lines + [""]


def update_lines(updates):
    lines = ["## Updates, in nanoseconds", ""]
    lines += head("what", "threads", OURS, "in a tally", *PEERS, f"{OURS} to {RUST}", f"in a tally to {RUST}")
    for what, name in UPDATES:
        for threads in (1, 4):
            one = {who: updates[who, name, threads] for who in (OURS, TALLY, *PEERS)}
            ratios = (ratio(one[it], one[RUST], which(threads)) for it in (OURS, TALLY))
            lines.append(row(what, threads, *(told(it, threads=threads) for it in one.values()), *ratios))
    return lines + [""]


def gather_lines(gathers, texts):
    lines = ["## A scrape with its text, in microseconds", ""]
    lines += head("of", OURS, *PEERS, f"{OURS} to {RUST}")
    for size, what in SIZES.items():
        each = {who: gathers[who, size] for who in (OURS, *PEERS)}
        lines.append(row(what, *(told(it, 1_000) for it in each.values()), ratio(each[OURS], each[RUST])))
    lines += ["", *head("the text", *texts["small"]), *(text_row(SIZES[size], each) for size, each in texts.items())]
    return lines + [""]


def text_row(what, each):
    """The bytes of each text, and whether all series have the numbers that ours have."""
    def cell(found):
        length, series, differing = found
        return f"{length:,} bytes; {'the same numbers' if differing == 0 else f'{differing} of {series} series differ'}"
    return row(what, *(cell(it) for it in each.values()))


def series_rows(found, how, what):
    """A row for each library whose series lie so."""
    hows = [(OURS, f"{OURS}, 16 threads", how)]
    if how != "spread":
        hows += [(name, name, how) for name in PEERS]
    rows = []
    for name, who, at in hows:
        each = {line: found[name, at, line] for line in ("register", "gather", "inc", "inc_in_turn", "memory")}
        if each["gather"].all:
            times = ratio(each["gather"], found[RUST, as_peer(how), "gather"])
            told_each = (told(each["register"], 1_000_000), told(each["gather"], 1_000_000), times, told(each["inc"]), told(each["inc_in_turn"]), told(each["memory"], 1_024))
            rows.append(row(what, who, *told_each))
    return rows


def series_lines(found, texts):
    """Pages of several boards beside other libraries with as many series."""
    lines = ["## A page of several boards", ""]
    lines += head("of", "by", "registered, ms", "a scrape with its text, ms", f"times {RUST}'s", "an increment, ns", "increments in turn, ns", "memory at most, MB")
    for how, what in HOWS.items():
        lines += series_rows(found, how, what)
    lines += ["", *head("of the page", "a read of each board by itself, without a text, us")]
    lines += [row(what, told(found[OURS, how, "reads"], 1_000)) for how, what in HOWS.items()]
    lines += ["", *head("the text", *texts["one"]), *(text_row(HOWS[how], each) for how, each in texts.items())]
    return lines + [""]


def load_lines(rates, errors):
    names = [name for name in (OURS, *PEERS, BARE) if (name, "small", 1) in rates]
    if not names:
        return []
    lines = ["## Requests a second, one a connection", ""]
    lines += head("of", "at once", *names, f"{OURS} to {RUST}", f"{OURS} to {BARE}")
    for size, what in SIZES.items():
        for connections in CONNECTIONS:
            each = {name: rates[name, size, connections] for name in names}
            ratios = (ratio(each[OURS], rates[other, size, connections]) for other in (RUST, BARE))
            lines.append(row(what, connections, *(told(it) for it in each.values()), *ratios))
    failed = [f"{name} {count:,}" for name, count in errors.items() if count]
    return lines + ["", f"Requests that failed: {', '.join(failed) or 'none'}.", ""]


def memory_lines(memory):
    lines = ["## Memory of the serving process at most, in megabytes", ""]
    names = list(dict.fromkeys(name for name, _size in memory))
    lines += head("of", *names)
    for size, what in SIZES.items():
        lines.append(row(what, *(f"{memory[name, size] / 1_024:.1f}" for name in names)))
    return lines + [""]


def all_lines(lines):
    """What the bench has printed, line by line."""
    told_lines = head("measurement", "of", "nanoseconds", "times its floor")
    for name, of in dict.fromkeys((name, of) for name, of, _what in lines):
        threads = 4 if "busy_4" in name else 1
        times = ratio(lines[name, of, "ns"], lines[name, of, "floor"], which(threads))
        told_lines.append(row(f"`{name}`", of, told(lines[name, of, "ns"], threads=threads), times))
    return ["## Each line of `bench`", "", "What they are is told in [MEASURING.md](../docs/MEASURING.md).", "", *told_lines]


def page(load, torn, speeds, series, loads, packages, is_quick):
    """The whole page."""
    (updates, gathers, lines), (rates, errors, memory, texts) = speeds, loads
    parts = machine(load, is_quick) + torn_lines(torn) + update_lines(updates) + gather_lines(gathers, texts) + series_lines(*series)
    parts += load_lines(rates, errors) + memory_lines(memory) + packages + all_lines(lines)
    return "\n".join(parts).rstrip() + "\n"
