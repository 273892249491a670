"""Runs the same work over Dirgwako and other client libraries, side by side, and writes results.md and two pictures.

`python3 -B -m compare.run [--quick]`: the whole in some minutes. With `--quick` each measurement takes a second or less, and all goes to
compare/out/, so that no figure of it is taken for one. The program over Dirgwako is bindings/c/bench, over bindings/out, which `rt` proves and
builds where it is older than its sources. It installs nothing: what is missing is left out, and told.
"""
import argparse
import json
import os
import signal
import sys

from checks.started import Failed, check, end_all, run
from compare import loads, packages, programs, series, speeds, table, torn


# In so many runs scrapes are taken: a library may read its series in another order in each.
TURNS = 5


def interrupted(number, _frame):
    """Ends all that was started."""
    end_all()
    print("interrupted: all that was started is ended, and no page was written", file=sys.stderr)
    os._exit(128 + number)


def torn_scrapes(started, wanted):
    """What is found of each program's scrapes, a fifth of them in each of five runs, by turns."""
    found, each = {}, wanted // TURNS
    for turn in range(TURNS):
        print(f"torn scrapes, turn {turn + 1} of {TURNS}", flush=True)
        for name, words in started.items():
            more = [*words, "torn", each + 50]
            if name == programs.OURS:
                runs = [(table.APART, [*more, "apart"], False), (table.TOGETHER, [*more, "together"], True)]
            else:
                runs = [(name, more, False)]
            for what, line, is_together in runs:
                found.setdefault(what, torn.Torn()).add(torn.measure(line, each, is_together))
    return found


def draw(found, where):
    """Has the pictures drawn, of all that was scraped."""
    shown = [
        {"name": name, "is_ours": name.startswith(programs.OURS), "share": it.share(), "torn": it.torn, "differences": it.differences[:: max(len(it.differences) // 100, 1)][:100]}
        for name, it in found.items()
        if it.differences
    ]
    (programs.OUT / "pictures.json").write_text(json.dumps(shown))
    pictures = [where / "torn.svg", where / "difference.svg"]
    out, err, status = run(programs.PYTHON, programs.HERE / "draw.py", *pictures, given=json.dumps(shown).encode())
    check(status == 0, f"the pictures are not drawn:\n{(out + err).decode()[-2000:]}")
    return pictures


def asked():
    words = argparse.ArgumentParser(description="The same work over Dirgwako and other client libraries.")
    words.add_argument("--quick", action="store_true", help="a second or less for each measurement; writes to compare/out/")
    return words.parse_args()


def compare(how):
    """Measures all, and writes it."""
    lacks, load = programs.missing(), table.busy()
    for line in lacks.values():
        print(line, flush=True)
    if table.cores() < 4:
        print(f"this machine has {table.cores()} cores: lines of four threads, and of requests, are no figures to tell", flush=True)
    started = programs.build_all(lacks)
    scrapes, rounds, turns, loaded_turns = (500, 20_000, 1, 1) if how.quick else (5_000, 500_000, 8, 5)
    found = torn_scrapes(started, scrapes)
    measured = speeds.measure(started, rounds, turns)
    paged = series.measure(started, 3 if how.quick else 100, turns)
    loaded = loads.measure(started, 1, loaded_turns, "requests a second" not in lacks)
    beside = packages.measure(lacks, how.quick)
    page = programs.OUT / "results.md" if how.quick else programs.HERE / "results.md"
    page.write_text(table.page(load, found, measured, paged, loaded, packages.lines(beside), how.quick))
    written = [page]
    if "the pictures" not in lacks:
        written += draw(found, programs.OUT if how.quick else programs.ROOT / "docs")
    print("written:", *(os.path.relpath(it) for it in written))


def main():
    for number in (signal.SIGHUP, signal.SIGINT, signal.SIGTERM):
        signal.signal(number, interrupted)
    try:
        compare(asked())
    except (Failed, OSError, ValueError, KeyError) as why:
        print(f"failed: {why!r}" if isinstance(why, (ValueError, KeyError)) else f"failed: {why}", file=sys.stderr)
        return 1
    return 0


if __name__ == "__main__":
    sys.exit(main())
