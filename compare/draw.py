"""Draws the two pictures, from what standard input says of each program, by Debian's matplotlib: `draw.py TORN.svg DIFFERENCE.svg`."""
import io
import json
import re
import sys

import matplotlib

matplotlib.use("Agg")
matplotlib.rcParams.update({
    "svg.fonttype": "none", "svg.hashsalt": "dirgwako", "font.family": "sans-serif", "font.sans-serif": ["DejaVu Sans", "Verdana", "Arial"], "font.size": 11,
    "axes.spines.top": False, "axes.spines.right": False,
})
from matplotlib import pyplot  # noqa: E402

OURS, OTHERS, TRUTH = "#1b7837", "#b2182b", "#a6dba0"
TICKS = [-10_000, -100, 0, 100, 10_000]


def color(it):
    return OURS if it["is_ours"] else OTHERS


def shorter(text):
    """An SVG without indentation, and with two decimals."""
    return re.sub(r"\d+\.\d{3,}", lambda it: f"{float(it[0]):.2f}", re.sub(r"\n\s+", "\n", text))


def save(figure, path):
    figure.patch.set_facecolor("white")
    if path.endswith(".svg"):
        made = io.StringIO()
        figure.savefig(made, format="svg", metadata={"Date": None, "Creator": None})
        with open(path, "w", encoding="utf-8") as picture:
            picture.write(shorter(made.getvalue()))
    else:
        figure.savefig(path)
    pyplot.close(figure)


def draw_torn(programs, path):
    """The share of torn scrapes, a bar for each program."""
    figure, axes = pyplot.subplots(figsize=(8, 0.4 * len(programs) + 0.9), layout="constrained")
    for place, it in enumerate(programs):
        share = 100 * it["share"]
        axes.barh(place, share, height=0.6, color=color(it))
        axes.text(share + 1, place, f"{share:.1f} %" if it["torn"] else "none", va="center", color=color(it))
    axes.set_yticks(range(len(programs)), [it["name"] for it in programs])
    axes.invert_yaxis()
    axes.set_xlim(0, 112)
    axes.set_xticks(range(0, 101, 25))
    axes.set_xlabel("scrapes in 100 whose numbers never stood together")
    save(figure, path)


def stems(values):
    """A line from 0 to each value, all of them one path."""
    return [it for place in range(len(values)) for it in (place, place, None)], [it for value in values for it in (0, value, None)]


def draw_differences(programs, path):
    """The difference of two counters as a scraper saw it, a strip for each program, all to one scale."""
    size = (8, 1.05 * len(programs) + 0.6)
    figure, strips = pyplot.subplots(len(programs), 1, figsize=size, sharex=True, sharey=True, layout="constrained", squeeze=False)
    for axes, it in zip(strips[:, 0], programs):
        seen = it["differences"]
        axes.set_yscale("symlog", linthresh=1, linscale=0.6)
        axes.axhspan(0, 1, color=TRUTH, linewidth=0)
        axes.plot(*stems(seen), linewidth=2, color=color(it))
        axes.set_title(f"{it['name']}: {min(seen):,.0f} to {max(seen):,.0f}", loc="left", fontsize=11, color=color(it))
        axes.set_ylim(-200_000, 200_000)
        axes.set_yticks(TICKS, [f"{tick:,}" for tick in TICKS], fontsize=9)
        axes.tick_params(bottom=False)
        axes.minorticks_off()
    figure.supxlabel("a - b in a hundred scrapes of five runs; whatever the moment, it is 0 or 1", fontsize=11)
    save(figure, path)


if __name__ == "__main__":
    found = json.load(sys.stdin)
    draw_torn(found, sys.argv[1])
    draw_differences(found, sys.argv[2])
