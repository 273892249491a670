"""The texts of a page, several boards behind one: those that test_growth.c expects, and those of one board and of 40 that `bench page` prints, of
bindings/c/bench. Each series once, families and children in order, by plain Python; and Prometheus' own parsers read them, a sample a line."""
import functools
import math
import re
import shutil
import sys

from shifted import parser
from started import Failed, Skipped, check, run

FILES = ("test_growth.c",)
TEXT = re.compile(r'"(# TYPE (?:(?:[^"\\]|\\.)*"\s*")*(?:[^"\\]|\\.)*)"[;)]')
TYPE = re.compile(r"# TYPE ([a-zA-Z_:][a-zA-Z0-9_:]*) (counter|gauge|histogram)")
HELP = re.compile(r"# HELP ([a-zA-Z_:][a-zA-Z0-9_:]*) (.+)")
SAMPLE = re.compile(r'([a-zA-Z_:][a-zA-Z0-9_:]*)(?:\{((?:\w+="(?:[^"\\]|\\[\\"n])*",?)+)\})? (-?[0-9.]+)')
LABEL = re.compile(r'(\w+)="((?:[^"\\]|\\[\\"n])*)"(,|$)')
OF_HISTOGRAM = ("_bucket", "_sum", "_count")
ESCAPES = {"\\\\": "\\", '\\"': '"', "\\n": "\n"}


def printed(bench, how):
    """The text of a page of one board, or of 40, by `bench`."""
    out, err, status = run(bench, "page", "0", how)
    check(status == 0, f"bench page 0 {how}: status {status}: {err.decode()[-500:]}")
    return out.decode()


def texts_of(root):
    """The texts that the tests of pages expect, as the sources spell them."""
    texts = []
    for file in FILES:
        spelled = TEXT.findall((root / "bindings/c" / file).read_text())
        check(spelled, f"{file} has the text of a page")
        texts += [re.sub(r'(?<!\\)"\s*"', "", it).encode().decode("unicode_escape") for it in spelled]
    return texts


@functools.lru_cache
def texts_by(bench):
    """The text of one board, and that of 40, whichever board a family is on."""
    texts = [printed(bench, "one"), printed(bench, "whole")]
    check(texts[1] == printed(bench, "spread"), "a page shows the same where children are on other boards")
    return texts


def labels_of(text):
    """The labels of a sample, as pairs."""
    labels, at = [], 0
    while at < len(text or ""):
        found = LABEL.match(text, at)
        check(found, f"{text} is a list of labels")
        labels.append((found[1], re.sub(r"\\.", lambda it: ESCAPES[it[0]], found[2])))
        at = found.end()
    return tuple(labels)


def families_of(text):
    """Each family of a text: its name, kind and samples, each of them a name, labels and a number."""
    families, helped = [], None
    check(text.endswith("\n"), "a text ends with a line feed")
    for line in text.split("\n")[:-1]:
        kind, told, sample = TYPE.fullmatch(line), HELP.fullmatch(line), SAMPLE.fullmatch(line)
        check(kind or told or sample, f"{line} is a line of a text")
        if told:
            helped = told[1]
        elif kind:
            check(helped in (None, kind[1]), f"the help of {helped} is before its type")
            families.append((kind[1], kind[2], []))
            helped = None
        else:
            check(families and helped is None, f"{line} is a sample of a family")
            families[-1][2].append((sample[1], labels_of(sample[2]), sample[3]))
    check(helped is None, f"a family has the help of {helped}")
    return families


def check_child(name, lines):
    """The lines of one child of a histogram: buckets with rising bounds, each cumulated, the last one of all; then the sum and the count."""
    buckets, rest = lines[:-2], lines[-2:]
    check(buckets and all(it[0] == f"{name}_bucket" and it[1][-1][0] == "le" for it in buckets), f"{name} has its buckets first: {lines}")
    check([it[0] for it in rest] == [f"{name}_sum", f"{name}_count"], f"{name} has its sum and count behind its buckets: {lines}")
    bounds, counts = [float(it[1][-1][1]) for it in buckets], [int(it[2]) for it in buckets]
    check(all(one < other for one, other in zip(bounds, bounds[1:])) and math.isinf(bounds[-1]), f"{name} has rising bounds: {bounds}")
    check(counts == sorted(counts) and counts[-1] == int(rest[1][2]), f"{name} has cumulated buckets: {counts}")


def values_of(sample, kind):
    """The label values of the child whose sample this is."""
    is_bucket = kind == "histogram" and sample[0].endswith("_bucket")
    return tuple(value.encode() for _, value in (sample[1][:-1] if is_bucket else sample[1]))


def check_family(name, kind, samples):
    """The children of a family, in strict order of their label values, and each with the lines of its kind."""
    names = [name + it for it in OF_HISTOGRAM] if kind == "histogram" else [name]
    check(samples and all(it[0] in names for it in samples), f"{name} has samples of its own: {samples}")
    children = []
    for sample in samples:
        values = values_of(sample, kind)
        if not children or children[-1][0] != values:
            children.append((values, []))
        children[-1][1].append(sample)
    order = [values for values, _ in children]
    check(all(one < other for one, other in zip(order, order[1:])), f"the children of {name} are in the order of their values: {order}")
    for _, lines in children:
        if kind == "histogram":
            check_child(name, lines)
        check(kind == "histogram" or len(lines) == 1, f"a child of {name} has one line: {lines}")


def check_text(text):
    """Families in strict byte order of their names, each with one type and at most one help, and each series once."""
    families = families_of(text)
    names = [name.encode() for name, _, _ in families]
    check(names and all(one < other for one, other in zip(names, names[1:])), f"families are in the order of their names: {names}")
    series = [(name, labels) for _, _, samples in families for name, labels, _ in samples]
    check(len(series) == len(set(series)), f"each series stands once in\n{text[:2000]}")
    for family in families:
        check_family(*family)
    return len(series)


def check_exact(texts):
    return sum(check_text(text) for text in texts)


def check_python(texts):
    text_string_to_metric_families = parser()
    for text in texts:
        families = list(text_string_to_metric_families(text))
        names = [family.name for family in families]
        types = [line for line in text.splitlines() if line.startswith("# TYPE ")]
        check(len(names) == len(set(names)) == len(types), f"Prometheus' parser for Python reads each family once: {names}")
        samples = [sample for family in families for sample in family.samples]
        lines = [line for line in text.splitlines() if not line.startswith("#")]
        check(len(samples) == len(lines), f"Prometheus' parser for Python reads a sample in each line of\n{text[:2000]}")
        series = {(sample.name, *sorted(sample.labels.items())) for sample in samples}
        check(len(series) == len(samples), f"Prometheus' parser for Python reads each series once:\n{text[:2000]}")
    return len(texts)


def check_promtool(texts):
    if not shutil.which("promtool"):
        raise Skipped("there is no promtool")
    for text in texts:
        out, err, status = run("promtool", "check", "metrics", given=text.encode())
        told = (out + err).decode()
        check("error while linting" not in told and status in (0, 3), f"promtool reads\n{text[:2000]}{told[:2000]}")
    return len(texts)


if __name__ == "__main__":
    import pathlib

    # (of a bench over `dirgwako16`, where its path is given, besides)
    found = texts_of(pathlib.Path(__file__).resolve().parent.parent) + [text for bench in sys.argv[1:] for text in texts_by(pathlib.Path(bench).resolve())]
    for it in (check_exact, check_python, check_promtool):
        try:
            print(it.__name__, it(found))
        except Skipped as why:
            print(it.__name__, "SKIPPED:", why)
        except Failed as why:
            sys.exit(f"{it.__name__}: {why}")
