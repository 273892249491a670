"""The rows of numbers that a text shows shifted: each is the exact decimal, and Prometheus' own parsers read it as the float nearest to that."""
import decimal
import importlib
import importlib.util
import re
import shutil
import sys

from started import Failed, Skipped, check, run

# Where Debian's packages for Python are, which a Python that is before Debian's on the path does not look into.
DEBIAN = "/usr/lib/python3/dist-packages"
# Digits, a number, and how it is shown: the rows of the tests in C, and those of the greatest number, which no threads have counted.
ROWS = {
    "bindings/c/test_texts.c": re.compile(r'^    \{(\d), (\d+), "([^"]*)"\},$', re.M),
    "crates/library_tests/src/tests/texts.rt": re.compile(r'^    \((\d), (u64::MAX), b"([^"]*)"\),$', re.M),
}
LITERALS = re.compile(r'"(?:[^"\\\n]|\\.)*"(?:\s+"(?:[^"\\\n]|\\.)*")*')


def rows_of(root):
    rows = []
    for path, row in ROWS.items():
        found = row.findall((root / path).read_text())
        check(len(found) > 2, f"{path} has rows")
        rows += [(int(digits), 2**64 - 1 if number == "u64::MAX" else int(number), shown) for digits, number, shown in found]
    return rows


def texts_of(root):
    """Whole texts: the rows, each of them a counter, those that the tests in C expect, and what the example prints."""
    texts = [f"# TYPE a counter\na {shown}\n" for _, _, shown in rows_of(root)]
    for literals in LITERALS.findall((root / "bindings/c/test_texts.c").read_text()):
        text = "".join(re.findall(r'"((?:[^"\\]|\\.)*)"', literals)).encode().decode("unicode_escape")
        if re.match("# (TYPE|HELP) .*\n$", text, re.S) and "%" not in text and text.count("\n") > 1:
            texts.append(text)
    check(sum("histogram" in text for text in texts) > 3 and sum("gauge" in text for text in texts) > 2, "the tests in C have whole texts")
    return texts + [(root / "crates/example_service/stdout").read_text()]


def check_exact(root):
    decimal.getcontext().prec = 60
    for digits, number, shown in rows_of(root):
        exact = decimal.Decimal(number).scaleb(-digits)
        check(decimal.Decimal(shown) == exact, f"{number} shifted by {digits} is {exact}, and not {shown}")
        check("." not in shown or shown[-1] not in "0.", f"{shown} ends with no zero that could be left out")
    return len(rows_of(root))


def parser():
    """Prometheus' own parser for Python, of this Python or of Debian's."""
    if not importlib.util.find_spec("prometheus_client") and DEBIAN not in sys.path:
        sys.path.append(DEBIAN)
    try:
        return importlib.import_module("prometheus_client.parser").text_string_to_metric_families
    except ImportError as why:
        raise Skipped("there is no Python client of Prometheus") from why


def check_python(root):
    text_string_to_metric_families = parser()
    for digits, number, shown in rows_of(root):
        (family,) = text_string_to_metric_families(f"# TYPE a counter\na {shown}\n")
        value = family.samples[0].value
        nearest = float(decimal.Decimal(number).scaleb(-digits))
        check(value == nearest, f"Prometheus' parser for Python reads {shown} as {value}, where {nearest} is nearest")
    for text in texts_of(root):
        samples = [sample for family in text_string_to_metric_families(text) for sample in family.samples]
        lines = [line for line in text.splitlines() if not line.startswith("#")]
        check(len(samples) == len(lines), f"Prometheus' parser for Python reads a sample in each line of\n{text}")
    return len(rows_of(root)) + len(texts_of(root))


def check_promtool(root):
    if not shutil.which("promtool"):
        raise Skipped("there is no promtool")
    for text in texts_of(root):
        out, err, status = run("promtool", "check", "metrics", given=text.encode())
        told = (out + err).decode()
        check("error while linting" not in told and status in (0, 3), f"promtool reads\n{text}{told}")
    out, err, status = run("promtool", "check", "metrics", given=(root / "crates/example_service/stdout").read_bytes())
    check(status == 0, f"promtool finds nothing amiss in the example's metrics: {(out + err).decode()}")
    return len(texts_of(root)) + 1


if __name__ == "__main__":
    import pathlib

    for it in (check_exact, check_python, check_promtool):
        try:
            print(it.__name__, it(pathlib.Path(__file__).resolve().parent.parent))
        except Skipped as why:
            print(it.__name__, "SKIPPED:", why)
        except Failed as why:
            sys.exit(f"{it.__name__}: {why}")
