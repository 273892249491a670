"""A reader of texts in Prometheus' format 0.0.4, apart from the package's own: it goes through a line by its characters, and refuses what is none."""
from __future__ import annotations

ESCAPES = {"n": "\n", "\\": "\\", '"': '"'}


class NoText(Exception):
    """The text is not in the format."""


def check(is_so, what):
    if not is_so:
        raise NoText(what)


def _labels(line, at):
    """The labels behind the brace at this place, and the place behind them."""
    labels = {}
    while line[at] != "}":
        start = at
        while line[at].isalnum() or line[at] == "_":
            at += 1
        name = line[start:at]
        check(name and line[at : at + 2] == '="', line)
        at += 2
        value = ""
        while line[at] != '"':
            if line[at] == "\\":
                at += 1
                value += ESCAPES[line[at]]
            else:
                value += line[at]
            at += 1
        check(name not in labels, line)
        labels[name] = value
        at += 1
        if line[at] == ",":
            at += 1
            check(line[at] != "}", line)
    return labels, at + 1


def series_of(line):
    """Name, labels as sorted pairs, and the value as it is written."""
    at = 0
    while at < len(line) and line[at] not in "{ ":
        at += 1
    name, labels = line[:at], {}
    if line[at] == "{":
        labels, at = _labels(line, at + 1)
    check(name and line[at] == " " and " " not in line[at + 1 :], line)
    return name, tuple(sorted(labels.items())), line[at + 1 :]


def read(text):
    """All series of a text, by name and sorted labels, as floats. Each is there once, behind its family's type, and each family once."""
    check(text.endswith("\n") or not text, "a text ends with a line's end")
    found, types = {}, {}
    family = None
    for line in text.split("\n")[:-1]:
        if line.startswith("# TYPE "):
            _, _, family, kind = line.split(" ")
            check(family not in types, f"{family} is there twice")
            types[family] = kind
        elif line.startswith("# HELP "):
            family = line.split(" ", 3)[2]
            check(family not in types, f"{family} is there twice")
        else:
            name, labels, value = series_of(line)
            suffixes = ("_bucket", "_sum", "_count") if types[family] == "histogram" else ("",)
            check(name in {family + it for it in suffixes}, f"{name} is not of {family}")
            check((name, labels) not in found, f"{line} is there twice")
            found[name, labels] = float(value)
    return found
