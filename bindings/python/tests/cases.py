"""What the tests share."""
import unittest

import dirgwako
from dirgwako import CollectorRegistry, generate_latest
from tests.texts import read

EMPTY, BAD_BYTE, TOO_LONG, RESERVED, EDGE_BLANK = 1, 2, 3, 4, 5
DUPLICATE, LE, TOO_MANY_LABELS, BAD_BOUNDS = 7, 8, 9, 10
TOO_LARGE, WRONG_REGISTRY, CLASH, LABEL_COUNT, FULL, TOO_MANY_FAMILIES = 12, 16, 19, 21, 22, 23
LONG_LIST, TOO_MANY_DIGITS, TOO_MANY_CHILDREN, TWO_BOARDS = 33, 43, 46, 47

# The most that one number may be.
MOST = 2**48 - 1


class Case(unittest.TestCase):
    """A test with a registry of its own."""

    def setUp(self):
        self.registry = CollectorRegistry()

    def series(self):
        """All series by name and sorted labels, read by the tests' own reader."""
        return read(generate_latest(self.registry).decode())

    def value(self, name, **labels):
        return self.series().get((name, tuple(sorted(labels.items()))))

    def refused(self, number, metric, call, *args, **words):
        """The call raises a refusal of this number and metric, which says what was refused."""
        with self.assertRaises(dirgwako.Refusal) as caught:
            call(*args, **words)
        self.assertEqual((caught.exception.number, caught.exception.metric), (number, metric))
        self.assertIn(f"(refusal {number})", str(caught.exception))
        self.assertIsInstance(caught.exception, ValueError)
