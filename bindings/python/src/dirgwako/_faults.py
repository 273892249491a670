"""What is raised."""
from __future__ import annotations


class Refusal(ValueError):
    """The library refused, and nothing was counted. `number` is that of docs/REFUSALS.md, `metric` the name of the metric, where there is one."""

    def __init__(self, number: int, cause: str, metric: str | None = None) -> None:
        super().__init__(number, cause, metric)
        self.number = number
        self.cause = cause
        self.metric = metric

    def __str__(self) -> str:
        of = f"{self.metric}: " if self.metric else ""
        return f"{of}{self.cause} (refusal {self.number})"


class NotWhole(ValueError):
    """A number that is no whole count of the metric's units, as 0.5 of a counter of jobs. Nothing was counted."""
