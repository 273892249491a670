"""What goes round a block, or round each call of a function."""
from __future__ import annotations

import functools
import inspect
from types import TracebackType
from typing import TYPE_CHECKING, Any, Callable, TypeVar

if TYPE_CHECKING:
    from ._dirgwako import Counter, Gauge, Timer as _Timer
else:
    _Timer = object

F = TypeVar("F", bound=Callable[..., Any])
T = TypeVar("T", bound="Around")
Exceptions = type[BaseException] | tuple[type[BaseException], ...]


class Around:
    """A context manager that decorates a function, too: each call has one of its own, so a function may call itself. Of a coroutine function it lasts until
    that has ended."""

    __slots__ = ()

    def __call__(self, function: F) -> F:
        if inspect.iscoroutinefunction(function):

            @functools.wraps(function)
            async def awaited(*args: Any, **words: Any) -> Any:
                with self._another():
                    return await function(*args, **words)

            return awaited  # type: ignore[return-value]

        @functools.wraps(function)
        def wrapped(*args: Any, **words: Any) -> Any:
            with self._another():
                return function(*args, **words)

        return wrapped  # type: ignore[return-value]

    def _another(self) -> Any:
        return self


class TimerCalls(Around, _Timer):
    """Takes the time of a block, or of each call of a function."""

    __slots__ = ()

    def _another(self) -> TimerCalls:
        return type(self)(self._metric)


class ExceptionCounter(Around):
    """Counts the exceptions that leave a block."""

    __slots__ = ("_counter", "_counted")

    def __init__(self, counter: Counter, counted: Exceptions) -> None:
        self._counter = counter
        self._counted = counted

    def __enter__(self) -> None:
        pass

    def __exit__(self, _kind: type[BaseException] | None, raised: BaseException | None, _trace: TracebackType | None) -> None:
        if isinstance(raised, self._counted):
            self._counter.inc()


class InprogressTracker(Around):
    """Raises a gauge by one while a block runs."""

    __slots__ = ("_gauge",)

    def __init__(self, gauge: Gauge) -> None:
        self._gauge = gauge

    def __enter__(self) -> None:
        self._gauge.inc()

    def __exit__(self, *_raised: object) -> None:
        self._gauge.dec()
