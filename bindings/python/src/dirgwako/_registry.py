"""Registries of one process."""
from __future__ import annotations

from . import _dirgwako
from ._calls import RegistryCalls


class CollectorRegistry(RegistryCalls, _dirgwako.Registry):
    """Metrics, and scrapes of them in which all series of a board are of one moment."""


REGISTRY = CollectorRegistry()
