"""What pip calls: setuptools, where it is there, else it is said what is missing."""
import importlib.util
import sys

_missing = [] if importlib.util.find_spec("setuptools") else ["setuptools"]
if not importlib.util.find_spec("wheel") and (_missing or not importlib.util.find_spec("setuptools.command.bdist_wheel")):
    _missing.append("wheel")  # which setuptools has within from 70.1 on
if _missing:
    sys.exit(
        f"dirgwako: {sys.executable} lacks {' and '.join(_missing)}, and cannot build the package: install what it lacks (Debian: python3-setuptools and "
        "python3-wheel), or build by another Python, and install its wheel: one serves all Pythons from 3.10 on"
    )

from setuptools.build_meta import *  # noqa: E402,F401,F403
