"""Which Pythons the extension is for."""
from __future__ import annotations

import sysconfig


def refuse_free_threaded() -> None:
    """One recorder counts for all threads, which only the GIL keeps apart."""
    if sysconfig.get_config_var("Py_GIL_DISABLED"):
        raise ImportError("dirgwako needs a Python with the GIL, and this is a free-threaded build: its threads would use one recorder at once")
