"""The version of the package."""

from __future__ import annotations

import os
from importlib.metadata import PackageNotFoundError, version


def _version() -> str:
    """Returns the version of the repository that the package lies in, or of what is installed."""
    path = os.path.join(os.path.dirname(os.path.abspath(__file__)), "..", "..", "VERSION")
    if os.path.isfile(path):
        with open(path, encoding="utf-8") as file:
            return file.read().strip()
    try:
        return version("bsi")
    except PackageNotFoundError:
        return "unknown"


__version__ = _version()
