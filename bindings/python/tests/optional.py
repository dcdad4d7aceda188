"""numpy and pandas, or None for one that is not installed."""

from __future__ import annotations

try:
    import numpy
except ImportError:
    numpy = None  # type: ignore[assignment]
try:
    import pandas
except ImportError:
    pandas = None  # type: ignore[assignment]

__all__ = ["numpy", "pandas"]
