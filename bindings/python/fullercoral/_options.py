"""Errors for unknown options and for packages that are not installed."""

from __future__ import annotations

from difflib import get_close_matches
from importlib import import_module
from typing import Any, Iterable, Sequence

# The names that pandas and others use for the options of `read_csv`.
_OTHER_NAMES = {
    "sep": "delimiter",
    "dtype": "types",
    "dtypes": "types",
    "usecols": "columns",
    "na_values": "missing",
    "null_values": "missing",
    "converters": "convert",
    "has_header": "header",
    "memory": "local",
}


def refuse_unknown(call: str, given: Iterable[str], known: Sequence[str]) -> None:
    """Refuses an unknown option, and suggests the right name."""
    for name in given:
        if name not in known:
            meant = _OTHER_NAMES.get(name)
            if meant not in known:
                meant = next(iter(get_close_matches(name, known, 1)), None)
            advice = f"use {meant}" if meant else f"its options are {', '.join(known)}"
            raise TypeError(f"{call} has no option {name}; {advice}")


def needed(package: str, call: str) -> Any:
    """Imports a package that a call needs; the error for a missing one names the call."""
    try:
        return import_module(package)
    except ModuleNotFoundError as error:
        said = f"{call} needs {package}, and {error.name} is not installed; install it"
        raise ModuleNotFoundError(said, name=error.name) from None
