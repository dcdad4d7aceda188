"""Fullercoral: a table whose group-by answers stay exact while it is edited, larger than memory.

>>> import fullercoral as fc
>>> table = fc.Table({"sku": str, "quantity": int}, local="1MB")
>>> sold = table.watch(fc.totals("quantity", by="sku"))
>>> table.extend([("bread", 5), ("rye", 3), ("bread", 2)])
range(0, 3)
>>> table.set(1, "quantity", 9)
>>> sold["rye"]
Total(count=1, sum=9)
>>> table.close()
"""

from . import errors
from .aggregates import MinMax, Spec, Total, Watched, extrema, totals
from .column import Batch, Column
from .csv_files import CsvError, read_csv, scaled
from .engines import S3, Engine, Files, Memory, Redis
from .errors import EngineError, FarFault, Refused
from .limits import Limits
from .picture import Map
from .policy import Policy
from .schema import NA, Schema
from .table import Table

__version__ = "0.1.0"

__all__ = [
    "NA",
    "S3",
    "Batch",
    "Column",
    "CsvError",
    "Engine",
    "EngineError",
    "FarFault",
    "Files",
    "Limits",
    "Map",
    "Memory",
    "MinMax",
    "Policy",
    "Redis",
    "Refused",
    "Schema",
    "Spec",
    "Table",
    "Total",
    "Watched",
    "errors",
    "extrema",
    "read_csv",
    "scaled",
    "totals",
]
