"""Runs the examples of docstrings, README.md and docs/TUTORIAL.md."""

from __future__ import annotations

import doctest
import importlib
import os
import pkgutil
import tempfile
import unittest
from pathlib import Path
from typing import Any

import fullercoral as fc

PACKAGE = Path(__file__).resolve().parents[1]


def _begin(test: doctest.DocTest) -> None:
    test.globs["table"] = fc.Table({"sku": str, "quantity": int}, local="1MB")
    test.globs.update(fc=fc, totals=fc.totals, extrema=fc.extrema)


def _end(test: doctest.DocTest) -> None:
    test.globs["table"].close()


def load_tests(loader: unittest.TestLoader, tests: unittest.TestSuite, pattern: Any) -> Any:
    for module in pkgutil.iter_modules(fc.__path__, "fullercoral."):
        if not module.name.endswith("__main__"):
            found = importlib.import_module(module.name)
            suite = doctest.DocTestSuite(found, setUp=_begin, tearDown=_end)
            tests.addTests(suite)
    tests.addTests(doctest.DocTestSuite(fc))
    return tests


class Pages(unittest.TestCase):
    def setUp(self) -> None:
        folder, before = tempfile.TemporaryDirectory(), os.getcwd()
        os.chdir(folder.name)
        self.addCleanup(folder.cleanup)
        self.addCleanup(os.chdir, before)

    def run_page(self, page: Path) -> None:
        failed, tried = doctest.testfile(str(page), module_relative=False)
        self.assertEqual(failed, 0)
        self.assertGreater(tried, 10)

    def test_the_tutorial(self) -> None:
        self.run_page(PACKAGE.parents[1] / "docs" / "TUTORIAL.md")

    def test_the_readme(self) -> None:
        self.run_page(PACKAGE / "README.md")


class Names(unittest.TestCase):
    def test_all_that_is_exported_has_a_docstring(self) -> None:
        for name in fc.__all__:
            with self.subTest(name=name):
                self.assertTrue(getattr(fc, name).__doc__ or name == "NA")

    def test_public_methods_have_docstrings(self) -> None:
        for kind in (fc.Table, fc.Column, fc.Watched, fc.Files, fc.Redis, fc.S3, fc.Limits, fc.Map):
            for name in dir(kind):
                if not name.startswith("_") and callable(getattr(kind, name)):
                    with self.subTest(kind=kind.__name__, name=name):
                        self.assertTrue(getattr(kind, name).__doc__)
