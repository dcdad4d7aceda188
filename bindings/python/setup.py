"""Builds the package with the shared library beside its modules."""

import shutil
from pathlib import Path

from setuptools import setup
from setuptools.command.build_py import build_py

NAME = "libfullercoral.so"


class WithLibrary(build_py):
    """Copies the library from the repository's ``lib/``."""

    def run(self) -> None:
        super().run()
        library = Path(__file__).resolve().parents[2] / "lib" / NAME
        shutil.copy(library, Path(self.build_lib, "fullercoral", NAME))


setup(cmdclass={"build_py": WithLibrary})
