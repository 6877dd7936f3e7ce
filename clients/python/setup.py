"""Adds to pyproject.toml what that can't say: the wheel holds a shared object, so it is for one platform and any Python 3; and it holds the
web page, which the repository keeps outside the package. Setuptools works in a temporary folder, so nothing is left next to this file."""
from __future__ import annotations

import atexit
import importlib
import shutil
import sys
import tempfile
from pathlib import Path
from typing import Any, Tuple

setuptools: Any = importlib.import_module('setuptools')
HERE = Path(__file__).resolve().parent


def bdist_wheel() -> Any:
    """Returns the command that makes a wheel. Setuptools has it from 70.1 on, and before that the package wheel."""
    for name in ('setuptools.command.bdist_wheel', 'wheel.bdist_wheel'):
        try:
            return importlib.import_module(name).bdist_wheel
        except ImportError:
            continue
    sys.exit('geo-exact: setuptools before 70.1 needs the package wheel (Debian: python3-wheel)')


Distribution: Any = setuptools.Distribution
BdistWheel: Any = bdist_wheel()
BuildPy: Any = importlib.import_module('setuptools.command.build_py').build_py


class WithLibrary(Distribution):  # type: ignore[misc]
    def has_ext_modules(self) -> bool:
        return True


class Wheel(BdistWheel):  # type: ignore[misc]
    def get_tag(self) -> Tuple[str, str, str]:
        return 'py3', 'none', super().get_tag()[2]


class WithPage(BuildPy):  # type: ignore[misc]
    """Copies the page from the repository. A source archive has it in the package."""

    def run(self) -> None:
        super().run()
        self.mkpath(f'{self.build_lib}/geo_exact/web')
        for path in HERE.parent.glob('web/*.*'):
            self.copy_file(str(path), f'{self.build_lib}/geo_exact/web/{path.name}')


if not (HERE / 'geo_exact' / 'libgeo_c.so').exists():
    sys.exit('geo-exact: there is no library geo_exact/libgeo_c.so. In a clone of the repository, clients/python/build makes it')
made = tempfile.mkdtemp()
atexit.register(shutil.rmtree, made, ignore_errors=True)
setuptools.setup(
    distclass=WithLibrary, cmdclass={'bdist_wheel': Wheel, 'build_py': WithPage},
    options={'build': {'build_base': made}, 'egg_info': {'egg_base': made}},
)
