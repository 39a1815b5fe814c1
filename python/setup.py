"""The wheel has the library for C where `bentzolu/libbentzolu.so` is there, and is of this platform then (`site/make wheel`)."""
from __future__ import annotations

import pathlib
from typing import Any

from setuptools import Distribution, setup

HAS_LIBRARY = pathlib.Path(__file__).resolve().with_name("bentzolu").joinpath("libbentzolu.so").exists()


def commands() -> dict[str, Any]:
    """What makes a wheel for any Python 3 of this platform."""
    try:
        from wheel.bdist_wheel import bdist_wheel
    except ImportError:
        from setuptools.command.bdist_wheel import bdist_wheel

    class OfPlatform(bdist_wheel):  # type: ignore[misc]
        def get_tag(self) -> tuple[str, str, Any]:
            return "py3", "none", super().get_tag()[2]

    return {"bdist_wheel": OfPlatform}


class WithLibrary(Distribution):  # type: ignore[misc]
    def has_ext_modules(self) -> bool:
        return True


if HAS_LIBRARY:
    setup(package_data={"bentzolu": ["libbentzolu.so"]}, cmdclass=commands(), distclass=WithLibrary)
else:
    setup()
