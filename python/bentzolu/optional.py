"""Packages that this one can do without: each is imported where it is wanted, and a sentence says how to get one that is not there."""
from __future__ import annotations

import importlib
from typing import Any

from .errors import MissingPackageError

def needed(name: str, what: str) -> Any:
    """A package or module by its name.

    Parameters
    ----------
    name : as `numpy` or `matplotlib.pyplot`
    what : what wants it, the subject of the sentence, as `a sweep`

    Raises
    ------
    MissingPackageError
        where it is not installed
    """
    try:
        return importlib.import_module(name)
    except ImportError as error:
        package = name.partition(".")[0]
        raise MissingPackageError(
            f"{what} needs the package {package}, which can't be imported ({error}): "
            f"install it with pip install {package}, or with apt-get install python3-{package} on Debian"
        ) from error


def numpy(what: str = "a sweep") -> Any:
    """NumPy, or an error that says how to get it."""
    return needed("numpy", what)


def bar(total: int, done: int, unit: str, wanted: bool) -> Any:
    """A bar of `tqdm` where it is wanted and there, else None."""
    if not wanted:
        return None
    try:
        tqdm = importlib.import_module("tqdm")
    except ImportError:
        return None
    return tqdm.tqdm(total=total, initial=done, unit=unit)
