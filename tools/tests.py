"""tests: what tests share beside the fixtures of conftest.py."""
import fcntl
import os
from pathlib import Path
from typing import Callable, Iterable, Optional

import pytest

from tools import library
from tools.cases import difference
from tools.debian import is_gate


def leave_out(why: str) -> None:
    """Skips a test for want of something; in the gate it fails."""
    if is_gate():
        pytest.fail(why, pytrace=False)
    pytest.skip(why)


def same(wanted: bytes, got: bytes) -> None:
    """Fails with the first line in which two texts differ."""
    if wanted != got:
        pytest.fail(difference(wanted, got), pytrace=False)


def none(faults: Iterable[object], most: int = 25) -> None:
    """Fails with these faults, the empty ones left out, if there is one; it shows the first `most`."""
    found = [str(fault) for fault in faults if fault]
    if found:
        pytest.fail("\n".join([*found[:most], f"{len(found)} faults"]), pytrace=False)


def once(name: str, make: Callable[[Path], object]) -> Path:
    """Returns a folder that is made once for all processes of a run of tests, which other users may read."""
    place = Path(os.environ["TDL_TESTS"], name)
    with open(f"{place}.lock", "w") as lock:
        fcntl.flock(lock, fcntl.LOCK_EX)
        if not place.is_dir():
            beside = place.with_suffix(".new")
            beside.mkdir()
            make(beside)
            beside.rename(place)
    return place


def library_if_any() -> Optional[Path]:
    """Returns the folder of libtdl, or nothing if there is none, which the tests of what needs it tell."""
    try:
        return library.named_or_current()
    except library.Unbuilt:
        return None
