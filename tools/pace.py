"""pace: how fast this machine is now, next to what else is at work on it.

The costs that this repository notes are seconds of processor time of a machine that packs TEXT in REFERENCE seconds.
"""
import os
import zlib
from time import process_time

TEXT = b"".join(b"%d:%x;" % (number, number * 2_654_435_761 % (1 << 32)) for number in range(20_000))
REFERENCE, SECONDS = 0.026, 0.1


def packing() -> float:
    """Returns the seconds of processor time that packing the text takes, on average."""
    begun, count = process_time(), 0
    while not count or process_time() - begun < SECONDS:
        zlib.compress(TEXT, 6)
        count += 1
    return (process_time() - begun) / count


def processors() -> int:
    """Returns the number of processors that may be used."""
    return len(os.sched_getaffinity(0))


def clock(processes: int) -> float:
    """Returns the seconds of the clock that go by here for a second of cost, in each of so many processes at work: by the speed of the
    processors, which are shared with what else was at work in the last minute."""
    return max(1.0, (os.getloadavg()[0] + processes) / processors()) * packing() / REFERENCE


def minutes(seconds: float) -> str:
    """Returns a time in words."""
    return f"{seconds / 60:.0f} min" if seconds >= 90 else f"{seconds:.0f} s"


def between(low: float, high: float) -> str:
    """Returns a range of times in words."""
    if high >= 90:
        fewest, most = max(1, round(low / 60)), round(high / 60)
        return f"{fewest} to {most} min" if fewest < most else f"{most} min"
    return f"{low:.0f} to {high:.0f} s"
