"""costs: what the proofs of the program's crates cost, and how long they take here.

bench/proofs.txt has a row for each crate: its name, the seconds of processor time that its proof took (tools/pace.py says of which
machine), the MB that it held at most, and its lines then. `bin/build --costs` writes it.
"""
from pathlib import Path
from typing import Collection, Iterable, Optional

from tools import pace, repository
from tools.repository import TOP

FILE = TOP / "bench" / "proofs.txt"
HEAD = "# crate, seconds of processor time of its proof, MB at most, lines of src, specs and proofs: bin/build --costs writes them\n"
# how much faster and slower than the pace that was measured a build may be, before any crate has shown it
RANGE = 0.5, 1.5
# the cost of a program that `rt try` builds, on one processor, and of what it does beside that on another
TRY, BESIDE = 130, 80
# how much more memory than the peaks has to be free, the bytes that `rt` asks for a crate, and the gain for which it gets its number of jobs:
# with that it gives no crate a second processor
SPARE, ASKED, GAIN = 1.25, 5_300_000_000, 1.2


def lines_of(crate: str, top: Path = TOP) -> int:
    """Returns the number of lines of a crate."""
    return sum(path.read_bytes().count(b"\n") for path in repository.files_of(crate, top))


def rows() -> dict[str, tuple[int, ...]]:
    """Returns the rows of the file: each crate with its seconds, MB and lines."""
    found = (line.split() for line in FILE.read_text("ascii").splitlines() if not line.startswith("#"))
    return {crate: tuple(map(int, numbers)) for crate, *numbers in found}


def costs(order: list[str], top: Path = TOP) -> dict[str, tuple[float, int]]:
    """Returns the seconds and the MB that each of these crates costs as it is now: those of its row by its lines, or those of a mean crate."""
    known: dict[str, tuple[int, ...]] = rows()
    found: dict[str, tuple[float, int]] = {}
    mean = sum(seconds for seconds, _, _ in known.values()) / sum(lines for _, _, lines in known.values())
    most = max(megabytes for _, megabytes, _ in known.values())
    for crate in order:
        lines = lines_of(crate, top)
        seconds, megabytes, then = known.get(crate, (mean * lines, most, lines))
        found[crate] = seconds * lines / max(then, 1), megabytes
    return found


def write(measured: dict[str, tuple[float, float]], top: Path = TOP) -> None:
    """Writes the rows anew, with these seconds and MB of the crates that were proved now."""
    known = {**rows(), **{crate: (round(seconds), round(megabytes), lines_of(crate, top)) for crate, (seconds, megabytes) in measured.items()}}
    text = "".join(f"{crate} {' '.join(map(str, known[crate]))}\n" for crate in repository.built_crates(top) if crate in known)
    FILE.write_text(HEAD + text, "ascii")


def chains(need: dict[str, float], uses: dict[str, list[str]]) -> dict[str, list[str]]:
    """Returns the crates of the longest chain that begins with each of these: the crate, one that uses it, and so on."""
    found: dict[str, list[str]] = {}
    for crate in reversed(list(need)):
        users = [found[other] for other in need if crate in uses[other]]
        found[crate] = [crate, *max(users, key=lambda chain: length(need, chain), default=[])]
    return found


def length(need: dict[str, float], chain: Iterable[str]) -> float:
    """Returns the seconds that a chain of crates costs."""
    return sum(need[crate] for crate in chain)


def longest(need: dict[str, float], uses: dict[str, list[str]]) -> list[str]:
    """Returns the longest chain of crates, each of which uses the one before it."""
    return max(chains(need, uses).values(), key=lambda chain: length(need, chain))


def laid_out(need: dict[str, float], uses: dict[str, list[str]], processors: int, begun: Collection[str] = ()) -> float:
    """Returns the seconds that these crates take on so many processors, those with the longest chain behind them first. Those that have
    begun go on."""
    behind = {crate: length(need, chain) for crate, chain in chains(need, uses).items()}
    ends: dict[str, float] = {}
    time, waiting = 0.0, set(need)
    while waiting or ends:
        ready = [crate for crate in waiting if not any(other in waiting or other in ends for other in uses[crate])]
        for crate in sorted(ready, key=lambda it: (it not in begun, -behind[it]))[: processors - len(ends)]:
            waiting.remove(crate)
            ends[crate] = time + need[crate]
        time = ends.pop(min(ends, key=ends.__getitem__))
    return time


def jobs(order: list[str], uses: dict[str, list[str]], processors: int, free: Optional[int]) -> Optional[int]:
    """Returns on how many crates `rt` is to work at a time, if their peaks fit into the memory that is free and its own estimate of them, up to
    three times as high, would leave processors idle; otherwise nothing."""
    known, lanes = costs(order), max(1, min(processors, (free or 0) // ASKED))
    need, peaks = {crate: seconds for crate, (seconds, _) in known.items()}, sorted(megabytes for _, megabytes in known.values())
    is_room = free and sum(peaks[-processors:]) * 1_000_000 * SPARE <= free
    return processors if is_room and laid_out(need, uses, lanes) > GAIN * laid_out(need, uses, processors) else None


def run_unproved() -> list[float]:
    """Returns the range of the seconds that a run without proofs takes here."""
    return [TRY * pace.clock(min(2, pace.processors())) * factor for factor in RANGE]


def whole_build() -> list[float]:
    """Returns the range of the seconds that bin/build takes here, from nothing."""
    order, uses, processors = repository.built_crates(), repository.crates(), pace.processors()
    seconds = laid_out({crate: cost for crate, (cost, _) in costs(order).items()}, uses, processors) * pace.clock(processors)
    return [seconds * factor for factor in RANGE]
