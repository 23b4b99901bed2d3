"""progress: how far a build is, what its crates cost, and what is left of it."""
import os
import re
from pathlib import Path
from time import monotonic

from tools import costs, pace, repository
from tools.common import stat_of
from tools.pace import between, minutes

TICKS = os.sysconf("SC_CLK_TCK")
DONE = re.compile(r"^rt: (\w+) (?:proved|is kept: .*)$")
PEAK = re.compile(r"^VmHWM:\s+(\d+) kB", re.MULTILINE)
# the seconds of cost that the pace at the start counts for, next to crates that were proved
TRUST = 300


class Progress:
    """How far the proofs are: each crate with its cost, those that are done, when each was begun, and what it used."""

    def __init__(self, top: Path) -> None:
        self.top, self.uses, self.began = top, repository.crates(top), monotonic()
        self.order, self.processors = repository.built_crates(top), pace.processors()
        self.costs = {crate: seconds for crate, (seconds, _) in costs.costs(self.order, top).items()}
        self.done: set[str] = set()
        self.begun: dict[str, float] = {}
        self.took: dict[str, float] = {}
        self.used: dict[str, dict[str, tuple[float, float]]] = {}
        self.pace = pace.clock(self.processors)

    def look(self) -> None:
        """Notes which crates have begun, by the folder that `rt` makes of each, and what the processes that prove them have used."""
        for crate in self.order:
            if crate not in self.begun and (self.top / "crates" / crate / "out").is_dir():
                self.begun[crate] = monotonic()
        for folder in Path("/proc").iterdir():
            if folder.name.isdigit():
                self.look_at(folder)

    def look_at(self, folder: Path) -> None:
        """Notes what a process has used, if it proves a crate."""
        try:
            place = Path(os.readlink(folder / "cwd"))
            if place.parent != self.top / "crates":
                return
            fields = stat_of(folder.name)
            peak = PEAK.search((folder / "status").read_text(errors="replace"))
        except OSError:
            return
        seconds, megabytes = self.used.setdefault(place.name, {}), int(peak[1]) / 1000 if peak else 0
        before = seconds.get(folder.name, (0, 0))
        seconds[folder.name] = sum(map(int, fields[11:13])) / TICKS, max(before[1], megabytes)

    def measured(self) -> dict[str, tuple[float, float]]:
        """Returns the processor seconds and the MB of each crate that was proved now."""
        found = {crate: list(self.used.get(crate, {}).values()) for crate in self.took}
        return {crate: (sum(one[0] for one in used), max(one[1] for one in used)) for crate, used in found.items() if used}

    def read(self, line: str) -> bool:
        """Notes what a line of `rt ci` says, and returns whether it ends a crate."""
        found = DONE.match(line)
        if not found or found[1] not in self.costs or found[1] in self.done:
            return False
        self.done.add(found[1])
        if "is kept" not in line:
            self.took[found[1]] = monotonic() - self.begun.get(found[1], monotonic())
        return True

    def running(self) -> list[str]:
        """Returns the crates that are being proved."""
        return [crate for crate in self.order if crate in self.begun and crate not in self.done]

    def paces(self) -> tuple[float, float]:
        """Returns the lowest and the highest pace to expect, in seconds of the clock for a second of cost: that of the crates that were
        proved, or are late, with the one at the start while these are few."""
        now = monotonic()
        late = {crate: now - self.begun[crate] for crate in self.running() if now - self.begun[crate] > self.costs[crate] * self.pace}
        shown = [(took / self.costs[crate], self.costs[crate]) for crate, took in {**self.took, **late}.items()]
        shown += [(self.pace * factor, TRUST / len(costs.RANGE)) for factor in costs.RANGE]
        weight = sum(cost for _, cost in shown)
        mean = sum(rate * cost for rate, cost in shown) / weight
        spread = (sum((rate - mean) ** 2 * cost for rate, cost in shown) / weight) ** 0.5
        return max(mean - spread, mean / 2), mean + spread

    def left(self, rate: float) -> float:
        """Returns the seconds that are left at a pace."""
        now = monotonic()
        need = {crate: self.costs[crate] * rate for crate in self.order if crate not in self.done}
        for crate in self.running():
            need[crate] = max(need[crate] - (now - self.begun[crate]), (now - self.begun[crate]) / 5)
        return costs.laid_out(need, self.uses, self.processors, self.running())

    def text(self) -> str:
        """Returns the state in a line."""
        running = ", ".join(self.running()) or "the program"
        low, high = map(self.left, self.paces())
        state = f"{len(self.done)} of {len(self.order)} crates proved; now {running}; {minutes(monotonic() - self.began)} used"
        return f"{state}, {between(low, high)} left"
