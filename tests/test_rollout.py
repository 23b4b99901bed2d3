"""The shipped script for a new linkset: what it keeps, judges and says, and where a signal leaves it.

Stand-ins take the place of systemd and curl: `systemctl restart` notes the port and the linkset that a process would load.
"""
import json
import os
import shutil
import signal
import subprocess
from pathlib import Path
from select import select
from typing import Any, Iterator, Optional

import pytest

from tests.link_files import ITEM, linkset_of
from tools.repository import TOP

ROLLOUT = TOP / "packaging/systemd/rollout"
PORTS = ["8081", "8082", "8083", "8084"]
DEFAULT = "gs1:defaultLink"
OLD, NEW = ({ITEM: {DEFAULT: [{"href": f"https://{name}.example/"}]}} for name in ("old", "new"))

STAND_INS = {
    # notes each restart; waits before the one of $HOLD, and fails that of $FAIL
    "systemctl": """#!/bin/sh
case $1 in
show) echo "$LIMIT" ;;
is-failed) [ -e "$ROOM/failed" ] ;;
restart)
    port=${2#tdl@}
    if [ "$port" = "$HOLD" ] && [ ! -e "$ROOM/held" ]; then
        : > "$ROOM/held"
        echo > "$ROOM/begun"
        read -r go < "$ROOM/go"
    fi
    echo "$port $(cat "$TDL_LINKS")" >> "$ROOM/restarts"
    rm -f "$ROOM/failed"
    if [ "$port" = "$FAIL" ] && [ ! -e "$ROOM/was" ]; then : > "$ROOM/was"; : > "$ROOM/failed"; fi ;;
esac
""",
    # the command alone, within its limit of memory
    "systemd-run": """#!/bin/sh
if [ "$HOLD" = check ]; then
    echo > "$ROOM/begun"
    read -r go < "$ROOM/go"
fi
while [ "$1" != tdl ]; do
    case $1 in LimitAS=[0-9]*) ulimit -v $((${1#LimitAS=} / 1024)) ;; esac
    shift
done
shift
exec "$TDL" "$@"
""",
    "curl": '#!/bin/sh\n[ ! -e "$ROOM/failed" ]\n',
    "sleep": "#!/bin/sh\n",
}


class Room:
    """A folder with a linkset in place, and stand-ins."""

    def __init__(self, folder: Path, module: dict[str, str]) -> None:
        self.folder, self.links = folder, folder / "links.json"
        for name, text in STAND_INS.items():
            (folder / name).write_text(text, "ascii")
            (folder / name).chmod(0o755)
        for name in ("begun", "go"):
            os.mkfifo(folder / name)
        self.put(self.links, OLD)
        self.env = {**module, "ROOM": str(folder), "TDL_LINKS": str(self.links), "PATH": f"{folder}:{os.environ['PATH']}",
                    "HOLD": "", "FAIL": "", "LIMIT": "infinity"}

    def put(self, path: Path, anchors: Any) -> Path:
        """Writes a linkset."""
        path.write_text(json.dumps(linkset_of(anchors)), "ascii")
        return path

    def words(self, new: Any) -> list[str]:
        """Returns the words of a rollout of a linkset."""
        return [str(ROLLOUT), str(self.put(self.folder / "given.json", new)), *PORTS]

    def run(self, new: Any, *more: str, **env: str) -> "subprocess.CompletedProcess[str]":
        """Runs the script."""
        return subprocess.run([*self.words(new), *more], env={**self.env, **env}, cwd=self.folder, capture_output=True, text=True)

    def interrupted(self, new: Any, hold: str, number: signal.Signals, is_group: bool) -> tuple[int, str]:
        """Runs the script, sends it a signal while a stand-in waits, and returns the status and what is told of errors."""
        begun, go = (os.open(self.folder / name, os.O_RDWR) for name in ("begun", "go"))

        def listen() -> None:
            # (a signal that this test was started to ignore would be ignored by the script too)
            signal.signal(number, signal.SIG_DFL)

        env = {**self.env, "HOLD": hold}
        with subprocess.Popen(self.words(new), env=env, cwd=self.folder, stderr=subprocess.PIPE, stdout=subprocess.DEVNULL, text=True,
                              start_new_session=True, preexec_fn=listen) as process:
            # (a script that ended before would be waited for without end)
            assert begun in select([begun, process.stderr], [], [])[0]
            os.read(begun, 1)
            # (a terminal sends its signals to all processes of its group)
            (os.killpg if is_group else os.kill)(process.pid, number)
            os.write(go, b"go\n")
            told = process.communicate()[1]
        for file in (begun, go):
            os.close(file)
        return process.returncode, told

    def restarts(self) -> list[tuple[str, Any]]:
        """Returns the port of each restart, with the linkset that its process loads."""
        path = self.folder / "restarts"
        split = [line.split(" ", 1) for line in path.read_text("ascii").splitlines()] if path.exists() else []
        return [(port, json.loads(text)) for port, text in split]

    def in_place(self, path: Optional[Path] = None) -> Any:
        """Returns the linkset that is in place."""
        return json.loads((path or self.links).read_text("ascii"))


@pytest.fixture
def room(tmp_path: Path, module: dict[str, str]) -> Iterator[Room]:
    """A folder of the script's own."""
    yield Room(tmp_path, module)


def test_changes(room: Room) -> None:
    """The changes are printed before a process is restarted, and all processes get the new linkset."""
    done = room.run(NEW)
    assert (done.returncode, done.stdout.splitlines()[1:], done.stderr) == (0, ["rollout: 1 anchor differs: 1 default moved"], "")
    assert room.restarts() == [(port, linkset_of(NEW)) for port in PORTS]
    assert room.in_place(room.folder / "links.json.old") == linkset_of(OLD)
    assert sorted(path.name for path in room.folder.glob("links*")) == ["links.json", "links.json.old"]


def test_without_module(room: Room) -> None:
    """Without the module the script says what it leaves out."""
    done = room.run(NEW, PYTHONPATH="/nonexistent")
    assert done.returncode == 0 and "rollout: the largest replies were not tried: that needs the module tdl of python3" in done.stdout, done
    assert room.in_place() == linkset_of(NEW)


def test_module_of_the_system(room: Room) -> None:
    """A module of this name in the caller's folder is not run."""
    shutil.copytree(TOP / "python/src/tdl/inspector", room.folder / "tdl", ignore=shutil.ignore_patterns("*"))
    (room.folder / "tdl/__init__.py").write_text("")
    (room.folder / "tdl/__main__.py").write_text(f"open({str(room.folder / 'was-run')!r}, 'w')")
    room.run(NEW, PYTHONPATH="/nonexistent")
    assert not (room.folder / "was-run").exists()


@pytest.mark.parametrize("is_absolute", [True, False])
def test_symbolic_link(room: Room, is_absolute: bool) -> None:
    """A symbolic link stays one, and its target is replaced."""
    (room.folder / "kept").mkdir()
    target = room.folder / "kept" / "mine.json"
    room.links.rename(target)
    room.links.symlink_to(target if is_absolute else "kept/mine.json")
    assert room.run(NEW).returncode == 0
    assert room.links.is_symlink() and room.in_place(target) == linkset_of(NEW)
    assert room.in_place(target.with_name("mine.json.old")) == linkset_of(OLD)


# quotes are written with a backslash, and the text of a linkset has the link type with each link
QUOTES = {ITEM: {'"' * 5_000: [{"href": f"a{number}"} for number in range(10_000)]}}


def test_growing_replies(room: Room) -> None:
    """A linkset whose replies as text take more memory than the unit has is rejected, before a process is asked for one."""
    memory = f"{190 << 20}"
    # (the check alone accepts it)
    assert room.run(QUOTES, LIMIT=memory, PYTHONPATH="/nonexistent").returncode == 0
    room.put(room.links, OLD)
    (room.folder / "restarts").unlink()
    done = room.run(QUOTES, LIMIT=memory)
    assert done.returncode == 1 and f"take more memory than the unit has ({memory} bytes), and nothing was changed" in done.stderr, done
    assert room.in_place() == linkset_of(OLD) and not room.restarts() and not (room.folder / "links.json.new").exists()
    assert room.run(QUOTES, LIMIT=f"{300 << 20}").returncode == 0


SIGNALS = [signal.SIGHUP, signal.SIGINT, signal.SIGTERM]


@pytest.mark.parametrize("is_group", [False, True], ids=["the script", "its group"])
@pytest.mark.parametrize("number", SIGNALS)
def test_signal_midway(room: Room, number: signal.Signals, is_group: bool) -> None:
    """After a signal between the restarts all processes have one linkset."""
    status, told = room.interrupted(NEW, "8083", number, is_group)
    assert (status, told) == (0, "")
    assert room.restarts() == [(port, linkset_of(NEW)) for port in PORTS] and room.in_place() == linkset_of(NEW)


@pytest.mark.parametrize("number", SIGNALS)
def test_signal_in_check(room: Room, number: signal.Signals) -> None:
    """A signal while the linkset is checked leaves the old one, and is told."""
    status, told = room.interrupted(NEW, "check", number, False)
    assert (status, told) == (128 + number, f"rollout: ended by {number.name}; nothing was changed\n")
    assert not room.restarts() and room.in_place() == linkset_of(OLD) and not (room.folder / "links.json.new").exists()


def test_undone(room: Room) -> None:
    """If a process does not answer, those that were restarted get the old linkset again, also where one of them fails."""
    done = room.run(NEW, FAIL="8082")
    assert done.returncode == 1 and f"{room.links} is the old linkset again" in done.stderr, done
    assert room.restarts() == [("8081", linkset_of(NEW)), ("8082", linkset_of(NEW)), ("8081", linkset_of(OLD)), ("8082", linkset_of(OLD))]
    assert room.in_place() == linkset_of(OLD)


def test_names(room: Room) -> None:
    """The names of the check that a linkset is served with hold for its changes too."""
    templates = {ITEM: {DEFAULT: [{"href": "https://new.example/{01}"}]}}
    done = room.run(templates, "--", "--templates", "yes", "--tables", str(TOP / "tables/gs1.json"))
    assert (done.returncode, done.stdout.splitlines()[1:]) == (0, ["rollout: 1 anchor differs: 1 default moved"]), done


def test_closed_output(room: Room) -> None:
    """A terminal that is gone does not end it midway."""
    read, write = os.pipe()
    os.close(read)
    done = subprocess.run(room.words(NEW), env=room.env, cwd=room.folder, stdout=write, stderr=write)
    os.close(write)
    assert done.returncode == 0 and room.restarts() == [(port, linkset_of(NEW)) for port in PORTS]
