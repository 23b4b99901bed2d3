"""What the tools know of this repository: its places, its crates, its program, the kit that it is proved with, and the machine.

The program is crates/tdl/out/tdl. Beside it bin/build writes a record: the checksums of the program and of the sources that it was
proved from. A program is current where its record fits, or, without a fitting record, where no source was changed since it was
written (rt ci at the top leaves such a program).
"""
import hashlib
import os
import re
import shutil
import subprocess
from pathlib import Path
from typing import Iterator, Optional, Union

from tools.common import Word, printed, there

TOP = Path(__file__).resolve().parent.parent
CRATES, MODULE = TOP / "crates", TOP / "python" / "src"
PROGRAM = CRATES / "tdl" / "out" / "tdl"
RECORD = CRATES / "tdl" / "out" / "tdl.sources"
VERSION = (TOP / "VERSION").read_text("ascii").strip()
PARTS = ("src", "specs", "proofs")
KIT_LINE = re.compile(r"rattle-kit-\S+ logic [0-9a-f]+")
GIGABYTE = 1_000_000_000


def of_module(program: Word) -> dict[str, str]:
    """Returns the environment in which Python finds the module of this repository, and the module this program."""
    return {**os.environ, "TDL": str(program), "PYTHONPATH": str(MODULE)}


def crates(top: Path = TOP) -> dict[str, list[str]]:
    """The crates of crates.txt: each name with the crates of the repository that it uses."""
    uses = {}
    for line in (top / "crates.txt").read_text("utf-8").splitlines():
        name, colon, used = line.partition("#")[0].partition(":")
        if colon:
            uses[name.split()[0]] = used.split()
    return {name: [other for other in used if other in uses] for name, used in uses.items()}


def kit_crates(top: Path = TOP) -> list[str]:
    """The crates of the kit that crates.txt names as dependencies of the program's crates, in order."""
    lines = (line.partition("#")[0].partition(":") for line in (top / "crates.txt").read_text("utf-8").splitlines())
    uses = {name.split()[0]: used.split() for name, colon, used in lines if colon}
    return sorted({other for crate in program_crates(top) for other in uses[crate] if other not in uses})


def below(name: str, uses: dict[str, list[str]]) -> list[str]:
    """A crate and all that it stands on, the lowest first."""
    found: list[str] = []

    def visit(crate: str) -> None:
        if crate not in found:
            for other in uses[crate]:
                visit(other)
            found.append(crate)

    visit(name)
    return found


def files_of(crate: str, top: Path = TOP) -> Iterator[Path]:
    """The files that the proof of a crate reads."""
    for part in PARTS:
        yield from sorted(path for path in (top / "crates" / crate / part).rglob("*") if path.is_file())


def program_crates(top: Path = TOP) -> list[str]:
    """The crates that the program is made of, the lowest first."""
    return below("tdl", crates(top))


def built_crates(top: Path = TOP) -> list[str]:
    """The crates that the program and the library are made of, the lowest first."""
    uses = crates(top)
    return list(dict.fromkeys(crate for name in ("tdl", "tdl_c") if name in uses for crate in below(name, uses)))


def checksum(path: Path) -> str:
    """The checksum of a file's bytes."""
    return hashlib.sha256(path.read_bytes()).hexdigest()


def checksum_of_sources(top: Path = TOP, name: str = "tdl") -> str:
    """The checksum of all that the program, or another crate, is proved from."""
    uses = crates(top)
    total = hashlib.sha256()
    for crate in below(name, uses):
        total.update(f"{crate}: {' '.join(uses[crate])}\n".encode())
        for path in files_of(crate, top):
            content = path.read_bytes()
            total.update(f"{path.relative_to(top).as_posix()} {len(content)}\n".encode())
            total.update(content)
    return total.hexdigest()


def write_record(sources: str) -> None:
    """Notes beside the program from which sources it was proved, and with which kit."""
    text = f"{checksum(PROGRAM)}\n{sources}\n{kit_found()}\n"
    beside = RECORD.with_name(f"{RECORD.name}.{os.getpid()}")
    beside.write_text(text, "ascii")
    beside.replace(RECORD)


def read_record() -> Optional[tuple[str, str]]:
    """The checksum of the sources that the program was proved from and the kit's line, where its record is this program's."""
    try:
        program, sources, kit = RECORD.read_text("ascii").splitlines()
        return (sources, kit) if program == checksum(PROGRAM) else None
    except (OSError, ValueError):
        return None


def renew_record() -> None:
    """Notes that the program, which is current, is no older than its sources as they stand now; where that cannot be written, it is not."""
    try:
        if read_record():
            RECORD.touch()
        elif kit_found():
            write_record(checksum_of_sources())
    except OSError:
        pass


def is_program(path: Path = PROGRAM) -> bool:
    """Whether a program is there."""
    return path.is_file() and os.access(path, os.X_OK)


def is_current() -> bool:
    """Whether the program is there, and no older than its sources."""
    if not is_program():
        return False
    record = read_record()
    if record:
        return record[0] == checksum_of_sources()
    made = PROGRAM.stat().st_mtime_ns
    read = (path for crate in program_crates() for path in files_of(crate))
    return all(path.stat().st_ctime_ns <= made for path in [TOP / "crates.txt", *read])


def kit_wanted() -> str:
    """The line of the kit that README.md names."""
    found = KIT_LINE.search((TOP / "README.md").read_text("utf-8"))
    return found[0] if found else "a kit that README.md does not name"


def kit_found() -> str:
    """The line of the kit whose `rt` is on the PATH, or nothing where there is none."""
    if not shutil.which("rt"):
        return ""
    try:
        return printed("rt", "version", stderr=subprocess.DEVNULL).strip()
    except OSError:
        return ""


def memory_free() -> Optional[int]:
    """The bytes of memory that are free, or nothing where the system does not say."""
    try:
        return 1024 * int(there(re.search(r"^MemAvailable:\s+(\d+) kB", Path("/proc/meminfo").read_text("ascii"), re.MULTILINE))[1])
    except (OSError, LookupError):
        return None


def lack_of_kit() -> Optional[tuple[str, bool]]:
    """What is wrong with the kit, in a line, and whether that ends the work; or nothing."""
    wanted, found = kit_wanted(), kit_found()
    if not found:
        return f"there is no `rt` on the PATH: put the folder `bin` of the kit {wanted} there", True
    if found != wanted:
        return f"the kit is {found}, and README.md names {wanted}: where something fails, take that one", False
    return None


def lack_of_room(folder: Union[str, Path], disk: int, memory: int) -> Optional[str]:
    """What is too little of the disk with this folder or of the memory, in a line, or nothing."""
    on_disk, in_memory = shutil.disk_usage(folder).free, memory_free()
    if on_disk < disk:
        return f"{folder} has {on_disk / GIGABYTE:.1f} GB free, and {disk / GIGABYTE:.0f} are needed: make room there"
    if in_memory is not None and in_memory < memory:
        return f"{in_memory / GIGABYTE:.1f} GB of memory are free, and {memory / GIGABYTE:.0f} are needed: end other programs first"
    return None


def fresh_copy(to: Union[str, Path]) -> None:
    """Copies the files of this repository to a new folder, as a clone of it has them, and those that are not committed yet."""
    listed = subprocess.run(["git", "ls-files", "-z", "-co", "--exclude-standard"], cwd=TOP, stdout=subprocess.PIPE, stderr=subprocess.DEVNULL)
    names = [name for name in os.fsdecode(listed.stdout).split("\0") if name and (TOP / name).is_file()]
    if listed.returncode or not names:
        shutil.copytree(TOP, to, ignore=shutil.ignore_patterns("out", ".git", "__pycache__"))
        return
    for name in names:
        copy = Path(to, name)
        copy.parent.mkdir(parents=True, exist_ok=True)
        shutil.copy2(TOP / name, copy)
