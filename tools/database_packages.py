"""database_packages: the files of the packages for PostgreSQL and SQLite: the extensions of examples/postgres and examples/sqlite over libtdl.so.1."""
import shutil
import sys
import tempfile
from pathlib import Path

from tools import library
from tools.archive import FILE_MODE, Files
from tools.common import Word, run
from tools.repository import TOP

EXAMPLES, HEADERS = TOP / "examples", "/usr/include/postgresql/15/server"
HARDENED = ("-O2", "-D_FORTIFY_SOURCE=2", "-fstack-protector-strong", "-fPIC", "-shared", "-s", "-Wl,-z,relro,-z,now")
OF_POSTGRES, OF_SQLITE = "postgresql-15-tdl", "libtdl-sqlite"
# each package: the folder of its sources, where its library goes, a header that it needs, and its other files with their places
PACKAGES: dict[str, tuple[str, str, str, dict[str, str]]] = {
    OF_POSTGRES: ("postgres", "usr/lib/postgresql/15/lib/tdl.so", f"{HEADERS}/postgres.h", {
        f"usr/share/postgresql/15/extension/{name}": f"postgres/{name}" for name in ("tdl.control", "tdl--2.1.sql", "tdl--2.0--2.1.sql")
    } | {f"usr/share/doc/{OF_POSTGRES}/README.md": "postgres/README.md"}),
    OF_SQLITE: ("sqlite", "usr/lib/x86_64-linux-gnu/tdl/tdl.so", "/usr/include/sqlite3ext.h", {f"usr/share/doc/{OF_SQLITE}/README.md": "sqlite/README.md"}),
}


def compiled(folder: str, built: Path) -> bytes:
    """Returns an extension that is compiled over the library."""
    with tempfile.TemporaryDirectory() as room:
        words: list[Word] = [*HARDENED, "-I", EXAMPLES / "sql", "-I", library.HEADER.parent, "-I", HEADERS, "-o", Path(room, "tdl.so"), "tdl.c"]
        status, text = run("cc", *words, built / library.SONAME, cwd=EXAMPLES / folder)
        if status:
            sys.exit(f"make: the extension of examples/{folder} does not compile\n{text}")
        return Path(room, "tdl.so").read_bytes()


def contents(built: Path, of_all: Files) -> dict[str, Files]:
    """Returns the files of each package that can be made here: each path with its bytes and its mode. `of_all` are a package's documents, by
    their names in its folder."""
    found = {}
    for name, (folder, place, header, more) in PACKAGES.items():
        if not shutil.which("cc") or not Path(header).is_file():
            print(f"make: there is no {'C compiler' if not shutil.which('cc') else header}, so no {name} is made", file=sys.stderr)
            continue
        files: Files = {place: (compiled(folder, built), FILE_MODE)}
        files.update({path: ((EXAMPLES / source).read_bytes(), FILE_MODE) for path, source in more.items()})
        files.update({f"usr/share/doc/{name}/{path}": entry for path, entry in of_all.items()})
        found[name] = dict(sorted(files.items()))
    return found
