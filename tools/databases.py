"""databases: where examples/postgres and examples/sqlite are tried and measured: a PostgreSQL server of its own, and the shell of SQLite.

The server is a copy of the installed one, so that nothing of the system is written. It has the extension over the library, in a database of its
own, and that in PL/Python, whose module is the one of the wheel with the program in it.
"""
import os
import re
import shutil
import subprocess
import zipfile
from pathlib import Path
from typing import Any, Optional

import backend
from tools import common, library
from tools.common import PATIENCE, Process, Word, printed, there, until
from tools.repository import TOP

POSTGRES, SQLITE, SQL, OWNER = TOP / "examples" / "postgres", TOP / "examples" / "sqlite", TOP / "examples" / "sql", "postgres"
INSTALLED, SHARE = Path("/usr/lib/postgresql/15"), Path("/usr/share/postgresql/15")
OF_POSTGRES = ("psql", f"{INSTALLED}/lib/plpython3.so", "setpriv")
OF_THE_LIBRARY = ("cc", "make", "/usr/include/postgresql/15/server/postgres.h")
OF_SQLITE = ("cc", "sqlite3", "/usr/include/sqlite3ext.h")
OWN, BITS, LINK = "own", "3074257BF7194E4000001A85", "https://id.gs1.org/01/80614141123458/21/6789"
# texts, each with the one form that reads it, by the rules of the standard; nothing where none does, or two could be meant
FORM_OF = {
    BITS: "hex",
    BITS.lower(): "hex",
    "urn:epc:tag:sgtin-96:3.0614141.812345.6789": "tag",
    "urn:epc:id:sgtin:0614141.812345.6789": "pure",
    "urn:epc:id:sgtin:0614141": "",
    "(01)80614141123458": "bracketed",
    f"  {LINK} ": "link",
    "HTTPS://id.gs1.org/01/80614141123458": "link",
    "4006381333931": "gtin",
    "4006381333932": "",
    "80614141123458": "gtin",
    "106141412345678908": "sscc",
    "0180614141123458": "raw",
    # a GTIN, and the consignment number (401) 2345000009
    "4012345000009": "",
    "": "",
    "hello": "",
}
CREATED = "SET client_min_messages = error; CREATE EXTENSION tdl VERSION '1.0' CASCADE"


class Server:
    """A server in a folder of its own, which the owner of the system's servers runs."""

    def __init__(self, room: Path, program: Path, built: Optional[Path]) -> None:
        self.room, self.has_own, self.compiled = room, False, ""
        self.process: Optional[Process] = None
        self.bin, share = room / INSTALLED.relative_to("/") / "bin", room / SHARE.relative_to("/")
        shutil.copytree(INSTALLED, self.bin.parent)
        shutil.copytree(SHARE, share)
        for name in ("tdl.control", "tdl--1.0.control", "tdl--1.0.sql", "tdl--2.1.sql", "tdl--2.0--2.1.sql"):
            shutil.copy(POSTGRES / name, share / "extension")
        if built:
            self.compile(built)
        with zipfile.ZipFile(backend.write_wheel(room, 0, program.read_bytes())) as wheel:
            wheel.extractall(room / "module")
        (room / "module/tdl/bin/tdl").chmod(0o755)
        self.env = {"PATH": f"{self.bin}:/usr/bin:/bin", "PYTHONPATH": f"{room}/module", "LC_ALL": "C.UTF-8", "PYTHONDONTWRITEBYTECODE": "1"}
        self.owner = ["setpriv", f"--reuid={OWNER}", f"--regid={OWNER}", "--clear-groups"] if os.geteuid() == 0 else []
        room.chmod(0o755)
        if self.owner:
            shutil.chown(room, OWNER)
        self.run(self.bin / "initdb", "-D", room / "data", "-A", "trust", "-U", "tdl", "--no-sync", "-E", "UTF8")

    def compile(self, built: Path) -> None:
        """Compiles the extension over the library, as its Makefile does."""
        shutil.copytree(POSTGRES, self.room / "source")
        words = ["make", "-s", "with_llvm=no", f"PG_CONFIG={INSTALLED}/bin/pg_config", f"PG_CPPFLAGS=-I{SQL} -I{library.HEADER.parent}"]
        words.append(f"SHLIB_LINK={built / library.ARCHIVE} -Wl,--exclude-libs,ALL")
        self.compiled = common.run(*words, cwd=self.room / "source")[1]
        made = self.room / "source/tdl.so"
        self.has_own = made.is_file()
        if self.has_own:
            shutil.copy(made, self.bin.parent / "lib")

    def run(self, *words: Word, **how: Any) -> tuple[int, str]:
        """Runs a command as the owner, and returns its status and what it prints."""
        status, text = common.run(*self.owner, *words, env=self.env, cwd=self.room, timeout=PATIENCE, stdin=subprocess.DEVNULL, **how)
        return status, text.strip()

    def start(self) -> None:
        """Starts it, and waits until it answers."""
        words = [*self.owner, str(self.bin / "postgres"), "-D", str(self.room / "data"), "-k", str(self.room), "-h", "", "-F"]
        log = (self.room / "log").open("w")
        self.process = subprocess.Popen(words, env=self.env, cwd=self.room, stdout=log, stderr=log, stdin=subprocess.DEVNULL)
        until(lambda: self.ask("SELECT 1") == "1", PATIENCE)

    def words(self, database: str = "postgres") -> list[str]:
        """Returns the command that asks it."""
        return [*self.owner, str(self.bin / "psql"), "-X", "-A", "-t", "-q", "-h", str(self.room), "-U", "tdl", "-d", database]

    def ask(self, *statements: str, of: str = "postgres") -> str:
        """Returns what it prints for statements of one session."""
        more = [word for statement in statements for word in ("-c", statement)]
        return printed(*self.words(of), *more, env=self.env, stderr=subprocess.DEVNULL, timeout=PATIENCE).strip()

    def error(self, statement: str, of: str = "postgres") -> str:
        """Returns what it prints for one statement, errors too."""
        return common.run(*self.words(of), "-c", statement, env=self.env, timeout=PATIENCE)[1].strip()

    def runs(self) -> list[str]:
        """Returns the runs of its program that go on."""
        path, found = str(self.room / "module/tdl/bin/tdl"), []
        for process in Path("/proc").glob("[0-9]*"):
            try:
                if (process / "cmdline").read_bytes().startswith(path.encode()):
                    found.append(process.name)
            except OSError:
                pass
        return found

    def stop(self) -> None:
        """Ends it."""
        if self.process:
            self.process.terminate()
            self.process.wait(PATIENCE)


def begin_own(server: Server) -> str:
    """Makes a database with the extension over the library, by a user without further rights, and a table of tags. Returns its version."""
    server.ask(f"CREATE DATABASE {OWN}", "CREATE ROLE maker LOGIN", f"ALTER DATABASE {OWN} OWNER TO maker")
    return server.ask(
        "SET ROLE maker", "CREATE EXTENSION tdl",
        f"CREATE TABLE tags AS SELECT n AS id, '{BITS[:16]}' || lpad(upper(to_hex(n)), 8, '0') AS epc FROM generate_series(1, 3000) n",
        "SELECT extversion FROM pg_extension WHERE extname = 'tdl'", of=OWN)


def bulk(server: Server) -> str:
    """Returns the statements of the bulk copy that the text shows, with files of the server's folder."""
    text = (POSTGRES / "README.md").read_text("utf-8")
    return there(re.search(r"```sql\n(COPY .*?)```", text, re.DOTALL))[1].replace("/tmp/", f"{server.room}/")


def compile_for_sqlite(folder: Path, built: Path) -> str:
    """Compiles the extension of SQLite into a folder, and returns what the compiler says."""
    words: list[Word] = ["cc", "-O2", "-Wall", "-Wextra", "-Werror", "-fPIC", "-shared", "-I", SQL, "-I", library.HEADER.parent, "-o", folder / "tdl.so"]
    return common.run(*words, SQLITE / "tdl.c", built / library.ARCHIVE, "-Wl,--exclude-libs,ALL")[1]


def ask_sqlite(folder: Path, statements: str, database: str = ":memory:") -> str:
    """Returns what the shell prints for statements, with its errors."""
    return common.run("sqlite3", "-batch", database, input=f".load {folder}/tdl\n{statements}", timeout=PATIENCE)[1]
