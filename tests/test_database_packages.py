"""The packages for PostgreSQL and SQLite, installed as users install them, over the system's folders as they are, which stay so."""
import os
import shutil
from pathlib import Path

import pytest

from tools.common import run
from tools.databases import BITS, LINK, OF_POSTGRES, OF_SQLITE, OF_THE_LIBRARY, POSTGRES, SQL
from tools.repository import VERSION
from tools.tests import none

NAMES = ("libtdl1", "libtdl-dev", "postgresql-15-tdl", "libtdl-sqlite")
pytestmark = [pytest.mark.needs("dpkg-deb", "unshare", *OF_POSTGRES, *OF_THE_LIBRARY, *OF_SQLITE), pytest.mark.xdist_group("packages")]
# installs the packages, starts a server of a folder, runs the tests of the package's own form, and asks SQLite
SCRIPT = """set -e
room=$1
mount -t tmpfs tmpfs "$room/over"
for folder in etc usr var; do
    mkdir -p "$room/over/$folder" "$room/over/$folder.work"
    mount -t overlay overlay -o "lowerdir=/$folder,upperdir=$room/over/$folder,workdir=$room/over/$folder.work" "/$folder" || exit 77
done
shift
apt-get -qq -y -o Dpkg::Use-Pty=0 install "$@" > "$room/apt.log" 2>&1 || { cat "$room/apt.log"; exit 1; }
as="setpriv --reuid=postgres --regid=postgres --clear-groups"
bin=/usr/lib/postgresql/15/bin
$as $bin/initdb -D "$room/data" -A trust -U tdl --no-sync -E UTF8 > "$room/init.log"
$as $bin/pg_ctl -D "$room/data" -w -o "-k $room -h '' -F" -l "$room/log" start > "$room/start.log"
$as make -s installcheck with_llvm=no PGHOST="$room" PGUSER=tdl > "$room/check.log" 2>&1 || { cat "$room/check.log" regression.diffs; failed=1; }
$as $bin/pg_ctl -D "$room/data" -w stop > "$room/stop.log"
echo "SELECT tdl_canon('hex', '@BITS@');" | sqlite3 -cmd '.load /usr/lib/x86_64-linux-gnu/tdl/tdl'
exit ${failed:-0}
""".replace("@BITS@", BITS)


@pytest.fixture
def packages(libtdl: Path, made: Path) -> list[Path]:
    """The packages of the library, and those over it."""
    found = [made / f"{name}_{VERSION}_amd64.deb" for name in NAMES]
    none(path.name for path in found if not path.exists())
    return found


@pytest.mark.needs("lintian")
def test_lintian_finds_nothing(packages: list[Path]) -> None:
    none(line for line in run("lintian", "--allow-root", *packages)[1].splitlines() if line[:2] in ("E:", "W:"))


def test_their_own_tests(packages: list[Path], tmp_path_factory: pytest.TempPathFactory) -> None:
    """`make installcheck` passes in a server with the installed packages, and the shell of SQLite loads the extension."""
    if os.geteuid():
        pytest.skip("needs the right to install packages")
    room = Path(os.environ.get("TMPDIR", "/tmp"), f"tdl-packages-{os.getpid()}")
    (room / "over").mkdir(parents=True)
    try:
        shutil.copytree(POSTGRES, room / "examples" / "postgres")
        shutil.copytree(SQL, room / "examples" / "sql")
        run("chown", "-R", "postgres", room)
        env = {**os.environ, "DEBIAN_FRONTEND": "noninteractive"}
        status, told = run("unshare", "-m", "sh", "-c", SCRIPT, "sh", room, *packages, cwd=room / "examples" / "postgres", env=env)
        if status == 77:
            pytest.skip("needs the right to mount")
        assert (status, told) == (0, f"{LINK}\n")
    finally:
        shutil.rmtree(room, ignore_errors=True)
