"""tools: installs, from Debian's packages, the tools of the checks that this machine lacks. .ci/run calls it first.

Without a network or the rights it installs nothing and says so. In the gate (`CI=true`) a check whose tool is missing fails with the
name of the package; elsewhere it leaves out what needs the tool, with a line that says so.
"""
import os
import shutil
import subprocess
import sys

from tools.common import QUIET

# each tool, or a file of its package, with its package; where there are several names of a tool, one of them has to be there
PACKAGES = {
    "abidiff": "abigail-tools",
    "bash": "bash",
    "c++": "g++",
    "cc": "gcc",
    "clang": "clang",
    "chromium chromium-browser google-chrome": "chromium",
    "curl": "curl",
    "dpkg-deb": "dpkg",
    "fish": "fish",
    "flake8": "flake8",
    "go": "golang-go",
    "haproxy": "haproxy",
    "ip": "iproute2",
    "javac": "default-jdk-headless",
    "lintian": "lintian",
    "make": "make",
    "mandoc": "mandoc",
    "mcs": "mono-mcs",
    "mkdocs": "mkdocs",
    "mono": "mono-runtime",
    "mypy": "mypy",
    "nginx": "nginx",
    "node": "nodejs",
    "/usr/include/node/node_api.h": "libnode-dev",
    "objdump": "binutils",
    "openssl": "openssl",
    "parallel": "parallel",
    "pkg-config": "pkg-config",
    "psql": "postgresql-15",
    "/usr/lib/postgresql/15/lib/plpython3.so": "postgresql-plpython3-15",
    "/usr/include/postgresql/15/server/postgres.h": "postgresql-server-dev-15",
    "/usr/include/python3.11/Python.h": "python3-dev",
    "/usr/include/sqlite3ext.h": "libsqlite3-dev",
    "/usr/share/java/jna.jar": "libjna-java",
    "sqlite3": "sqlite3",
    "/usr/lib/python3/dist-packages/dask/__init__.py": "python3-dask",
    "/usr/lib/python3/dist-packages/distributed/__init__.py": "python3-distributed",
    "/usr/lib/python3/dist-packages/openpyxl/__init__.py": "python3-openpyxl",
    "/usr/lib/python3/dist-packages/pandas/__init__.py": "python3-pandas",
    "/usr/lib/python3/dist-packages/pytest/__init__.py": "python3-pytest",
    "/usr/lib/python3/dist-packages/xdist/__init__.py": "python3-pytest-xdist",
    "rustc": "rustc",
    "setpriv": "util-linux",
    "skopeo": "skopeo",
    "systemd-analyze": "systemd",
    "/usr/bin/tini-static": "tini",
    "umoci": "umoci",
    "unshare": "util-linux",
    "valgrind": "valgrind",
    "zbarimg": "zbar-tools",
    "zint": "zint",
    "zsh": "zsh",
    "ZXingReader": "zxing-cpp-tools",
}
SECONDS = 600


def is_gate() -> bool:
    """Returns whether this is a run of the gate, where no tool may be missing."""
    return os.environ.get("CI") == "true"


def lack(*tools: str) -> str:
    """Returns the missing ones of these tools, each with its package, or an empty text."""
    package_of = {name: package for names, package in PACKAGES.items() for name in names.split()}
    return " and ".join(f"{tool} (Debian's package {package_of.get(tool, tool)})" for tool in tools if is_missing(tool))


def is_missing(names: str) -> bool:
    """Returns whether none of the names of a tool is there."""
    return not any(shutil.which(name) or os.path.isfile(name) and name.startswith("/") for name in names.split())


def main() -> None:
    """Installs what is missing, and says what still is."""
    wanted = [package for names, package in PACKAGES.items() if is_missing(names)]
    if wanted:
        apt = ["apt-get", "-qq", "-o", "Acquire::Retries=2", "-o", "Acquire::http::Timeout=30", "-o", "DPkg::Lock::Timeout=120"]

        named = {**os.environ, "DEBIAN_FRONTEND": "noninteractive"}
        # (one package that is not in this release makes the installation of all fail, so each is tried by itself after that)
        for words in (["update"], ["install", *wanted], *(["install", package] for package in wanted)):
            if any(map(is_missing, PACKAGES)):
                try:
                    subprocess.run([*apt, "-y", "--no-install-recommends", *words], env=named, timeout=SECONDS, check=False, stdin=subprocess.DEVNULL, **QUIET)
                except (OSError, subprocess.TimeoutExpired):
                    break
    for names in filter(is_missing, PACKAGES):
        print(f"tools: there is no {names.split()[0]}, and Debian's package {PACKAGES[names]} could not be installed", file=sys.stderr)
