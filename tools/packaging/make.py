"""make [FOLDER] [--program FILE] [--library FOLDER]: makes the packages: the .deb of the program, those of the library (libtdl1, libtdl-dev), a
.tar.gz with the files of the three, those over the library (postgresql-15-tdl, libtdl-sqlite), a wheel of the Python module with the program, the
library and the table documents in it, an image for containers (packaging/image.py), and SHA256SUMS of all.

FOLDER is packaging/out where it is not given. Program and library are those of bin/build, which have to be current, or FILE and those of a
folder. It needs no network and no rights. A .deb needs dpkg-deb, the site of the documents mkdocs, the module's part over the library a C
compiler and Python's headers, and the image tini-static: what needs a tool that is missing is left out, with a line that says so. Two makes of
the same program, library and sources, with the same tools, give the same bytes: all times are that of the last commit, or SOURCE_DATE_EPOCH.

The version is that of the file VERSION, and the least version of the C library is what the program asks for.
"""
import argparse
import hashlib
import os
import re
import shutil
import subprocess
import sys
import tempfile
import textwrap
from email.utils import formatdate
from pathlib import Path
from typing import Optional

import backend
from tools import database_packages, image, library, messages, repository
from tools.archive import FILE_MODE, FOLDER_MODE, LINK_MODE, PROGRAM_MODE, Files, folders_of, packed, tar_of
from tools.common import run, there
from tools.repository import PROGRAM, TOP, VERSION

HERE = TOP / "packaging"
# each file of the package and what it is made of; a name that ends in .gz is packed
FILES = {
    "usr/share/man/man1/tdl.1.gz": "packaging/man/tdl.1",
    "usr/share/man/man1/tdl-links.1.gz": "packaging/man/tdl-links.1",
    "usr/share/man/man5/tdl-tables.5.gz": "packaging/man/tdl-tables.5",
    "usr/share/man/man8/tdl-resolver.8.gz": "packaging/man/tdl-resolver.8",
    "usr/share/man/man8/tdl-shard.8.gz": "packaging/man/tdl-shard.8",
    "usr/share/bash-completion/completions/tdl": "packaging/completions/tdl.bash",
    "usr/share/zsh/vendor-completions/_tdl": "packaging/completions/tdl.zsh",
    "usr/share/fish/vendor_completions.d/tdl.fish": "packaging/completions/tdl.fish",
    **{f"usr/share/tdl/tables/{name}.json": f"tables/{name}.json" for name in ("builtin", "epcis", "gs1", "measures", "food", "healthcare", "logistics")},
    "usr/share/applications/tdl-inspector.desktop": "packaging/tdl-inspector.desktop",
    "usr/share/icons/hicolor/scalable/apps/tdl-inspector.svg": "python/src/tdl/inspector/page/icon.svg",
    "lib/systemd/system/tdl@.service": "packaging/systemd/tdl@.service",
    "lib/systemd/system/tdl.target": "packaging/systemd/tdl.target",
    "usr/lib/tdl/rollout": "packaging/systemd/rollout",
    "usr/bin/tdl-shard": "shard/tdl-shard",
    "usr/share/doc/tdl/examples/nginx.conf": "packaging/fronts/nginx.conf",
    "usr/share/doc/tdl/examples/haproxy.cfg": "packaging/fronts/haproxy.cfg",
    "usr/share/doc/tdl/copyright": "packaging/copyright",
    "usr/share/lintian/overrides/tdl": "packaging/lintian-overrides",
}
# where Debian's Python finds modules; the desktop entry runs the one that is put there
MODULES = "usr/lib/python3/dist-packages"
PROGRAMS = {"usr/bin/tdl-shard", "usr/lib/tdl/rollout"}
LIBRARIES, WHOLE_NAME = "usr/lib/x86_64-linux-gnu", f"{library.SONAME}.{VERSION.partition('.')[2]}"
LIBRARY_PACKAGES = ("libtdl1", "libtdl-dev")


def moment() -> int:
    """The time of all files: that of the last commit."""
    given = os.environ.get("SOURCE_DATE_EPOCH")
    if given:
        return int(given)
    status, told = run("git", "log", "-1", "--format=%ct", cwd=TOP, stderr=subprocess.DEVNULL)
    if status or not told.strip():
        sys.exit("make: there is no commit whose time could be taken: set SOURCE_DATE_EPOCH")
    return int(told)


def maintainer() -> str:
    """Who maintains the package."""
    return there(re.search(r"^Maintainer: (.*)$", (HERE / "control").read_text("ascii"), re.MULTILINE))[1]


def changes(when: int) -> str:
    """The changes of this version, as a Debian changelog."""
    section = re.search(rf"^## {re.escape(VERSION)}.*?\n(.*?)(?=^## |\Z)", (TOP / "CHANGELOG.md").read_text("utf-8"), re.MULTILINE | re.DOTALL)
    points = [" ".join(point.split()) for point in re.findall(r"^- (.*(?:\n  .*)*)", there(section)[1], re.MULTILINE)]
    told = "\n".join(textwrap.fill(point, 78, initial_indent="  * ", subsequent_indent="    ", break_on_hyphens=False) for point in points)
    return f"tdl ({VERSION}) unstable; urgency=medium\n\n{told}\n\n -- {maintainer()}  {formatdate(when)}\n"


def least_c_library(*programs: bytes) -> str:
    """The least version of the C library that has all that these programs ask for."""
    asked = re.findall(rb"GLIBC_(\d+)\.(\d+)", b"".join(programs))
    if not asked:
        sys.exit("make: a program asks for no version of the C library, which cannot be")
    return ".".join(map(str, max((int(major), int(minor)) for major, minor in asked)))


def site(when: int) -> dict[str, bytes]:
    """The files of the site of the documents, or none without `mkdocs`: each path below the site's folder with its bytes."""
    if not shutil.which("mkdocs"):
        print("make: there is no mkdocs, so the packages have the documents and no site of them", file=sys.stderr)
        return {}
    with tempfile.TemporaryDirectory() as room:
        subprocess.run([HERE / "site", room], env={**os.environ, "SOURCE_DATE_EPOCH": str(when)}, check=True)
        return {path.relative_to(room).as_posix(): path.read_bytes() for path in Path(room).rglob("*") if path.is_file()}


def contents(program: bytes, extension: Optional[bytes], when: int) -> Files:
    """The files of the program's package: each path with its bytes and its mode."""
    found = {"usr/bin/tdl": (program, PROGRAM_MODE)}
    for path, source in FILES.items():
        content = (TOP / source).read_bytes()
        found[path] = (packed(content) if path.endswith(".gz") else content, PROGRAM_MODE if path in PROGRAMS else FILE_MODE)
    module = backend.contents(None, "", extension).items()
    found.update((f"{MODULES}/{path}", (content, FILE_MODE)) for path, (content, _) in module if path.startswith("tdl/"))
    examples = TOP / "examples"
    for place in sorted(path for path in examples.rglob("*") if path.is_file() and "__pycache__" not in path.parts):
        mode = PROGRAM_MODE if os.access(place, os.X_OK) else FILE_MODE
        found[f"usr/share/tdl/examples/{place.relative_to(examples).as_posix()}"] = (place.read_bytes(), mode)
    for place in [TOP / "README.md", *sorted(path for path in (TOP / "docs").rglob("*") if path.is_file())]:
        found[f"usr/share/doc/tdl/{place.relative_to(TOP).as_posix()}"] = (place.read_bytes(), FILE_MODE)
    found.update((f"usr/share/doc/tdl/html/{path}", (content, FILE_MODE)) for path, content in site(when).items())
    found["usr/share/man/man7/tdl-messages.7.gz"] = (packed(messages.page().encode("utf-8")), FILE_MODE)
    found["usr/share/doc/tdl/changelog.gz"] = (packed(changes(when).encode("utf-8")), FILE_MODE)
    return dict(sorted(found.items()))


def symbols() -> str:
    """The symbols of the library, as dpkg-shlibdeps reads them."""
    text = library.MAP.read_text("ascii")
    node, names = text.split()[0], re.findall(r"^ +(tdl_\w+);", text, re.MULTILINE)
    listed = "".join(f" {name}@{node} 1.0.0\n" for name in sorted([node, *names]))
    return f"{library.SONAME} libtdl1 #MINVER#\n{listed}"


def documents_of_library(when: int) -> Files:
    """The documents of each package of the library and over it, by their names in its folder."""
    changed = packed(changes(when).encode("utf-8"))
    return {"copyright": ((HERE / "libtdl" / "copyright").read_bytes(), FILE_MODE), "changelog.gz": (changed, FILE_MODE)}


def library_contents(folder: Path, when: int) -> list[Files]:
    """The files of the library's two packages: each path with its bytes and its mode."""
    whole = (folder / library.SONAME).read_bytes(), FILE_MODE
    shared = {f"{LIBRARIES}/{WHOLE_NAME}": whole, f"{LIBRARIES}/{library.SONAME}": (WHOLE_NAME.encode(), LINK_MODE)}
    described = (library.SOURCES / "tdl.pc").read_text("ascii").replace("@VERSION@", VERSION)
    for_compilers = {
        "usr/include/tdl.h": (library.HEADER.read_bytes(), FILE_MODE),
        f"{LIBRARIES}/{library.ARCHIVE}": ((folder / library.ARCHIVE).read_bytes(), FILE_MODE),
        f"{LIBRARIES}/libtdl.so": (library.SONAME.encode(), LINK_MODE),
        f"{LIBRARIES}/pkgconfig/tdl.pc": (described.encode(), FILE_MODE),
        "usr/share/man/man3/tdl.3.gz": (packed((HERE / "man" / "tdl.3").read_bytes()), FILE_MODE),
    }
    for name, files in zip(LIBRARY_PACKAGES, (shared, for_compilers)):
        files.update({f"usr/share/doc/{name}/{path}": entry for path, entry in documents_of_library(when).items()})
    return [dict(sorted(files.items())) for files in (shared, for_compilers)]


def put(path: Path, content: bytes, mode: int) -> None:
    """Writes a file of a package, or a link."""
    if mode == LINK_MODE:
        path.symlink_to(content.decode())
    else:
        path.write_bytes(content)
        path.chmod(mode)


def make_deb(control: Path, files: Files, when: int, to: Path, more: dict[str, str]) -> None:
    """Writes a Debian package of a file of control, with more files for dpkg."""
    asked = [content for content, _ in files.values() if content[:4] == b"\x7fELF"]
    text = control.read_text("ascii").replace("VERSION", VERSION).replace("GLIBC", least_c_library(*asked) if asked else "")
    size = sum((len(content) + 1023) // 1024 for content, _ in files.values())
    text = text.replace("Depends:", f"Installed-Size: {size}\nDepends:", 1)
    sums = "".join(f"{hashlib.md5(content).hexdigest()}  {path}\n" for path, (content, mode) in files.items() if mode != LINK_MODE)
    for_dpkg = {"control": text, "md5sums": sums, **more}
    whole = {**files, **{f"DEBIAN/{name}": (content.encode(), FILE_MODE) for name, content in for_dpkg.items()}}
    with tempfile.TemporaryDirectory() as room:
        root = Path(room, "root")
        root.mkdir(FOLDER_MODE)
        for folder in folders_of(whole):
            (root / folder).mkdir(FOLDER_MODE)
        for path, (content, mode) in whole.items():
            put(root / path, content, mode)
        for path in [*whole, *reversed(folders_of(whole)), "."]:
            if (root / path).is_dir() and not (root / path).is_symlink():
                (root / path).chmod(FOLDER_MODE)
            os.utime(root / path, (when, when), follow_symlinks=False)
        env = {**os.environ, "SOURCE_DATE_EPOCH": str(when)}
        words = ["dpkg-deb", "--root-owner-group", "-Zxz", "--build", str(root), str(to)]
        subprocess.run(words, env=env, check=True, stdout=subprocess.DEVNULL)


def make_debs(files: Files, of_library: list[Files], of_databases: dict[str, Files], when: int, folder: Path) -> list[Path]:
    """Writes the Debian packages, and returns their paths."""
    made = [folder / f"tdl_{VERSION}_amd64.deb"]
    make_deb(HERE / "control", files, when, made[0], {})
    for_linking: dict[str, str] = {"shlibs": f"libtdl 1 libtdl1 (>= {VERSION})\n", "symbols": symbols(), "triggers": "activate-noawait ldconfig\n"}
    for name, some in {**dict(zip(LIBRARY_PACKAGES, of_library)), **of_databases}.items():
        made.append(folder / f"{name}_{VERSION}_amd64.deb")
        make_deb(HERE / "libtdl" / f"{name}.control", some, when, made[-1], for_linking if name == LIBRARY_PACKAGES[0] else {})
    return made


def library_given(folder: Optional[Path]) -> Optional[Path]:
    """The folder of the library, or nothing if it is not built."""
    if folder or library.is_current():
        return folder or library.OUT
    print("make: the library is not built, or is older than its sources, so no package of it is made: bin/build proves and builds it", file=sys.stderr)
    return None


def module_part(folder: Optional[Path]) -> Optional[bytes]:
    """The module's part over the library, or nothing if there is none to be had."""
    try:
        return backend.extension(library.HEADER.parent, folder / library.ARCHIVE) if folder else None
    except backend.Unbuilt as why:
        print(f"make: {why}, so the module asks the program", file=sys.stderr)
        return None


def main() -> int:
    """Makes the packages, and answers the status."""
    asked = argparse.ArgumentParser(usage="%(prog)s [FOLDER] [--program FILE] [--library FOLDER]")
    asked.add_argument("folder", nargs="?", type=Path, default=HERE / "out")
    asked.add_argument("--program", type=Path)
    asked.add_argument("--library", type=Path, metavar="FOLDER")
    given = asked.parse_args()
    if not given.program and not repository.is_current():
        print("make: the program is not built, or is older than its sources: bin/build proves and builds it", file=sys.stderr)
        return 2
    os.umask(0o022)
    when, built = moment(), library_given(given.library)
    program, extension = (given.program or PROGRAM).read_bytes(), module_part(built)
    files = contents(program, extension, when)
    of_library = library_contents(built, when) if built else []
    given.folder.mkdir(parents=True, exist_ok=True)
    made = [given.folder / f"tdl-{VERSION}-x86_64-linux.tar.gz"]
    every = {path: entry for some in (files, *of_library) for path, entry in some.items()}
    made[0].write_bytes(packed(tar_of({f"tdl-{VERSION}/{path}": entry for path, entry in sorted(every.items())}, when)))
    if shutil.which("dpkg-deb"):
        of_databases = database_packages.contents(built, documents_of_library(when)) if built else {}
        made += make_debs(files, of_library, of_databases, when, given.folder)
    else:
        print("make: there is no dpkg-deb, so no .deb is made", file=sys.stderr)
    least = least_c_library(program, extension or b"").replace(".", "_")
    made.append(backend.write_wheel(given.folder, when, program, f"manylinux_{least}_x86_64", extension))
    if image.lack():
        print(f"make: there is no {image.lack()}, so no image is made", file=sys.stderr)
    else:
        made.append(given.folder / f"tdl-{VERSION}-oci.tar")
        inside = image.files_of(given.program or PROGRAM, files["usr/share/doc/tdl/copyright"][0])
        made[-1].write_bytes(image.make_image(inside, when, VERSION))
    sums = "".join(f"{hashlib.sha256(path.read_bytes()).hexdigest()}  {path.name}\n" for path in made)
    (given.folder / "SHA256SUMS").write_text(sums, "ascii")
    print(*(path.name for path in made), "SHA256SUMS", sep="\n")
    return 0
