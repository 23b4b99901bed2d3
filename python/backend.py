"""backend: makes the wheel of the module, for pip (PEP 517) and for packaging/make, by the standard library alone.

The wheel that pip makes of this folder has no program. It has the part over the library, library.c, if there are a C compiler, Python's headers
and libtdl: that of pkg-config, or of the checkout. Two wheels of the same sources, program, library and time are the same bytes.
"""
from __future__ import annotations

import base64
import hashlib
import os
import re
import shlex
import shutil
import subprocess
import sysconfig
import tempfile
import time
import zipfile
from pathlib import Path
from typing import Dict, List, Optional, Tuple, Union

HERE = Path(__file__).resolve().parent
CHECKOUT = HERE.parent
EXTENSION, STABLE = "tdl/_library.abi3.so", "cp39-abi3"
# the module's part is one file that exports its entry alone
FLAGS = ["-O2", "-fPIC", "-shared", "-fvisibility=hidden", "-Wl,--exclude-libs,ALL", "-Wl,-z,relro,-z,now", "-Wl,--build-id=sha1", "-s"]
VERSION = re.search(r'^__version__ = "(.*)"$', (HERE / "src/tdl/__init__.py").read_text("utf-8"), re.MULTILINE)[1]  # type: ignore[index]
METADATA = f"""Metadata-Version: 2.1
Name: tdl
Version: {VERSION}
Summary: GS1 identities translated: tags, EPC URIs, barcodes and GS1 Digital Links, by the proved program tdl
License: Apache-2.0
Requires-Python: >=3.9
Description-Content-Type: text/markdown

"""
FILE_MODE, PROGRAM_MODE = 0o644, 0o755
FIRST_TIME = 315_532_800  # that of a zip


class Unbuilt(Exception):
    """The part over the library cannot be built, for this reason."""


def extension(*library: Union[Path, str]) -> bytes:
    """Returns the part over the library: `library` is the folder of tdl.h and the file libtdl.a, or the words of pkg-config."""
    compiler, headers = shutil.which("cc"), sysconfig.get_path("include")
    if not compiler:
        raise Unbuilt("there is no C compiler (Debian's package gcc)")
    if not Path(headers, "Python.h").is_file():
        raise Unbuilt("there are no headers of Python (Debian's package python3-dev)")
    words = [f"-I{it}" if isinstance(it, Path) and it.is_dir() else str(it) for it in library]
    with tempfile.TemporaryDirectory() as room:
        made = Path(room, "made.so")
        command = [compiler, *FLAGS, f"-I{headers}", "-o", str(made), "library.c", *words]
        done = subprocess.run(command, cwd=HERE, stdin=subprocess.DEVNULL, stdout=subprocess.PIPE, stderr=subprocess.STDOUT, text=True, check=False)
        if done.returncode:
            raise Unbuilt(f"library.c does not compile:\n{done.stdout}")
        return made.read_bytes()


def _installed() -> Optional[bytes]:
    """Returns the part over the library that is installed, or else that of the checkout, or None."""
    found: List[Union[Path, str]] = [CHECKOUT / "packaging/libtdl", CHECKOUT / "crates/tdl_c/out/libtdl.a"]
    if shutil.which("pkg-config"):
        told = subprocess.run(["pkg-config", "--cflags", "--libs", "tdl"], stdout=subprocess.PIPE, stderr=subprocess.DEVNULL, text=True, check=False)
        found = [*shlex.split(told.stdout)] if not told.returncode else found
    try:
        return extension(*found)
    except Unbuilt:
        return None


def contents(program: Optional[bytes], tag: str, extension: Optional[bytes] = None) -> Dict[str, Tuple[bytes, int]]:
    """Returns the files of the wheel: each path with its bytes and its mode."""
    own = {".pyc", ".so"}
    paths = (path for path in (HERE / "src/tdl").rglob("*") if path.is_file() and path.suffix not in own and "bin" not in path.parts)
    found = {path.relative_to(HERE / "src").as_posix(): (path.read_bytes(), FILE_MODE) for path in paths}
    found.update({f"tdl/documents/{path.name}": (path.read_bytes(), FILE_MODE) for path in (CHECKOUT / "tables").glob("*.json")})
    if program is not None:
        found["tdl/bin/tdl"] = (program, PROGRAM_MODE)
    if extension is not None:
        found[EXTENSION] = (extension, FILE_MODE)
    info = f"tdl-{VERSION}.dist-info"
    wheel = f"Wheel-Version: 1.0\nGenerator: tdl\nRoot-Is-Purelib: {'false' if program or extension else 'true'}\nTag: {tag}\n"
    found[f"{info}/METADATA"] = (METADATA.encode() + (HERE / "README.md").read_bytes(), FILE_MODE)
    found[f"{info}/WHEEL"] = (wheel.encode(), FILE_MODE)
    sums = ((path, base64.urlsafe_b64encode(hashlib.sha256(content).digest()).rstrip(b"=").decode(), len(content)) for path, (content, _) in sorted(found.items()))
    record = "".join(f"{path},sha256={checksum},{size}\n" for path, checksum, size in sums)
    return {**dict(sorted(found.items())), f"{info}/RECORD": (f"{record}{info}/RECORD,,\n".encode(), FILE_MODE)}


def write_wheel(folder: Path, when: int, program: Optional[bytes] = None, platform: str = "any", extension: Optional[bytes] = None) -> Path:
    """Writes the wheel to a folder and returns its path. `platform` says which machines it is for, if a part of it is compiled."""
    tag = f"{STABLE if extension else 'py3-none'}-{platform if program or extension else 'any'}"
    to = folder / f"tdl-{VERSION}-{tag}.whl"
    moment = time.gmtime(max(when, FIRST_TIME))[:6]
    with zipfile.ZipFile(to, "w", zipfile.ZIP_DEFLATED) as archive:
        for path, (content, mode) in contents(program, tag, extension).items():
            entry = zipfile.ZipInfo(path, moment)
            entry.external_attr, entry.compress_type = (0o100000 | mode) << 16, zipfile.ZIP_DEFLATED
            archive.writestr(entry, content)
    return to


def build_wheel(wheel_directory: str, config_settings: object = None, metadata_directory: object = None) -> str:
    """Makes the wheel that pip asks for and returns its name."""
    platform = sysconfig.get_platform().replace("-", "_").replace(".", "_")
    return write_wheel(Path(wheel_directory), int(os.environ.get("SOURCE_DATE_EPOCH", time.time())), None, platform, _installed()).name
