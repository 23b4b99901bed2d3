"""image: makes an image of `tdl serve` for containers, as an archive of an OCI image layout, by the standard library alone.

The image has the program, the files of the C library that it asks for, and tini, which passes signals on to it. Their copyright files with
the licenses that these name, and the records by which scanners know Debian's packages, are there too; a shell and documents are not. The same
files and time give the same bytes.
"""
import hashlib
import json
import os
import re
import shutil
import subprocess
import time
from pathlib import Path
from typing import Any

from tools.archive import FILE_MODE, PROGRAM_MODE, Files, packed, tar_of
from tools.common import Word, run

TINI = Path("/usr/bin/tini-static")
USER = 65532
COMMAND = ["serve", "--links", "/etc/tdl/links.json", "--listen", "0.0.0.0:8080", "--count", "1000000"]
KIND = "application/vnd.oci.image"
LICENSE = re.compile(rb"/usr/share/common-licenses/[A-Za-z0-9.-]*[A-Za-z0-9]")
OWN = {
    "etc/passwd": f"tdl:x:{USER}:{USER}::/:/usr/bin/tdl\n",
    "etc/group": f"tdl:x:{USER}:\n",
    "etc/tdl/links.json": '{"linkset":[]}\n',
}


def lack() -> str:
    """Returns what an image needs and this machine lacks, or an empty text."""
    return ", ".join([tool for tool in ("ldd", "dpkg-query") if not shutil.which(tool)] + [TINI.name] * (not TINI.is_file()))


def printed(*words: Word) -> str:
    """Returns what a command prints, or nothing if it fails."""
    status, text = run(*words, stderr=subprocess.DEVNULL, env={**os.environ, "LC_ALL": "C"})
    return "" if status else text


def libraries(program: Path) -> list[Path]:
    """Returns the shared libraries that a program asks for, and its loader."""
    return [Path(path) for path in re.findall(r"(/\S+) \(0x", printed("ldd", program))]


def package_of(path: Path) -> str:
    """Returns Debian's package of a file, with its machine."""
    owner = printed("dpkg-query", "-S", path) or printed("dpkg-query", "-S", path.resolve())
    return owner.rpartition(": ")[0]


def of_package(package: str) -> Files:
    """Returns the copyright file of a package, and its record."""
    name = package.partition(":")[0]
    copyright_ = Path("/usr/share/doc", name, "copyright").read_bytes()
    record = printed("dpkg-query", "-s", package).encode()
    return {f"usr/share/doc/{name}/copyright": (copyright_, FILE_MODE), f"var/lib/dpkg/status.d/{name}": (record, FILE_MODE)}


def files_of(program: Path, copyright_: bytes) -> Files:
    """Returns the files of the image: each path with its bytes and its mode."""
    taken = libraries(program)
    found = {path: (content.encode("ascii"), FILE_MODE) for path, content in OWN.items()}
    found.update((str(path).lstrip("/"), (path.read_bytes(), PROGRAM_MODE)) for path in taken)
    found["usr/bin/tdl"] = (program.read_bytes(), PROGRAM_MODE)
    found["usr/bin/tini"] = (TINI.read_bytes(), PROGRAM_MODE)
    found["usr/share/doc/tdl/copyright"] = (copyright_, FILE_MODE)
    found["etc/os-release"] = (Path("/etc/os-release").read_bytes(), FILE_MODE)
    for package in sorted({package_of(path) for path in [TINI, *taken]}):
        found.update(of_package(package))
    named = {name.decode() for path, (content, _) in found.items() if path.endswith("/copyright") for name in LICENSE.findall(content)}
    found.update((name.lstrip("/"), (Path(name).read_bytes(), FILE_MODE)) for name in named)
    return dict(sorted(found.items()))


def json_of(value: object) -> bytes:
    """Returns a JSON text of one spelling."""
    return json.dumps(value, separators=(",", ":"), sort_keys=True).encode("ascii")


def labels(version: str) -> dict[str, str]:
    """Returns the labels of the image."""
    told = {"title": "tdl", "description": "resolver of GS1 Digital Links", "version": version, "licenses": "Apache-2.0"}
    return {f"org.opencontainers.image.{name}": value for name, value in told.items()}


def config_of(layer: bytes, when: int, version: str) -> dict[str, Any]:
    """Returns what the image is run by."""
    how: dict[str, Any] = {"User": f"{USER}:{USER}", "Entrypoint": ["/usr/bin/tini", "--", "/usr/bin/tdl"], "Cmd": COMMAND}
    how.update({"WorkingDir": "/", "StopSignal": "SIGTERM", "ExposedPorts": {"8080/tcp": {}}, "Env": ["PATH=/usr/bin"], "Labels": labels(version)})
    created = time.strftime("%Y-%m-%dT%H:%M:%SZ", time.gmtime(when))
    layers = {"type": "layers", "diff_ids": [f"sha256:{hashlib.sha256(layer).hexdigest()}"]}
    history = [{"created": created, "created_by": "packaging/make"}]
    return {"architecture": "amd64", "os": "linux", "created": created, "config": how, "rootfs": layers, "history": history}


def make_image(files: Files, when: int, version: str) -> bytes:
    """Returns the archive of an image."""
    blobs: Files = {}

    def blob(kind: str, content: bytes) -> dict[str, Any]:
        checksum = hashlib.sha256(content).hexdigest()
        blobs[f"blobs/sha256/{checksum}"] = (content, FILE_MODE)
        return {"mediaType": f"{KIND}.{kind}", "digest": f"sha256:{checksum}", "size": len(content)}

    layer = tar_of(files, when)
    config, layers = blob("config.v1+json", json_of(config_of(layer, when, version))), [blob("layer.v1.tar+gzip", packed(layer))]
    manifest = blob("manifest.v1+json", json_of({"schemaVersion": 2, "mediaType": f"{KIND}.manifest.v1+json", "config": config, "layers": layers}))
    # (podman takes the name from the second, skopeo and umoci the tag from the first)
    named = {"org.opencontainers.image.ref.name": version, "io.containerd.image.name": f"localhost/tdl:{version}"}
    index = {"schemaVersion": 2, "mediaType": f"{KIND}.index.v1+json", "manifests": [{**manifest, "annotations": named}]}
    head = {"oci-layout": (json_of({"imageLayoutVersion": "1.0.0"}), FILE_MODE), "index.json": (json_of(index), FILE_MODE)}
    return tar_of({**head, **blobs}, when)
