"""The image for containers, which runs here without a container engine.

Two images are the same bytes. skopeo copies the archive, and umoci unpacks it. There its own command runs in a chroot, as its own user, as
process 1 of a PID namespace, over the linkset in the image and over one that is put in. SIGTERM ends it, while the program alone as process 1
ignores that; a process that may not have the memory that it needs ends with status 9. What needs root or the right to make namespaces is skipped
without it.
"""
import http.client
import json
import os
import shutil
import signal
import subprocess
from contextlib import contextmanager
from pathlib import Path
from time import monotonic, sleep
from typing import Any, Iterator, Optional, Sequence

import pytest

from tools import image
from tools.common import HOST, PATIENCE, Process, Word, begun, children_of, free_port, run, temporary, there
from tools.repository import TOP, VERSION

pytestmark = [pytest.mark.needs("skopeo", "umoci", str(image.TINI), "unshare", "dpkg-query"), pytest.mark.xdist_group("image")]
MOST_BYTES, NOBODY, STOPS = 2_000_000, 65532, 3
ITEM, TARGET, HEALTH = "/01/09506000134352", "https://example.com/item", "/.well-known/gs1resolver"
LINKSET = {"linkset": [{"anchor": ITEM, "gs1:defaultLink": [{"href": TARGET}]}]}
# a linkset that needs some 50 MiB, and the bytes that its process may have
MANY = {"linkset": [{"anchor": ITEM, "x": [{"href": f"https://example.com/{number}"} for number in range(60_000)]}]}
FEW_BYTES = 16 << 20
INSIDE = {"usr/bin/tdl", "usr/bin/tini", "etc/tdl/links.json", "etc/passwd", "usr/share/common-licenses/Apache-2.0"}
INSIDE |= {f"usr/share/doc/{name}/copyright" for name in ("tdl", "tini", "libc6")}
APART = ["unshare", "--pid", "--fork", "--kill-child"]


class Container:
    """The unpacked image, and how its command runs in it."""

    def __init__(self, bundle: Path) -> None:
        self.root, process = bundle / "rootfs", json.loads((bundle / "config.json").read_text("utf-8"))["process"]
        self.args, self.user, self.environment = process["args"], process["user"], dict(word.split("=", 1) for word in process["env"])
        self.links = self.root / "etc/tdl/links.json"

    def words(self, port: int, args: Optional[list[str]] = None, before: Sequence[str] = ()) -> list[Word]:
        """Returns the command that runs the image's command as process 1 in the image, at a port."""
        user = f"--userspec={self.user['uid']}:{self.user['gid']}"
        listen = [word.replace("0.0.0.0:8080", f"0.0.0.0:{port}") for word in args or self.args]
        return [*APART, *before, there(shutil.which("chroot")), user, self.root, *listen]

    def start(self, args: Optional[list[str]] = None) -> tuple[Process, int]:
        """Starts it, and returns the process that holds the namespace, and the port once it answers there."""
        port = free_port()
        held = begun(*self.words(port, args), env=self.environment | {"PATH": os.environ["PATH"]}, stderr=subprocess.DEVNULL)
        while held.poll() is None and answer(port, "/") is None:
            sleep(0.02)
        return held, port


def answer(port: int, path: str) -> Optional[tuple[int, Optional[str]]]:
    """Returns the status and the target of a reply, or nothing if there is none."""
    connection = http.client.HTTPConnection(HOST, port, timeout=PATIENCE)
    try:
        # (a process serves nobody else while a connection is open)
        connection.request("GET", path, headers={"Connection": "close"})
        reply = connection.getresponse()
        return reply.status, reply.getheader("location")
    except (OSError, http.client.HTTPException):
        return None
    finally:
        connection.close()


def first_inside(held: Process) -> int:
    """Returns the number, outside, of process 1 of the namespace."""
    return children_of(held.pid)[0]


def users(pid: int) -> set[int]:
    """Returns the user of a process, and of those below it."""
    return {os.stat(f"/proc/{pid}").st_uid}.union(*map(users, children_of(pid)))


@pytest.fixture(scope="module")
def files(program: Path) -> Any:
    """The files of the image."""
    return image.files_of(program, (TOP / "packaging/copyright").read_bytes())


@pytest.fixture(scope="module")
def archive(files: Any, tmp_path_factory: pytest.TempPathFactory) -> Path:
    """The archive of the image."""
    made = tmp_path_factory.mktemp("image") / "tdl.tar"
    made.write_bytes(image.make_image(files, 0, VERSION))
    return made


@pytest.fixture(scope="module")
def unpacked(archive: Path) -> Iterator[Path]:
    """The folder of the image that skopeo copied and umoci unpacked."""
    if os.geteuid() or run(*APART, "true")[0]:
        pytest.skip("needs root and the right to make namespaces")
    # (the image's user reads it, to whom pytest's own folders are closed)
    with temporary("tdl-image-") as room:
        room.chmod(0o755)
        layout, bundle = room / "layout", room / "bundle"
        assert run("skopeo", "copy", f"oci-archive:{archive}", f"oci:{layout}:{VERSION}")[0] == 0
        status, told = run("umoci", "unpack", "--image", f"{layout}:{VERSION}", bundle)
        assert status == 0, told
        # (umoci makes the folder for its user alone)
        bundle.chmod(0o755)
        yield bundle


@pytest.fixture
def container(unpacked: Path) -> Iterator[Container]:
    """The unpacked image, whose linkset is its own again after a test."""
    made = Container(unpacked)
    own = made.links.read_bytes()
    yield made
    made.links.write_bytes(own)


@contextmanager
def started(container: Container, args: Optional[list[str]] = None) -> Iterator[tuple[Process, int]]:
    """Starts the image's command, or another, for a block."""
    held, port = container.start(args)
    try:
        yield held, port
    finally:
        held.kill()
        held.wait()


def test_two_images_are_the_same_bytes(files: Any, archive: Path) -> None:
    assert image.make_image(files, 0, VERSION) == archive.read_bytes()


def test_has_its_files_and_is_small(files: Any, archive: Path) -> None:
    assert archive.stat().st_size <= MOST_BYTES
    assert INSIDE - files.keys() == set()
    assert [path for path in files if path.endswith((".md", "/sh"))] == []


def test_has_its_labels(archive: Path) -> None:
    status, told = run("skopeo", "inspect", f"oci-archive:{archive}")
    assert status == 0 and json.loads(told)["Labels"] == image.labels(VERSION), told


def test_serves_the_linkset_in_the_image_as_its_user(container: Container) -> None:
    with started(container) as (held, port):
        assert answer(port, ITEM) == (404, None)
        assert users(first_inside(held)) == {NOBODY}


def test_serves_a_linkset_that_is_put_in(container: Container) -> None:
    container.links.write_text(json.dumps(LINKSET), "ascii")
    description = container.links.parent / "resolver.json"
    description.write_text("{}", "ascii")
    with started(container, [*container.args, "--describe", "/etc/tdl/resolver.json"]) as (_, port):
        assert answer(port, ITEM) == (307, TARGET)
        assert answer(port, HEALTH) == (200, None)
    description.unlink()


def stop(held: Process) -> float:
    """Sends SIGTERM to process 1, and returns the seconds until its namespace ended."""
    begun = monotonic()
    os.kill(first_inside(held), signal.SIGTERM)
    assert held.wait(PATIENCE) == 128 + signal.SIGTERM
    return monotonic() - begun


def test_sigterm_ends_it_within_a_second(container: Container) -> None:
    took = []
    for _ in range(STOPS):
        with started(container) as (held, _):
            took.append(stop(held))
    # (a machine that stands still for a moment does so once)
    assert min(took) < 1


def test_the_program_alone_as_process_1_ignores_sigterm(container: Container) -> None:
    container.links.write_text(json.dumps(LINKSET), "ascii")
    with started(container, container.args[container.args.index("/usr/bin/tdl") :]) as (held, port):
        os.kill(first_inside(held), signal.SIGTERM)
        assert answer(port, ITEM) == (307, TARGET)


@pytest.mark.parametrize("content, before, wanted", (
    pytest.param("[]", [], 3, id="a linkset that is rejected"),
    pytest.param(json.dumps(MANY), ["prlimit", f"--data={FEW_BYTES}"], 9, id="a linkset that needs more memory"),
))
def test_its_status_is_that_of_the_program(container: Container, content: str, before: list[str], wanted: int) -> None:
    container.links.write_text(content, "ascii")
    assert run(*container.words(free_port(), before=before), env={"PATH": os.environ["PATH"]})[0] == wanted
