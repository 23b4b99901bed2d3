"""The shipped nginx and HAProxy configurations before four processes that the unit's command line starts: no request is lost.

Not while a process is killed, while the shipped script puts a new linkset in place or rejects one, while it puts a new program into use, in a burst,
beside slow readers, with bodies, or where counts end; nor if all four end together, by equal counts or killed at one instant, if one is stopped, or
if one or two are gone in a burst. Stand-ins of systemctl and systemd-run end and check.
"""
import asyncio
import json
import os
import re
import shutil
import signal
import subprocess
import textwrap
from pathlib import Path
from select import select
from time import sleep
from typing import Any, Callable, Iterator, Optional, Sequence

import pytest

from tools import fronts
from tools.common import Process, begun, ending, free_port, run, temporary, there
from tools.repository import TOP

Start = Callable[..., Process]
STARTS: dict[str, Start] = {"nginx": fronts.start_nginx, "haproxy": fronts.start_haproxy}

# requests a second, of a burst, with bodies and through a cache, the seconds of slow readers, and what the unit's counts are divided by
RATE, BURST, BODIES, CACHED, SLOW_SECONDS, DIVISOR = 150, 1_500, 100, 40, 6, 2_500
# a limit of memory that the check of a linkset exceeds, in bytes
LITTLE = 12 << 20
# requests while the program is replaced, while processes end together, and the count of these; while one is stopped; the times that one
# request is sent
UPGRADED, TOGETHER, COUNT, STOPPED, SENDS = 2_400, 12_000, 1_000, 600, 2
ITEM, LANGUAGES, MANY = "/01/09506000134352", "/01/00000000000024", "/01/00000000000017"
OLD, NEW = "https://example.com/old", "https://example.com/new"
EVERY = [pytest.param(name, marks=[pytest.mark.needs(name, "openssl", "curl"), pytest.mark.xdist_group(name)]) for name in STARTS]
every_front = pytest.mark.parametrize("name", EVERY, indirect=True, scope="module")


def front_linkset(target: str) -> str:
    """Returns a linkset with an item that leads to a target, one in two languages, and one whose links take 3 MB."""
    many = [{"href": f"https://a.example/{number:02000}"} for number in range(1_500)]
    languages = [{"href": f"https://example.com/{name}", "hreflang": [name]} for name in ("en", "de")]
    kept = {ITEM: [{"href": target}], LANGUAGES: languages}
    contexts = [{"anchor": anchor, "gs1:defaultLink": links} for anchor, links in kept.items()]
    return json.dumps({"linkset": [*contexts, {"anchor": MANY, "x": many}]})


STAND_INS = {
    "systemctl": """#!/bin/sh
# stands in for systemctl: what it asks of a process stands in the file of its name
for word; do noted=$(dirname "$0")/$word; done
was=$(cat "$noted")
case $1 in
is-failed) [ "$was" = failed ] ;;
show) cat "$(dirname "$0")/limit" ;;
restart)
    if [ "$was" = failed ]; then was=again; echo again > "$noted"; else kill "$was"; fi
    while [ "$(cat "$noted")" = "$was" ]; do sleep 0.02; done ;;
esac
""",
    "systemd-run": """#!/bin/sh
# stands in for systemd-run: the command alone, within the limit of memory, as another user where that can be
while [ "$1" != tdl ]; do
    case $1 in LimitAS=*) ulimit -v $((${1#LimitAS=} / 1024)) ;; esac
    shift
done
shift
[ "$(id -u)" = 0 ] || exec "$TDL" "$@"
exec setpriv --reuid=65534 --regid=65534 --clear-groups "$TDL" "$@"
""",
}


class Stage:
    """Four processes of the unit behind a front, each at a free port, over a linkset of their own."""

    def __init__(self, root: Path, room: Path, start: Start, divisor: int = 1, count: Optional[int] = None) -> None:
        self.root, self.room, self.front, self.links = root, room, free_port(), room / "links.json"
        room.mkdir()
        self.links.write_text(front_linkset(OLD), "ascii")
        self.limit(int(fronts.setting(root, "LimitAS").removesuffix("M")) << 20)
        for name, text in STAND_INS.items():
            (room / name).write_text(text, "ascii")
            (room / name).chmod(0o755)
        self.ports = [free_port() for _ in fronts.SHIPPED_PORTS]
        self.services = [self.service(shipped, port, divisor, count) for shipped, port in zip(fronts.SHIPPED_PORTS, self.ports)]
        self.is_up = all([fronts.listens(port) for port in self.ports])
        addresses = [f"{fronts.HOST}:{port}" for port in self.ports]
        self.plain = free_port()
        self.process = start(root, room, addresses, self.front, fronts.certificate(room), self.plain)
        self.is_up = fronts.listens(self.front) and self.is_up

    def service(self, shipped: int, port: int, divisor: int, count: Optional[int]) -> fronts.Service:
        """Starts a process as the unit of a shipped port does."""
        noted = self.room / f"tdl@{port}"
        return fronts.service(self.root, shipped, self.links, (fronts.HOST, port), divisor, count, noted=noted)

    def limit(self, size: int) -> int:
        """Sets the unit's limit of memory, as the stand-in of systemctl tells it, and returns the one before."""
        told = self.room / "limit"
        old = int(told.read_text("ascii")) if told.exists() else 0
        told.write_text(f"{size}\n", "ascii")
        return old

    def paced(self, doing: Callable[[], object], path: str = ITEM) -> list[fronts.Reply]:
        """Asks until `doing` has returned, and returns the replies."""
        return asyncio.run(fronts.paced(self.front, fronts.request(path), RATE, doing))

    def kept(self, count: int, told: Callable[[int], object] = lambda count: None, doing: Optional[Callable[[], object]] = None) -> list[fronts.Reply]:
        """Asks over connections that are kept, and returns the replies."""
        return asyncio.run(fronts.kept(self.front, fronts.request(ITEM).replace(b"Connection: close\r\n", b""), count, told, doing))

    def roll_out(self, content: str, *more: str) -> int:
        """Runs the shipped script over a new linkset, and returns its status."""
        new = self.room / "new.json"
        new.write_text(content, "ascii")
        named = {"TDL_LINKS": str(self.links), "TDL": f"{self.root}/usr/bin/tdl", "PATH": f"{self.room}:{os.environ['PATH']}"}
        return run(self.root / "usr/lib/tdl/rollout", new, *self.ports, *more, env=os.environ | named)[0]

    def end(self) -> None:
        """Ends all."""
        self.process.terminate()
        self.process.wait()
        for service in self.services:
            service.stop()


@pytest.fixture(scope="module")
def name(request: pytest.FixtureRequest) -> str:
    """The name of a front."""
    return str(request.param)


@pytest.fixture(scope="module")
def room() -> Iterator[Path]:
    """A folder that a user without rights reads too, to whom pytest's own are closed."""
    with temporary("tdl-fronts-") as made:
        made.chmod(0o755)
        yield made


@pytest.fixture(scope="module")
def own(root: Path, room: Path) -> Path:
    """The unpacked package, whose program a test replaces."""
    copied = room / "root"
    shutil.copytree(root, copied, symlinks=True)
    return copied


@pytest.fixture(scope="module")
def begin(own: Path, room: Path, name: str) -> Iterator[Callable[..., Stage]]:
    """A function that makes a stage behind the front."""
    stages: list[Stage] = []

    def made(**how: Any) -> Stage:
        stages.append(Stage(own, room / f"{name}-{len(stages)}", STARTS[name], **how))
        assert stages[-1].is_up, "the front does not listen, or a process does not"
        return stages[-1]

    yield made
    for stage in stages:
        stage.end()


@pytest.fixture(scope="module")
def stage(begin: Callable[..., Stage]) -> Stage:
    """Four processes behind the front."""
    return begin()


def none_lost(replies: Sequence[fronts.Reply], status: int = 307) -> None:
    """Fails if a reply did not come whole, or with another status."""
    assert replies and fronts.lost(replies, status) == 0, f"of {len(replies)}"


def targets_of(replies: Sequence[fronts.Reply]) -> set[Optional[str]]:
    """Returns where replies lead to."""
    return {reply[1].get("location") for reply in replies if reply}


@every_front
def test_a_process_is_killed(stage: Stage) -> None:
    service = stage.services[0]
    starts = service.starts

    def kill() -> None:
        service.kill()
        service.await_starts(starts + 1)
        sleep(1)

    none_lost(stage.paced(kill))
    assert service.starts == starts + 1


@every_front
def test_a_rollout(stage: Stage) -> None:
    statuses: list[int] = []
    none_lost(stage.paced(lambda: statuses.append(stage.roll_out(front_linkset(NEW)))))
    assert statuses == [0]
    after = stage.paced(lambda: sleep(1))
    none_lost(after)
    assert targets_of(after) == {NEW}


@every_front
def test_a_rollout_is_rejected(stage: Stage) -> None:
    """A linkset that is rejected, one for its memory, and one whose processes do not start."""
    assert stage.roll_out(front_linkset(NEW)) == 0
    starts, statuses, checking = [service.starts for service in stage.services], [], stage.room / "systemd-run"
    replies = stage.paced(lambda: statuses.append(stage.roll_out("[]")))
    enough = stage.limit(LITTLE)
    replies += stage.paced(lambda: statuses.append(stage.roll_out(front_linkset(OLD))))
    stage.limit(enough)
    assert [service.starts for service in stage.services] == starts
    kept = checking.read_text("ascii")
    checking.write_text("#!/bin/sh\n", "ascii")
    replies += stage.paced(lambda: statuses.append(stage.roll_out("[]")))
    checking.write_text(kept, "ascii")
    after = stage.paced(lambda: sleep(1))
    none_lost([*replies, *after])
    assert (statuses, targets_of(after)) == ([1, 1, 1], {NEW})
    assert [service.starts for service in stage.services][1:] == starts[1:]


@every_front
def test_a_new_program(stage: Stage) -> None:
    """A program that is put in place as dpkg does, and then into use by the shipped script."""
    program, statuses = stage.root / "usr/bin/tdl", []
    beside = program.with_suffix(".dpkg-new")
    shutil.copy(program, beside)
    beside.replace(program)
    none_lost(stage.kept(UPGRADED, doing=lambda: statuses.append(stage.roll_out(stage.links.read_text("ascii")))))
    assert statuses == [0]
    assert [service.pid for service in stage.services if not os.path.samefile(f"/proc/{service.pid}/exe", program)] == []


@every_front
def test_a_burst(stage: Stage) -> None:
    none_lost(asyncio.run(fronts.at_once(stage.front, fronts.request(ITEM), BURST)))


@every_front
def test_slow_readers_of_long_replies(stage: Stage) -> None:
    slow = [fronts.slow_reader(stage.front, fronts.request(f"{MANY}?linkType=all")) for _ in range(2 * len(stage.ports))]
    none_lost(stage.paced(lambda: sleep(SLOW_SECONDS)))
    for connection in slow:
        connection.close()


@every_front
def test_bodies(stage: Stage, name: str) -> None:
    """nginx drops a body, and HAProxy answers the request itself."""
    none_lost(asyncio.run(fronts.at_once(stage.front, fronts.request(ITEM, body=b"x" * 100_000), BODIES)), 307 if name == "nginx" else 400)


@every_front
@pytest.mark.needs("nginx")
def test_a_cache_in_front_answers_in_the_language_that_is_asked_for(stage: Stage, tmp_path: Path) -> None:
    port = free_port()
    store = f"proxy_cache_path {tmp_path}/kept keys_zone=kept:1m;"
    place = f"proxy_pass https://{fronts.HOST}:{stage.front}; proxy_cache kept; proxy_set_header Host id.example;"
    place += " add_header X-Kept $upstream_cache_status always;"
    with ending(fronts.nginx(tmp_path, f"server {{ listen {fronts.HOST}:{port}; location / {{ {place} }} }}", store)):
        assert fronts.listens(port)
        replies, kept = [], 0
        for number in range(CACHED):
            language = ("en", "de")[number % 2]
            reply = asyncio.run(fronts.ask(port, fronts.request(LANGUAGES, [f"Accept-Language: {language}"]), None))
            replies.append(reply)
            assert targets_of([reply]) == {f"https://example.com/{language}"}
            kept += reply is not None and reply[1].get("x-kept") == "HIT"
    none_lost(replies)
    assert kept >= CACHED - 4


@every_front
@pytest.mark.parametrize("field, values", (("Accept", ("text/html", "application/linkset")), ("Accept-Language", ("fr", "de"))))
def test_two_fields_of_one_name(stage: Stage, name: str, field: str, values: tuple[str, str]) -> None:
    """The front hands on both, or the first, as nginx before 1.23 does."""
    is_first = name == "nginx" and tuple(map(int, re.findall(r"\d+", run("nginx", "-v")[1])[:2])) < (1, 23)
    sent = [f"{field}: {value}" for value in values]
    wanted = fronts.direct(stage.ports[0], fronts.request(LANGUAGES, sent[:1] if is_first else sent))
    got = asyncio.run(fronts.ask(stage.front, fronts.request(LANGUAGES, sent), fronts.context()))
    parts = [(reply[0], reply[1].get("location"), reply[1].get("content-type")) if reply else None for reply in (wanted, got)]
    assert parts[1] == parts[0] is not None


def listed_targets(name: str) -> Iterator[tuple[bytes, int]]:
    """Yields the targets that docs/OPERATIONS.md says a front answers by itself, each with its status."""
    text = (TOP / "docs/OPERATIONS.md").read_text("utf-8")
    for target, status in re.findall(rf"^\| {name} \|.*\| `(\S+)` \| (\d+) \|$", text, re.MULTILINE):
        yield target.encode("utf-8"), int(status)


@every_front
def test_targets_that_a_front_answers_itself(stage: Stage, name: str) -> None:
    found = list(listed_targets(name))
    assert found, "docs/OPERATIONS.md lists none"
    for target, status in found:
        sent = fronts.request("/").replace(b" / ", b" " + target + b" ")
        reply = asyncio.run(fronts.ask(stage.front, sent, fronts.context()))
        assert (target, reply and reply[0]) == (target, status)


@every_front
def test_a_process_is_stopped(stage: Stage) -> None:
    stage.services[0].kill(signal.SIGSTOP)
    none_lost(stage.kept(STOPPED))
    stage.services[0].kill(signal.SIGCONT)


@every_front
def test_all_processes_are_killed_at_once(stage: Stage) -> None:
    def kill(count: int) -> None:
        if not count % (TOGETHER // 4) and count < TOGETHER:
            for service in stage.services:
                service.kill()

    none_lost(stage.kept(TOGETHER, kill))


@every_front
def test_a_burst_while_processes_are_gone(begin: Callable[..., Stage]) -> None:
    stage = begin()
    for service in stage.services[:2]:
        service.stop()
        none_lost(asyncio.run(fronts.at_once(stage.plain, fronts.request(ITEM), BURST, is_plain=True)))


@every_front
def test_counts_of_the_unit_end_apart(begin: Callable[..., Stage]) -> None:
    stage = begin(divisor=DIVISOR)

    def await_ends() -> None:
        for service in stage.services:
            service.await_starts(2)

    none_lost(stage.kept(COUNT, doing=await_ends))
    assert [service.starts for service in stage.services if service.starts < 2] == []


@every_front
def test_equal_counts_end_together(begin: Callable[..., Stage]) -> None:
    stage = begin(count=COUNT)
    none_lost(stage.kept(TOGETHER))
    assert [service.starts for service in stage.services if service.starts < 2] == []


@every_front
def test_a_request_that_ends_processes_is_handed_on_once(own: Path, name: str, tmp_path: Path) -> None:
    processes, front = [fronts.Ending() for _ in fronts.SHIPPED_PORTS], free_port()
    addresses = [f"{fronts.HOST}:{process.server_address[1]}" for process in processes]
    with ending(STARTS[name](own, tmp_path, addresses, front, fronts.certificate(tmp_path))):
        assert fronts.listens(front)
        reply = asyncio.run(fronts.ask(front, fronts.request(f"{fronts.ENDED}?linkType=all"), fronts.context()))
    for process in processes:
        process.shutdown()
        process.server_close()
    assert (reply and reply[0], sum(process.asked for process in processes)) == (502, SENDS)


def shown_metrics(first: str) -> str:
    """Returns the lines of configuration in docs/OPERATIONS.md that begin with these words."""
    text = (TOP / "docs/OPERATIONS.md").read_text("utf-8")
    return textwrap.dedent(there(re.search(rf"^( +){first}.*\n(?:\1.*\n)+", text, re.MULTILINE))[0])


@every_front
def test_the_metrics_that_the_document_shows(own: Path, name: str, tmp_path: Path) -> None:
    first, port, shipped, wanted = {
        "nginx": ("server {", 8088, "nginx.conf", "server accepts"), "haproxy": ("frontend metrics", 8404, "haproxy.cfg", "haproxy_frontend"),
    }[name]
    asked, front = free_port(), free_port()
    place = tmp_path / fronts.EXAMPLES / shipped
    place.parent.mkdir(parents=True)
    place.write_text((own / fronts.EXAMPLES / shipped).read_text("ascii") + shown_metrics(first).replace(str(port), str(asked)), "ascii")
    with ending(STARTS[name](tmp_path, tmp_path, [f"{fronts.HOST}:{free_port()}"], front, fronts.certificate(tmp_path))):
        assert fronts.listens(asked)
        assert wanted in run("curl", "-s", "-q", "--noproxy", "*", f"http://{fronts.HOST}:{asked}/metrics")[1]


class Hosts:
    """Two hosts, for which network namespaces stand, each with an address of its own."""

    def __init__(self) -> None:
        self.names = [f"tdl-{os.getpid()}-{number}" for number in (1, 2)]
        self.links = [f"tdl{os.getpid() % 100_000}{end}" for end in "ab"]
        self.addresses = ["10.213.1.2", "10.213.2.2"]

    def begin(self) -> bool:
        """Makes them, and returns whether that can be done here."""
        for name, link, address in zip(self.names, self.links, self.addresses):
            near = address[:-1] + "1"
            inside = ["ip", "-n", name]
            steps = [["ip", "netns", "add", name], ["ip", "link", "add", link, "type", "veth", "peer", "name", "near", "netns", name]]
            steps += [["ip", "address", "add", f"{near}/30", "dev", link], ["ip", "link", "set", link, "up"]]
            steps += [[*inside, "address", "add", f"{address}/30", "dev", "near"], [*inside, "link", "set", "near", "up"]]
            if any(run(*step)[0] for step in steps):
                return False
        return True

    def end(self) -> None:
        """Removes them."""
        for name in self.names:
            run("ip", "netns", "delete", name)


@pytest.mark.needs("ip", "haproxy", "openssl")
def test_one_of_two_hosts_goes_away(root: Path, tmp_path: Path) -> None:
    hosts, services = Hosts(), []
    try:
        if not hosts.begin():
            pytest.skip("needs the right to make network namespaces")
        front, port = free_port(), 8081
        links = root / "usr/share/tdl/examples/links.json"
        for name, address in zip(hosts.names, hosts.addresses):
            services.append(fronts.service(root, port, links, (address, port), before=["ip", "netns", "exec", name]))
        assert all([fronts.listens(port, address) for address in hosts.addresses])

        def go_away() -> None:
            sleep(1)
            run("ip", "-n", hosts.names[0], "link", "set", "near", "down")
            sleep(2)

        with ending(fronts.start_haproxy(root, tmp_path, [f"{address}:{port}" for address in hosts.addresses], front, fronts.certificate(tmp_path))):
            assert fronts.listens(front)
            none_lost(asyncio.run(fronts.paced(front, fronts.request(ITEM), RATE, go_away)))
    finally:
        for service in services:
            service.stop()
        hosts.end()


# stand-ins for two rollouts at once: a check waits where a file to hold it is named, and notes what it has checked
AT_ONCE = {
    "systemctl": "#!/bin/sh\n",
    "curl": "#!/bin/sh\n",
    "systemd-run": """#!/bin/sh
[ -z "$HOLD" ] || { echo > "$HOLD.begun"; read -r go < "$HOLD"; }
cat "$TDL_LINKS.new" >> "$TDL_LINKS.checked"
""",
}


def start_rollout(root: Path, place: Path, name: str, hold: str) -> Process:
    """Starts the shipped script over a linkset of this name."""
    (place / name).write_text(f"{name}\n", "ascii")
    named = {"TDL_LINKS": f"{place}/links.json", "PATH": f"{place}:{os.environ['PATH']}", "HOLD": hold}
    how: dict[str, Any] = {"stdout": subprocess.DEVNULL, "stderr": subprocess.PIPE, "text": True}
    return begun(root / "usr/lib/tdl/rollout", place / name, 8081, env={**os.environ, **named}, **how)


def test_of_two_rollouts_at_once_the_second_waits(root: Path, tmp_path: Path) -> None:
    """Each puts the linkset in place that it has checked."""
    for name, text in AT_ONCE.items():
        (tmp_path / name).write_text(text, "ascii")
        (tmp_path / name).chmod(0o755)
    for name in ("hold", "hold.begun"):
        os.mkfifo(tmp_path / name)
    # (open for both, so that neither waits for the other's end)
    hold, asked = (os.open(tmp_path / name, os.O_RDWR) for name in ("hold", "hold.begun"))
    first = start_rollout(root, tmp_path, "one", f"{tmp_path}/hold")
    select([asked, first.stderr], [], [])
    second = start_rollout(root, tmp_path, "two", "")
    assert there(second.stderr).readline() == "rollout: another rollout runs; this one waits for its end\n"
    os.write(hold, b"go\n")
    assert [(process.wait(), there(process.stderr).read()) for process in (first, second)] == [(0, ""), (0, "")]
    for file in (hold, asked):
        os.close(file)
    found = {end: (tmp_path / f"links.json{end}").read_text("ascii") for end in ("", ".old", ".checked")}
    assert found == {"": "two\n", ".old": "one\n", ".checked": "one\ntwo\n"}
