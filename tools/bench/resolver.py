"""bench/resolver: requests a second over one connection, of `tdl serve` and of nginx with the same links.

It makes linksets itself, each context with an anchor of its own and one target, and for nginx a `map` from their paths to the
targets; starts crates/tdl/out/tdl (which `bin/build` or `rt ci` leaves) and nginx with one worker, each on a free port of
127.0.0.1; and lets wrk ask for the links in turn over one connection that is kept, which either ends after 1,000 replies. It
prints a table in Markdown, which is that of docs/BENCHMARKS.md: the medians of the runs. Where nginx or wrk is missing it says
so and measures nothing of that.

Then it asks `tdl serve` over a connection for each request, one at a time, and prints the least processor time of a request.
"""
import json
import os
import re
import shutil
import socket
import statistics
import subprocess
import sys
import tempfile
import urllib.error
import urllib.request
from typing import Any, Optional

from tools.common import Process, ending, free_port, printed, stat_of, there
from tools.fronts import listens
from tools.measures import TDL, path_of

SIZES = (1, 65536)
RUNS, SECONDS = 3, 5
SEPARATE, SEPARATE_RUNS = 5_000, 5
NGINX = """worker_processes 1;
daemon off;
pid {folder}/nginx.pid;
error_log stderr crit;
events {{ worker_connections 64; }}
http {{
    access_log off;
    keepalive_requests 1000;
    map_hash_max_size 1048576;
    map_hash_bucket_size 128;
    client_body_temp_path {folder}/body;
    proxy_temp_path {folder}/proxy;
    fastcgi_temp_path {folder}/fastcgi;
    uwsgi_temp_path {folder}/uwsgi;
    scgi_temp_path {folder}/scgi;
    map $uri $target {{
        default "";
{rows}
    }}
    server {{
        listen 127.0.0.1:{port};
        if ($target = "") {{ return 404; }}
        return 307 $target;
    }}
}}
"""
WRK = """local requests, last = {}, 0
init = function()
    for path in io.lines("FOLDER/paths") do
        requests[#requests + 1] = wrk.format("GET", path)
    end
end
request = function()
    last = last % #requests + 1
    return requests[last]
end
"""


def target(i: int) -> str:
    """Where its requests are sent."""
    return f"https://example.com/{i}"


class NotFollowed(urllib.request.HTTPRedirectHandler):
    """Leaves a redirection as it is."""

    def redirect_request(self, *_: Any) -> None:
        return None


def location(port: int, where: str) -> tuple[int, Optional[str]]:
    """The status and the Location of the reply to a request."""
    try:
        reply = urllib.request.build_opener(NotFollowed).open(f"http://127.0.0.1:{port}{where}", timeout=5)
    except urllib.error.HTTPError as refused:
        reply = refused
    return reply.status, reply.headers["Location"]


def wait_for(server: Process, port: int) -> None:
    """Returns once the port is open."""
    if not listens(port):
        sys.exit(f"bench/resolver: {server.args!r} did not open its port; its status is {server.poll()}")


def rate(folder: str, port: int) -> float:
    """The requests a second of one run of wrk, whose replies are all redirections."""
    words = ["wrk", "-t1", "-c1", f"-d{SECONDS}s", "-s", f"{folder}/requests.lua", f"http://127.0.0.1:{port}"]
    said = printed(*words, check=True)
    if "Non-2xx or 3xx" in said:
        sys.exit(f"bench/resolver: {said}")
    return float(there(re.search(r"Requests/sec: +([0-9.]+)", said))[1])


def measure(folder: str, words: list[str], port: int, count: int) -> float:
    """The median rate of a server that is started by the words."""
    with ending(subprocess.Popen(words, stdin=subprocess.DEVNULL, stdout=subprocess.DEVNULL)) as server:
        wait_for(server, port)
        last = count - 1
        if location(port, path_of(last)) != (307, target(last)):
            sys.exit(f"bench/resolver: {words[0]} answers {path_of(last)} by {location(port, path_of(last))}")
        return statistics.median(rate(folder, port) for _ in range(RUNS))


def processor(server: Process) -> float:
    """The processor time in seconds that a process has used."""
    return sum(map(int, stat_of(server.pid)[11:13])) / os.sysconf("SC_CLK_TCK")


def ask_separately(port: int, where: str) -> None:
    """Asks over a connection of its own, as a proxy does."""
    with socket.create_connection(("127.0.0.1", port)) as connection:
        connection.sendall(f"GET {where} HTTP/1.0\r\nHost: id.example\r\n\r\n".encode("ascii"))
        while connection.recv(65536):
            pass


def separate(count: int) -> float:
    """The least processor time in microseconds of a request on a separate connection, over so many links."""
    with tempfile.TemporaryDirectory() as folder:
        write_links(folder, count)
        port = free_port()
        words = [TDL, "serve", "--links", f"{folder}/links.json", "--count", "1000000", "--listen", f"127.0.0.1:{port}"]
        with ending(subprocess.Popen(words, stdin=subprocess.DEVNULL, stdout=subprocess.DEVNULL)) as server:
            wait_for(server, port)
            times = []
            for _ in range(SEPARATE_RUNS):
                before = processor(server)
                for i in range(SEPARATE):
                    ask_separately(port, path_of(i % count))
                times.append((processor(server) - before) / SEPARATE * 1e6)
            return min(times)


def write_links(folder: str, count: int) -> None:
    """Writes a linkset of so many contexts."""
    contexts = [{"anchor": path_of(i), "gs1:defaultLink": [{"href": target(i)}]} for i in range(count)]
    with open(f"{folder}/links.json", "w", encoding="ascii") as file:
        json.dump({"linkset": contexts}, file, separators=(",", ":"))


def row(count: int) -> str:
    """The rates of both over so many links."""
    with tempfile.TemporaryDirectory() as folder:
        with open(f"{folder}/paths", "w", encoding="ascii") as file:
            file.writelines(f"{path_of(i)}\n" for i in range(count))
        with open(f"{folder}/requests.lua", "w", encoding="ascii") as file:
            file.write(WRK.replace("FOLDER", folder))
        write_links(folder, count)
        port = free_port()
        with open(f"{folder}/nginx.conf", "w", encoding="ascii") as file:
            rows = "\n".join(f"        {path_of(i)} {target(i)};" for i in range(count))
            file.write(NGINX.format(folder=folder, rows=rows, port=port))
        theirs = measure(folder, ["nginx", "-p", folder, "-c", f"{folder}/nginx.conf"], port, count)
        port = free_port()
        options = ["--links", f"{folder}/links.json", "--count", "1000000", "--listen", f"127.0.0.1:{port}"]
        ours = measure(folder, [TDL, "serve", *options], port, count)
    return f"| {count:,} | {ours:,.0f} | {theirs:,.0f} |"


def main() -> None:
    """Measures all, and prints the rows."""
    missing = [program for program in ("nginx", "wrk") if shutil.which(program) is None]
    if missing:
        print(f"bench/resolver: skipped: {' and '.join(missing)} not found")
    else:
        print("| Links | `tdl serve`, requests a second | nginx, requests a second |")
        print("| ---: " * 3 + "|", flush=True)
        for count in SIZES:
            print(row(count), flush=True)
    print("\n| Links | microseconds of processor time, a connection each |")
    print("| ---: " * 2 + "|", flush=True)
    for count in SIZES:
        print(f"| {count:,} | {separate(count):.1f} |", flush=True)
