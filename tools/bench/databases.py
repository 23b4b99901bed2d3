"""databases [PROGRAM]: rows a second in PostgreSQL and SQLite, by examples/postgres and examples/sqlite, as tables in Markdown for
docs/BENCHMARKS.md.

Calls of the library count the time of the processor, the other ways that of the wall: the least of three runs.
"""
import re
import sys
import tempfile
from pathlib import Path
from time import monotonic

from tools import common
from tools.common import PATIENCE, temporary, there
from tools.databases import BITS, CREATED, OF_POSTGRES, OF_SQLITE, OF_THE_LIBRARY, OWN, Server, ask_sqlite, begin_own, bulk, compile_for_sqlite
from tools.debian import lack
from tools.measures import arguments, libtdl

ROWS, MIXED = 500_000, 20_000
READS = f"CREATE TABLE reads AS SELECT n AS id, '{BITS[:16]}' || lpad(upper(to_hex(n)), 8, '0') AS epc FROM generate_series(1, %d) n"


def rows_a_second(server: Server, name: str, rows: int, statement: str) -> None:
    """Prints the rows a second of the processor of a statement over the library, the least time of three runs."""
    times, told = [], ["SET max_parallel_workers_per_gather = 0", "SET client_min_messages = log", "SET log_statement_stats = on", statement]
    for _ in range(3):
        words = [*server.words(OWN), *(word for asked in told for word in ("-c", asked))]
        said = common.run(*words, env=server.env, timeout=PATIENCE)[1]
        times.append(sum(map(float, re.findall(r"!\s+([\d.]+) s user, ([\d.]+) s system", said)[-1])))
    print(f"| {name} | {rows / min(times):,.0f} |", flush=True)


def rows_by_the_wall(server: Server, name: str, rows: int, *statements: str, before: str) -> None:
    """Prints the rows a second of statements by the wall, the least time of three runs."""
    times = []
    for _ in range(3):
        server.ask(before)
        began = monotonic()
        server.ask("SET max_parallel_workers_per_gather = 0", *statements)
        times.append(monotonic() - began)
    print(f"| {name} | {rows / min(times):,.0f} |", flush=True)


def measure_postgres(server: Server) -> None:
    """Prints the rows a second of each way in PostgreSQL."""
    if server.has_own:
        begin_own(server)
        rows = 500_000
        server.ask(READS % rows, "VACUUM ANALYZE reads", of=OWN)
        rows_a_second(server, "PostgreSQL, a call of the library for each row", rows, "SELECT count(tdl_canon(epc, 'hex')) FROM reads")
        labels = f"CREATE TABLE labels AS SELECT n AS id, '(01)80614141123458(21)' || n AS label FROM generate_series(1, {MIXED}) n"
        server.ask(labels, "VACUUM ANALYZE labels", of=OWN)
        mixed = "SELECT count(tdl_translate(label, 'bracketed', 'hex', filter => %s, gcp => %s)) FROM labels"
        rows_a_second(server, "PostgreSQL, with constant options", MIXED, mixed % ("3", "7"))
        rows_a_second(server, "PostgreSQL, with 56 choices of options", MIXED, mixed % ("id % 8", "6 + id % 7"))
        entries = "string_agg(format(',{\"prefix\":\"9%s\",\"length\":9}', to_char(n, 'FM00000')), '')"
        document = """'{"version":1,"prefixes":[{"prefix":"0614141","length":7}' || """ + entries + " || ']}'"
        server.ask(f"CREATE TABLE documents AS SELECT {document} AS doc FROM generate_series(1, 55000) n", of=OWN)
        given = "SELECT count(tdl_translate(label, 'bracketed', 'hex', filter => 3, prefixes => (SELECT doc FROM documents))) FROM labels"
        rows_a_second(server, "PostgreSQL, with 1.9 MB of company prefixes of a table", MIXED, given)
        rows_a_second(server, "PostgreSQL, the same without the call", rows, "SELECT count(epc || '') FROM reads")
    rows = 50_000
    server.ask(READS % rows)
    server.ask("CREATE TABLE links (id int, epc text, link text, reason text)")
    ways = {
        "PL/Python, a call for each row": "SELECT count(tdl.canon('hex', epc)) FROM reads",
        "PL/Python, arrays of 1,000": "SELECT count(it) FROM (SELECT tdl.canon('hex', array_agg(epc)) AS links FROM reads GROUP BY id / 1000) AS a, "
        "unnest(links) AS it",
        "COPY TO PROGRAM and back": bulk(server),
    }
    for name, asked in ways.items():
        rows_by_the_wall(server, name, rows, *asked.split(";\n"), before="TRUNCATE links")


def measure_sqlite(folder: Path) -> None:
    """Prints the rows a second of the processor in SQLite."""
    rows = f"WITH RECURSIVE n(i) AS (SELECT 0 UNION ALL SELECT i + 1 FROM n WHERE i < {ROWS - 1}) "
    rows += f"INSERT INTO reads SELECT '{BITS[:16]}' || printf('%08X', i) FROM n;\n"
    mixed = "tdl('bracketed', 'hex', '(01)80614141123458(21)' || rowid, 'filter', %s, 'gcp', %s)"
    ways = {
        "SQLite, a call for each row": (ROWS, "tdl('hex', 'link', epc)"),
        "SQLite, with constant options": (MIXED, mixed % ("3", "7")),
        "SQLite, with 56 choices of options": (MIXED, mixed % ("rowid % 8", "6 + rowid % 7")),
        "SQLite, without the call": (ROWS, "epc || ''"),
    }
    with tempfile.NamedTemporaryFile() as database:
        ask_sqlite(folder, f"CREATE TABLE reads (epc TEXT);\n{rows}", database.name)
        for name, (count, counted) in ways.items():
            times = []
            for _ in range(3):
                told = ask_sqlite(folder, f".timer on\nSELECT count({counted}) FROM (SELECT rowid, epc FROM reads LIMIT {count});\n", database.name)
                user, system = there(re.search(r"user ([\d.]+) sys ([\d.]+)", told)).groups()
                times.append(float(user) + float(system))
            print(f"| {name} | {count / min(times):,.0f} |")


def main() -> int:
    """Measures both, and returns the status."""
    program, built = arguments(__doc__).program, libtdl()
    missing = lack(*OF_POSTGRES, *OF_THE_LIBRARY, *OF_SQLITE)
    if missing:
        print(f"databases: needs {missing}", file=sys.stderr)
    if not lack(*OF_POSTGRES):
        with temporary() as room:
            server = Server(room, program, None if lack(*OF_THE_LIBRARY) else built)
            try:
                server.start()
                server.ask(CREATED)
                measure_postgres(server)
            finally:
                server.stop()
    if not lack(*OF_SQLITE):
        with temporary() as room:
            compile_for_sqlite(room, built)
            measure_sqlite(room)
    return 1 if missing else 0
