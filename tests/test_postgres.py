"""examples/postgres in a PostgreSQL server that is made for it: the extension over the library, and that in PL/Python.

Values, arrays, NULL, line feeds and wrong options; a CHECK, an expression index, a parallel plan; a statement that is cancelled, and a session
that is ended, leave no run behind; the bulk copy of examples/postgres/README.md.
"""
import re
import subprocess
from pathlib import Path
from typing import Any, Iterator

import pytest

from tools.common import BOTH, PATIENCE, QUIET, begun, printed, temporary, there, until
from tools.databases import BITS, CREATED, FORM_OF, LINK, POSTGRES, SHARE, OF_POSTGRES, OF_THE_LIBRARY, OWN, Server, begin_own, bulk
from tools.debian import lack
from tools.tests import library_if_any

# one server stands for all; the tests of a database follow each other
pytestmark = [pytest.mark.needs(*OF_POSTGRES), pytest.mark.xdist_group("postgres")]
# what is asked, and what is printed
CASES = [
    (f"tdl.canon('hex', '{BITS}')", LINK),
    ("tdl.canon('hex', '30')", ""),
    ("tdl.canon('hex', NULL::text) IS NULL", "t"),
    ("tdl.reason('hex', 'canon', '30')", "reading"),
    (f"tdl.reason('hex', 'canon', '{BITS}') IS NULL", "t"),
    ("tdl.reason('pure', 'canon', E'a\\nb')", "line-feed"),
    ("tdl.translate('bracketed', 'hex', '(01)80614141123458(21)6789', '{\"gcp\": 7, \"filter\": 3}')", BITS),
    ("tdl.reason('bracketed', 'hex', '(01)80614141123458(21)6789')", "missing gcp"),
    (f"tdl.canon('hex', ARRAY['{BITS}', NULL, E'a\\nb', '30'])", f"{{{LINK},NULL,NULL,NULL}}"),
    (f"tdl.reason('hex', 'canon', ARRAY['{BITS}', NULL, E'a\\nb', '30'])", "{NULL,NULL,line-feed,reading}"),
    ("tdl.canon('hex', ARRAY[]::text[])", "{}"),
    ("tdl.canon('xml', 'a')", "source is hex, tag, pure, raw, bracketed or link, not 'xml'"),
    ("tdl.translate('hex', 'tag', 'a', '{\"gcp\": 13}')", "gcp is a number from 1 to 12, not 13"),
]
SHORT = "tdl_translate('(01)80614141123458(21)6789', 'bracketed', 'hex'"
OWN_CASES = [
    (f"tdl_canon('{BITS}', 'hex')", LINK),
    ("tdl_canon('30', 'hex') IS NULL", "t"),
    ("tdl_canon(NULL, 'hex') IS NULL", "t"),
    ("tdl_reason('30', 'hex')", "reading"),
    (f"tdl_reason('{BITS}', 'hex') IS NULL", "t"),
    (f"tdl_translate('{BITS}', 'hex', 'link')", LINK),
    (f"{SHORT}, gcp => 7, filter => 3)", BITS),
    ("tdl_reason('(01)80614141123458(21)6789', 'bracketed', 'hex')", "missing gcp"),
    ("tdl_translate('(01)80614141123458(17)261231', 'bracketed', 'link', keys_only => true, stem => 'https://a.example')", "https://a.example/01/80614141123458"),
    (f"{SHORT}, 3, gcp) FROM (VALUES (7)) AS it(gcp)", BITS),
    # NULL for an option is one that is not given, so a label that needs a company prefix has none
    ("tdl_reason('(01)80614141123458(21)6789', 'bracketed', 'hex', gcp => NULL)", "missing gcp"),
    (f"{SHORT}, filter => 3, gcp => 7, encoding => NULL, keys_only => NULL, stem => NULL, tables => NULL, prefixes => NULL)", BITS),
    ("tdl_reason('(01)80614141123458(21)6789', 'bracketed', 'hex', gcp => 7, filter => NULL)", "missing filter"),
    ("tdl_reason(NULL, 'hex', 'pure', gcp => NULL) IS NULL", "t"),
    ("tdl_canon('30', NULL)", "source is hex, tag, pure, raw, bracketed or link, not NULL"),
    ("tdl_translate('30', 'hex', NULL)", "target is hex, tag, pure, raw, bracketed, link or canon, not NULL"),
    (f"tdl_valid('{BITS}', 'hex')", "t"),
    ("tdl_valid('30', 'hex')", "f"),
    ("tdl_valid(NULL, 'hex') IS NULL", "t"),
    *((f"tdl_any('{text}')", form) for text, form in FORM_OF.items()),
    ("tdl_any(NULL) IS NULL", "t"),
    (f"tdl_class('{LINK}', 7) IS NULL", "t"),
    ("tdl_class('https://id.gs1.org/01/80614141123458/10/A', gcp => 7)", "urn:epc:class:lgtin:0614141.812345.A"),
    ("tdl_class('x', 7) IS NULL", "t"),
    (f"tdl_class('{LINK}', 13)", "gcp is a number from 1 to 12, not 13"),
    ("tdl_canon('a', 'xml')", "source is hex, tag, pure, raw, bracketed or link, not 'xml'"),
    ("tdl_translate('a', 'hex', 'pdf')", "target is hex, tag, pure, raw, bracketed, link or canon, not 'pdf'"),
    (f"{SHORT}, gcp => 13)", "gcp is a number from 1 to 12, not 13"),
    (f"{SHORT}, filter => 8)", "filter is a number from 0 to 7, not 8"),
    (f"{SHORT}, stem => 'ftp://a')", "stem is http:// or https:// and a host"),
    (f"{SHORT}, tables => '{{')", "the tables are rejected: json syntax"),
    (f"{SHORT}, prefixes => '{{')", "the prefixes are rejected: json syntax"),
]
MANY = "SELECT count(tdl.canon('pure', 'urn:epc:id:sgtin:0614141.812345.' || n)) FROM generate_series(1, 100000000) n"
CHEAP = "SET parallel_setup_cost = 0; SET parallel_tuple_cost = 0; SET min_parallel_table_scan_size = 0"
SERIAL = "SET max_parallel_workers_per_gather = 0"


@pytest.fixture(scope="module")
def server(program: Path) -> Iterator[Server]:
    """The server, in whose first database is the extension in PL/Python, with a table of tags."""
    # (pytest's own folders are closed to the server's user)
    with temporary("tdl-postgres-") as room:
        made = Server(room, program, library_if_any() if not lack(*OF_THE_LIBRARY) else None)
        try:
            made.start()
            assert made.ask(CREATED, "SELECT extversion FROM pg_extension WHERE extname = 'tdl'") == "1.0"
            made.ask(
                "CREATE TABLE tags (id int, epc text CHECK (tdl.reason('hex', 'canon', epc) IS NULL))",
                f"INSERT INTO tags SELECT n, upper(to_hex(12304)) || substr('{BITS}', 5, 12) || lpad(upper(to_hex(n)), 8, '0') FROM generate_series(1, 3000) n",
                "CREATE INDEX canonical ON tags (tdl.canon('hex', epc))",
                "ANALYZE tags",
            )
            yield made
        finally:
            made.stop()


@pytest.fixture(scope="module")
def own(server: Server, libtdl: Path) -> Server:
    """The server, in whose database of that name is the extension over the library, with a table of tags."""
    assert (server.compiled, server.has_own) == ("", True)
    assert begin_own(server) == "2.1"
    server.ask("ALTER TABLE tags ADD CHECK (tdl_reason(epc, 'hex') IS NULL)", "CREATE INDEX canonical ON tags (tdl_canon(epc, 'hex'))", "ANALYZE tags", of=OWN)
    return server


of_the_library = pytest.mark.needs(*OF_THE_LIBRARY)


def answers(got: str, wanted: str) -> None:
    """Fails if a statement does not print what is wanted, or an error with it."""
    assert got == wanted or wanted and "ERROR" in got and wanted in got


@of_the_library
@pytest.mark.parametrize("asked, wanted", OWN_CASES)
def test_values_over_the_library(own: Server, asked: str, wanted: str) -> None:
    answers(own.error(f"SELECT {asked}", OWN), wanted)


@of_the_library
def test_a_constraint_over_the_library(own: Server) -> None:
    assert "violates check constraint" in own.error("INSERT INTO tags VALUES (0, '30')", OWN)


@of_the_library
def test_an_index_over_the_library(own: Server) -> None:
    asked = f"SELECT id FROM tags WHERE tdl_canon(epc, 'hex') = '{LINK[:-4]}7'"
    assert "canonical" in own.ask(f"EXPLAIN {asked}", of=OWN)
    assert own.ask(asked, of=OWN) == "7"


@of_the_library
def test_a_parallel_plan_over_the_library(own: Server) -> None:
    counted = "SELECT count(*), md5(string_agg(link, ',' ORDER BY link)) FROM (SELECT tdl_translate(epc, 'hex', 'pure') AS link FROM tags OFFSET 0) AS it"
    assert re.search(r"Workers Launched: [1-9]", own.ask(CHEAP, f"EXPLAIN (ANALYZE) {counted}", of=OWN))
    assert own.ask(CHEAP, counted, of=OWN) == own.ask(SERIAL, counted, of=OWN)


LABEL = "(01)80614141123458(21)%d"


def split(length: int, serial: int) -> str:
    """Returns the pure identity of a label by the length of its company prefix: the split of its GTIN by GS1's rules."""
    digits = "061414112345"
    return f"urn:epc:id:sgtin:{digits[:length]}.8{digits[length:]}.{serial}"


@of_the_library
def test_a_trigger_with_changing_options(own: Server) -> None:
    """A row's own option is that of the row, though the trigger's call is the same for all rows."""
    own.ask(
        "CREATE TABLE labels (id int, label text, gcp int, epc text)",
        "CREATE FUNCTION fill() RETURNS trigger LANGUAGE plpgsql AS "
        "$$ BEGIN NEW.epc := tdl_translate(NEW.label, 'bracketed', 'pure', gcp => NEW.gcp); RETURN NEW; END $$",
        "CREATE TRIGGER fill BEFORE INSERT ON labels FOR EACH ROW EXECUTE FUNCTION fill()",
        "INSERT INTO labels SELECT n, '(01)80614141123458(21)' || n, 6 + n % 7 FROM generate_series(1, 50) n",
        of=OWN,
    )
    got = own.ask("SELECT epc FROM labels ORDER BY id", of=OWN).splitlines()
    assert got == [split(6 + number % 7, number) for number in range(1, 51)]


@of_the_library
def test_a_loop_over_forms(own: Server) -> None:
    """A variable of PL/pgSQL is no constant."""
    body = f"FOREACH form IN ARRAY ARRAY['pure', 'tag', 'hex', 'link', 'pure'] LOOP RETURN NEXT tdl_translate('{BITS}', 'hex', form); END LOOP"
    own.ask(f"CREATE FUNCTION forms() RETURNS SETOF text LANGUAGE plpgsql AS $$ DECLARE form text; BEGIN {body}; END $$", of=OWN)
    pure = "urn:epc:id:sgtin:0614141.812345.6789"
    assert own.ask("SELECT forms()", of=OWN).splitlines() == [pure, "urn:epc:tag:sgtin-96:3.0614141.812345.6789", BITS, LINK, pure]


@of_the_library
def test_a_prepared_statement_with_changing_options(own: Server) -> None:
    """The same for each way in which the server plans it, and for a cursor."""
    for mode in "auto", "force_generic_plan", "force_custom_plan":
        asked = [f"SET plan_cache_mode = {mode}", "PREPARE asked(text, int) AS SELECT tdl_translate($1, 'bracketed', 'pure', gcp => $2)"]
        calls = [f"EXECUTE asked('{LABEL % number}', {6 + number % 7})" for number in range(20)]
        assert own.ask(*asked, *calls, of=OWN).splitlines() == [split(6 + number % 7, number) for number in range(20)]
    cursor = "DECLARE rows CURSOR FOR SELECT tdl_translate('(01)80614141123458(21)' || n, 'bracketed', 'pure', gcp => 6 + n % 7) FROM generate_series(1, 20) n"
    fetched = own.ask("BEGIN", cursor, *["FETCH 1 FROM rows", f"SELECT tdl_canon('{BITS}', 'hex')"] * 20, of=OWN).splitlines()
    assert fetched[::2] == [split(6 + number % 7, number) for number in range(1, 21)]


@of_the_library
def test_partitions_and_workers_with_changing_options(own: Server) -> None:
    """Rows of a partitioned table whose options differ have the same answers with and without parallel workers, and those of GS1's split."""
    own.ask(
        "CREATE TABLE parts (id int, label text, gcp int) PARTITION BY LIST (gcp)",
        *(f"CREATE TABLE parts_{length} PARTITION OF parts FOR VALUES IN ({length})" for length in range(6, 13)),
        "INSERT INTO parts SELECT n, '(01)80614141123458(21)' || n, 6 + n % 7 FROM generate_series(1, 20000) n",
        "ANALYZE parts",
        of=OWN,
    )
    asked = "SELECT epc FROM (SELECT id, tdl_translate(label, 'bracketed', 'pure', gcp => gcp) AS epc FROM parts OFFSET 0) AS it ORDER BY id"
    wanted = [split(6 + number % 7, number) for number in range(1, 20_001)]
    assert own.ask(SERIAL, asked, of=OWN).splitlines() == wanted
    assert own.ask(CHEAP, asked, of=OWN).splitlines() == wanted


ENTRIES = """string_agg(format(',{"prefix":"9%%s","length":9}', to_char(n, 'FM00000')), '')"""
DOCUMENT = """'{"version":1,"prefixes":[{"prefix":"0614141","length":%d}' || """ + ENTRIES + " || ']}'"
READ = "tdl_translate('(01)80614141123458(21)1', 'bracketed', 'pure', prefixes => %s)"


@of_the_library
def test_documents_of_a_table(own: Server) -> None:
    """Documents that are so large that the table keeps them apart are those of each row, and after each change those of now."""
    changed = f"UPDATE documents SET doc = (SELECT {DOCUMENT % 8} FROM generate_series(1, 20000) n)"
    own.ask(
        "CREATE TABLE documents (id int, doc text)",
        *(f"INSERT INTO documents SELECT {length}, {DOCUMENT % length} FROM generate_series(1, 20000) n" for length in (7, 9)),
        "CREATE FUNCTION twice() RETURNS SETOF text LANGUAGE plpgsql AS $$ BEGIN FOR step IN 1..2 LOOP "
        f"RETURN QUERY SELECT {READ % 'doc'} FROM documents WHERE id = 7; {changed} WHERE id = 7; END LOOP; END $$",
        of=OWN,
    )
    rows = f"SELECT {READ % 'doc'} FROM generate_series(1, 50) n, documents ORDER BY n, id"
    assert own.ask(rows, of=OWN).splitlines() == [split(length, 1) for _ in range(50) for length in (7, 9)]
    scalar = f"SELECT DISTINCT {READ % '(SELECT doc FROM documents WHERE id = 9)'} FROM generate_series(1, 500)"
    assert own.ask(scalar, of=OWN) == split(9, 1)
    assert own.ask("SELECT twice()", of=OWN).splitlines() == [split(7, 1), split(8, 1)]


@of_the_library
def test_settings(own: Server) -> None:
    """Documents for calls that give none; only a superuser may set them, and a wrong file is named."""
    path = own.room / "prefixes.json"
    path.write_text('{"version":1,"prefixes":[{"prefix":"0614141","length":7}]}', "ascii")
    path.chmod(0o644)
    plain = "tdl_translate('(01)80614141123458(21)1', 'bracketed', 'pure')"
    asked = [f"SELECT coalesce({plain}, 'none')", f"SET tdl.prefixes = '{path}'", f"SELECT {plain}", "RESET tdl.prefixes", f"SELECT coalesce({plain}, 'none')"]
    assert own.ask(*asked, of=OWN).splitlines() == ["none", split(7, 1), "none"]
    given = READ % """'{"version":1,"prefixes":[{"prefix":"0614141123","length":10}]}'"""
    assert own.ask(asked[0], asked[1], f"SELECT {given}", of=OWN).splitlines() == ["none", split(10, 1)]
    assert "permission denied" in own.error(f"SELECT {plain}; SET ROLE maker; SET tdl.prefixes = '{path}'", OWN)
    assert "cannot be read" in own.error(f"SELECT {plain}; SET tdl.tables = '{own.room}/nothing.json'", OWN)


@of_the_library
def test_an_update_of_the_extension(own: Server) -> None:
    """After the update from version 2.0, in which NULL for an option gave NULL, the functions are those of a new extension."""
    shown = ("SELECT p.oid::regprocedure || ' ' || proisstrict || ' ' || prosrc FROM pg_proc p JOIN pg_depend d ON d.objid = p.oid AND d.deptype = 'e' "
             "JOIN pg_extension e ON e.oid = d.refobjid AND e.extname = 'tdl' ORDER BY 1")
    new = (POSTGRES / "tdl--2.1.sql").read_text("ascii")
    old = new.partition("-- Returns whether")[0].replace("IMMUTABLE", "IMMUTABLE STRICT")
    (own.room / SHARE.relative_to("/") / "extension" / "tdl--2.0.sql").write_text(old, "ascii")
    own.ask("CREATE DATABASE updated")
    assert own.ask("CREATE EXTENSION tdl VERSION '2.0'", "SELECT count(*) FILTER (WHERE proisstrict) FROM pg_proc WHERE proname LIKE 'tdl_%'", of="updated") == "4"
    own.ask("ALTER EXTENSION tdl UPDATE", of="updated")
    assert own.ask(shown, of="updated") == own.ask(shown, of=OWN) and "tdl_valid(text,text) false pg_tdl_valid" in own.ask(shown, of=OWN)


@of_the_library
def test_more_choices_than_the_library_keeps(own: Server) -> None:
    many = "SELECT count(DISTINCT tdl_translate(epc, 'hex', 'link', stem => 'https://a' || id % 1500 || '.example')) FROM tags"
    assert own.ask(many, of=OWN) == "3000"


@of_the_library
def test_rows_have_the_answers_of_the_program(own: Server, program: Path) -> None:
    given = own.ask("SELECT epc FROM tags ORDER BY id", of=OWN)
    wanted = printed(program, "translate", "hex", "tag", input=f"{given}\n").splitlines()
    assert len(wanted) == 3_000
    assert own.ask("SELECT 'ok ' || tdl_translate(epc, 'hex', 'tag') FROM tags ORDER BY id", of=OWN).splitlines() == wanted


@pytest.mark.parametrize("asked, wanted", CASES)
def test_values(server: Server, asked: str, wanted: str) -> None:
    answers(server.error(f"SELECT {asked}"), wanted)


def test_a_constraint(server: Server) -> None:
    assert server.ask("SELECT count(*) FROM tags") == "3000"
    assert "violates check constraint" in server.error("INSERT INTO tags VALUES (0, '30')")


def test_an_index(server: Server) -> None:
    link = server.ask("SELECT tdl.canon('hex', epc) FROM tags WHERE id = 7")
    asked = f"SELECT id FROM tags WHERE tdl.canon('hex', epc) = '{link}'"
    assert "canonical" in server.ask(f"EXPLAIN {asked}")
    assert server.ask(asked) == server.ask("SET enable_indexscan = off; SET enable_bitmapscan = off", asked) == "7"


def test_a_parallel_plan(server: Server) -> None:
    counted = "SELECT count(*), md5(string_agg(link, ',' ORDER BY link)) FROM (SELECT tdl.canon('hex', epc) AS link FROM tags OFFSET 0) AS it"
    assert re.search(r"Workers Launched: [1-9]", server.ask(CHEAP, f"EXPLAIN (ANALYZE) {counted}"))
    assert server.ask(CHEAP, counted) == server.ask(SERIAL, counted)


def await_runs(server: Server, most: int) -> None:
    """Waits until no more than so many runs are there."""
    assert until(lambda: len(server.runs()) <= most, PATIENCE), server.runs()


def test_a_cancelled_statement_leaves_the_run_of_its_session(server: Server) -> None:
    await_runs(server, 0)
    how: dict[str, Any] = {"env": server.env, "stdin": subprocess.PIPE, "bufsize": 1, **BOTH}
    with begun(*server.words(), **how) as session:
        asked, answered = there(session.stdin), there(session.stdout)
        asked.write(f"SET statement_timeout = 500;\n{MANY};\nSELECT 'cancelled';\n")
        assert "canceling statement" in answered.readline()
        assert answered.readline() == "cancelled\n"
        await_runs(server, 1)
        asked.write(f"RESET statement_timeout;\nSELECT tdl.canon('hex', '{BITS}');\n")
        assert answered.readline() == f"{LINK}\n"
        asked.close()
    await_runs(server, 0)


def test_a_session_that_is_ended_leaves_no_run(server: Server) -> None:
    with begun(*server.words(), "-c", MANY, env=server.env, **QUIET):
        until(server.runs, PATIENCE)
        server.ask("SELECT pg_terminate_backend(pid) FROM pg_stat_activity WHERE query LIKE '%generate_series(1, 100000000)%' AND pid <> pg_backend_pid()")
    await_runs(server, 0)


def test_the_bulk_copy(server: Server) -> None:
    server.ask("CREATE TABLE reads AS SELECT id, epc FROM tags", "INSERT INTO reads VALUES (0, '30'), (-1, NULL)")
    server.ask("CREATE TABLE links (id int, epc text, link text, reason text)")
    assert "ERROR" not in server.error(bulk(server))
    assert server.ask("SELECT count(*) FROM links") == "3002"
    wrong = "link IS DISTINCT FROM tdl.canon('hex', epc) OR reason IS DISTINCT FROM tdl.reason('hex', 'canon', coalesce(epc, ''))"
    assert server.ask(f"SELECT count(*) FROM links WHERE {wrong}") == "0"
