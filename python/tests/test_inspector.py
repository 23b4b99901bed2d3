"""The inspector's analysis against the program, which $TDL names."""
import http.client
import io
import json
import shutil
import socket
import struct
import subprocess
import sys
import tempfile
import threading
import unittest
import zlib
from contextlib import redirect_stdout
from datetime import date
from pathlib import Path

# (an installed module goes before the sources)
sys.path.append(str(Path(__file__).resolve().parent.parent / "src"))

from tdl.__main__ import arguments  # noqa: E402
from tdl.inspector import Inspector, Question, datamatrix, qr  # noqa: E402
from tdl.inspector.elements import elements  # noqa: E402
from tdl.inspector.encode import SAMPLES, compose, key_types  # noqa: E402
from tdl.inspector.fields import read_fields  # noqa: E402
from tdl.inspector.questions import FORMS, bytes_of, forms_in_order, possible_forms  # noqa: E402
from tdl.inspector.reasons import COUNTED, OF_A_TARGET, OF_A_TEXT, check_digit, explain, explain_target, sentence_of  # noqa: E402
from tdl.inspector.rows import Rows  # noqa: E402
from tdl.inspector.server import FILES, POLICY, Server, is_served, serve  # noqa: E402
from tdl.inspector.sets import Sets, sets_by_code  # noqa: E402
from tdl.inspector.values import full_year, meaning  # noqa: E402
from tdl.program import find_program  # noqa: E402
from tdl.tables import SETS  # noqa: E402

GS1 = Path(__file__).resolve().parents[2] / "tables" / "gs1.json"
ROWS = Rows(str(GS1))
LABEL = "(01)80614141123458(21)6789"
BITS = "3074257BF7194E4000001A85"


def asked(text, **options):
    """What the page shows of a text."""
    return INSPECTOR.inspect(Question.of({"text": text, **options}))


def roles(pieces):
    """The pieces that are something, as what they are and their texts."""
    return [(piece["role"], piece["text"]) for piece in pieces if piece["role"]]


def answer(form, text):
    """What the program prints for a text of a form."""
    ran = subprocess.run([find_program(), "canon", form, "--tables", GS1], input=text + b"\r\n", stdout=subprocess.PIPE, check=False)
    return ran.stdout.decode("ascii").rstrip("\n")


def setUpModule():
    global INSPECTOR
    INSPECTOR = Inspector()


def tearDownModule():
    INSPECTOR.close()


class Readings(unittest.TestCase):
    def test_a_label(self):
        shown = asked(LABEL, gcp=7, filter=3)
        (reading,) = shown["readings"]
        self.assertEqual((reading["form"], reading["canon"]), ("bracketed", "https://id.gs1.org/01/80614141123458/21/6789"))
        self.assertEqual([(it["code"], it["title"]) for it in reading["elements"]], [("01", "GTIN"), ("21", "SERIAL")])
        parts = [("lead", "8"), ("prefix", "0614141"), ("reference", "12345"), ("check", "8")]
        self.assertEqual(roles(reading["elements"][0]["pieces"]), parts)
        self.assertEqual([it["label"] for it in reading["elements"][0]["pieces"]], ["indicator digit", "company prefix", "item reference", "check digit"])
        self.assertEqual({it["form"]: it["text"] for it in reading["forms"]}["hex"], BITS)

    def test_the_same_fields_in_each_form(self):
        fields = {"lead": "8", "prefix": "0614141", "reference": "12345", "serial": "6789"}
        for form in asked(LABEL, gcp=7, filter=3)["readings"][0]["forms"]:
            if form["form"] != "hex":
                found = dict(roles(form["pieces"]))
                self.assertEqual({role: found.get(role) for role in fields}, fields, form["form"])
            self.assertEqual("".join(it["text"] for it in form["pieces"]), form["text"])

    def test_bits(self):
        (reading,) = asked(BITS)["readings"]
        found = [(it["role"], it["width"], it["value"]) for it in reading["bits"]]
        wanted = [("header", 8, "30: sgtin-96"), ("filter", 3, "3: reserved"), ("partition", 3, "5"), ("prefix", 24, "0614141")]
        wanted += [("reference", 20, "812345"), ("serial", 38, "6789")]
        self.assertEqual(found, wanted)
        self.assertEqual("".join(it["bits"] for it in reading["bits"]), f"{int(BITS, 16):096b}")

    def test_what_is_missing(self):
        def needs(**options):
            return {it["form"]: it.get("need") for it in asked("(00)106141412345678908", **options)["readings"][0]["forms"]}

        self.assertEqual((needs()["hex"], needs()["pure"]), ("gcp", "gcp"))
        self.assertEqual((needs(gcp=7)["hex"], needs(gcp=7)["pure"]), ("filter", None))
        self.assertIsNone(needs(gcp=7, filter=1)["hex"])

    def test_an_unknown_prefix(self):
        (reading,) = asked("(00)106141412345678908")["readings"]
        self.assertEqual(roles(reading["elements"][0]["pieces"]), [("lead", "1"), ("undivided", "0614141234567890"), ("check", "8")])

    def test_serials_in_the_tail(self):
        (reading,) = asked("(8003)00614141000012ABC", gcp=7)["readings"]
        parts = [("zero", "0"), ("prefix", "0614141"), ("reference", "00001"), ("check", "2"), ("serial", "ABC")]
        self.assertEqual(roles(reading["elements"][0]["pieces"]), parts)

    def test_a_gtin_of_13_digits(self):
        (reading,) = asked("https://a.example/01/9506000134352")["readings"]
        self.assertEqual(roles(reading["pieces"]), [("code", "01"), ("undivided", "950600013435"), ("check", "2")])

    def test_escapes(self):
        (reading,) = asked("(01)09506000134352(10)A\\(B")["readings"]
        self.assertEqual([it["text"] for it in reading["elements"][1]["pieces"]], ["A(B"])

    def test_function_characters(self):
        for text in ("0109506000134352" "10ABC^21X", "]C10109506000134352" "10ABC<GS>21X", "0109506000134352" "10ABC\x1d21X"):
            (reading,) = asked(text)["readings"]
            self.assertEqual((reading["form"], reading["canon"]), ("raw", "https://id.gs1.org/01/09506000134352/10/ABC/21/X"))

    def test_elements_of_a_link(self):
        found = elements("link", b"https://x.example/a/01/09506000134352/10/%41B?17=261231&y=1;37=2#f", ROWS)
        self.assertEqual([(it.code, it.place, it.length) for it in found], [("01", 20, 14), ("10", 38, 2), ("17", 46, 6), ("37", 60, 1)])

    def test_all_encodings(self):
        for option in ROWS.options["tag"]:
            if option.gcp == 7:
                kind = next(it for it in ROWS.kinds.values() if it.name == option.kind)
                rest = {"sscc": 10, "gsrn": 10, "gsrnp": 10, "sgtin": 6, "itip": 6, "giai": 3}.get(kind.name, 5)
                tail = ".01" * len(kind.fields) + (".4" if kind.serial else "")
                (reading,) = asked(f"urn:epc:tag:{option.encoding}:1.0614141.{'1' * rest}{tail}")["readings"]
                self.assertEqual(reading["encoding"], option.encoding)
                self.assertEqual(len({it["role"] for it in reading["bits"]} & {"header", "filter", "partition", "prefix", "reference"}), 5)


class Reasons(unittest.TestCase):
    CASES = [
        ("link", "https://id.gs1.org/01/09506000134353", "check 19", "must be 2, not 3", "3"),
        ("link", "https://id.gs1.org/01/09506000134352/21/%4", "escape 37", "two hexadecimal digits", "%4"),
        ("link", "https://id.gs1.org/products/7", "path", "does not end in a key", None),
        ("link", "ftp://id.gs1.org/01/09506000134352", "http", "begins with http", None),
        ("link", "https://id.gs1.org/01/09506000134352?05=1", "unknown 37", "lack the application identifier (05). No set has it.", "05"),
        ("bracketed", "(01)8061414112345", "length 1", "has 13 characters; it must have 14", "8061414112345"),
        ("bracketed", "(01)80614141123458(10)", "length 19", "has 0 characters; it must have 1 to 20", "10)"),
        ("bracketed", "(01)80614141123458(21)a é", "char 19 1",
         "At byte 23: a space is not one of the 82 characters that GS1 allows. It is character 2 of (21) SERIAL.", " "),
        ("bracketed", "(01)80614141123458(21)é", "char 19 0", "“é”", "é"),
        ("bracketed", "(01)80614141123458(21)a\0", "char 19 1", "byte 0", "\0"),
        ("bracketed", "(17)261331", "date 1", "the month is 13", "13"),
        ("bracketed", "(17)261232", "date 1", "the day is 32", "32"),
        ("bracketed", "(17)261231", "key", "No element is a key", None),
        ("bracketed", "(01)80614141123458x", "length 1", "15 characters", "80614141123458x"),
        ("bracketed", "01", "bracket 0", "must begin here", "0"),
        ("bracketed", "(01", "bracket 0", "must follow this bracket", "("),
        ("bracketed", "(414)0614141000012(254)4(254)5", "repeat 254", "has two values", "254)4"),
        ("bracketed", "(01)80614141123458(00)106141412345678908", "keys 00", "is a second key", "00)106141412345678908"),
        ("raw", "0180614141123458" "99", "length 16", "has 0 characters", "99"),
        ("raw", "0180614141123458" "05", "unknown 16", "begins with “05”", "05"),
        ("raw", "0180614141123A58", "char 0 11", "is not a digit", "A"),
        ("hex", "307", "odd", "has no partner", "7"),
        ("hex", "30GG", "digit 2", "“G”", "G"),
        ("hex", "30", "reading", "no tag bits", None),
        ("hex", "30" * 65, "full", "at most 128", "30"),
        ("pure", "urn:epc:id:sgtin:0614141.812345", "reading", "no EPC identity URI", None),
        ("tag", "a" * 2_049, "long", "at most 2,048 bytes", "a"),
    ]

    def test_sentences_and_places(self):
        for form, text, reason, part, marked in self.CASES:
            self.assertEqual(answer(form, text.encode()), f"no {reason}", text)
            shown = next(it for it in asked(text)["errors"] if it["form"] == form)
            self.assertEqual(shown["reason"], reason)
            self.assertIn(part, shown["sentence"])
            found = [it for it in shown["pieces"] if it["role"] == "error"]
            self.assertEqual(found[0]["text"] if found else None, marked, text)
            if found:
                self.assertRegex(shown["sentence"], rf"\bbytes? {found[0]['at']}\b")
            self.assertEqual("".join(it["text"] for it in shown["pieces"]), text)

    def test_a_text_that_no_screen_holds(self):
        for shown in asked("é" * 100_000)["errors"]:
            self.assertEqual(shown["reason"], "long")
            self.assertLess(len("".join(it["text"] for it in shown["pieces"])), 10_000)

    def test_no_reason_fails_where_a_text_is_another(self):
        for form in ("raw", "bracketed", "link"):
            for reason in ("length 3", "char 3 9", "check 0", "date 0", "unknown 90", "escape 2", "bracket 80", "keys 00"):
                sentence, marks = explain(form, b"(01)1", reason, ROWS)
                self.assertTrue(sentence)
                self.assertTrue(all(mark.start <= mark.end for mark in marks))

    def test_reasons_of_targets(self):
        for reason, part, need in (
            ("missing gcp", "company prefix", "gcp"),
            ("missing filter", "filter value", "filter"),
            ("missing serial", "no serial", ""),
            ("extra 10", "(10) BATCH/LOT", "keys_only"),
            ("option", "and encoding", "encoding"),
            ("kind", "No EPC scheme", ""),
            ("hold serial large", "The serial is too large", "encoding"),
            ("hold rest char", "The reference has a character", "encoding"),
        ):
            sentence, found = explain_target(reason, ROWS)
            self.assertIn(part, sentence)
            self.assertEqual(found, need)

    def test_check_digits(self):
        self.assertEqual([check_digit(it) for it in (b"0950600013435", b"10614141234567890", b"8061414112345")], [2, 8, 8])

    def test_classes_and_dumps(self):
        for form, reason, part in (
            ("class", "reading", "no class URI"),
            ("link", "class", "No class has this key"),
            ("link", "missing element", "Add the lot"),
            ("hex", "word", "shorter than the control word"),
            ("hex", "extended", "extended bit"),
            ("hex", "toggle", "toggle bit"),
            ("hex", "words 6 64", "announces 6 words of 16 bits, but 64 bits follow"),
            ("tag", "line", "must begin with"),
            ("tag", "too-long", "more than 31 words"),
        ):
            self.assertIn(part, sentence_of(form, b"x", reason, None))

    def test_each_reason_is_counted_by_words(self):
        self.assertEqual(set(COUNTED), OF_A_TEXT | OF_A_TARGET)


class Tables(unittest.TestCase):
    def test_the_sets_that_have_an_identifier(self):
        (error,) = (it for it in asked("(01)09506000134352(3201)002756")["errors"] if it["form"] == "bracketed")
        self.assertEqual((error["reason"], error["sets"]), ("unknown 19", ["measures", "food", "healthcare", "logistics"]))
        self.assertIn("(3201) NET WEIGHT (lb). The sets measures, food, healthcare and logistics have it.", error["sentence"])
        (error,) = (it for it in asked("0109506000134352" "3553000001")["errors"] if it["form"] == "raw")
        self.assertEqual((error["reason"], error["sets"]), ("unknown 16", ["logistics"]))
        self.assertIn("The set logistics has it.", error["sentence"])

    def test_another_set(self):
        (reading,) = asked("(01)09506000134352(3201)002756", tables="food")["readings"]
        self.assertEqual([it["meaning"] for it in reading["elements"]], ["", "275.6 lb"])
        with self.assertRaises(ValueError):
            asked("x", tables="other")

    def test_what_is_offered(self):
        names = ["gs1", "measures", "food", "healthcare", "logistics", "built-in"]
        self.assertEqual([it["name"] for it in Sets().offered()], names)
        own = Sets(str(GS1.parent / "food.json"))
        self.assertEqual([it["title"] for it in own.offered()][0], "your file food.json")
        self.assertEqual((own.path(""), own.path("gs1")), (str(GS1.parent / "food.json"), SETS["gs1"]))
        self.assertEqual(sets_by_code()["01"], names[:-1])


class Values(unittest.TestCase):
    TODAY = date(2026, 11, 29)

    def test_as_people_read_them(self):
        for code, value, text, remark in (
            ("17", "261231", "31 December 2026", ""),
            ("11", "260231", "31 February 2026", "February has no 31st."),
            ("11", "260229", "29 February 2026", "February 2026 has no 29th."),
            ("11", "240229", "29 February 2024", ""),
            ("15", "261200", "December 2026", "The day is 00: the text gives no day."),
            ("4326", "260430", "30 April 2026", ""),
            ("16", "260431", "31 April 2026", "April has no 31st."),
            ("7003", "2612311200", "31 December 2026, 12:00", ""),
            ("7003", "2612312560", "31 December 2026, 25:60", "There is no time 25:60."),
            ("4324", "2612319999", "31 December 2026", ""),
            ("7007", "261231270101", "31 December 2026 to 1 January 2027", ""),
            ("7011", "261231", "31 December 2026", ""),
            ("8008", "26123112", "31 December 2026, 12 hours", ""),
            ("7250", "19801301", "", "There is no month 13."),
            ("7250", "19800145", "", "No month has 45 days."),
            ("7251", "198001010730", "1 January 1980, 07:30", ""),
            ("3103", "001250", "1.250 kg", ""),
            ("3105", "000001", "0.00001 kg", ""),
            ("3200", "000123", "123 lb", ""),
            ("3372", "001234", "12.34 kg/m²", ""),
            ("3922", "1250", "12.50 in the local currency", ""),
            ("3932", "9781250", "EUR 12.50", ""),
            ("3912", "9991250", "currency 999 12.50", ""),
            ("3942", "1250", "12.50 %", ""),
            ("3952", "000250", "2.50 in the local currency per unit of measure", ""),
            ("4331", "001800-", "−18.00 °C", ""),
            ("4330", "000500", "5.00 °F", ""),
            ("10", "261231", "", ""),
            ("3103", "1250", "", ""),
        ):
            self.assertEqual(meaning(code, value, ROWS.title(code), self.TODAY), (text, remark), (code, value))

    def test_years(self):
        found = [full_year(two, self.TODAY) for two in (0, 26, 76, 77, 99)]
        self.assertEqual(found, [2000, 2026, 2076, 1977, 1999])
        self.assertEqual([full_year(two, date(2051, 1, 1)) for two in (0, 1, 2)], [2100, 2101, 2002])


class Composing(unittest.TestCase):
    def test_each_key_type_is_read(self):
        self.assertEqual(set(SAMPLES), {kind.name for kind in ROWS.kinds.values()})
        for key in key_types(ROWS):
            told = key.told()
            made = compose({"kind": key.kind.name, **told["sample"]}, ROWS)
            (reading,) = asked(made["text"], gcp=made["gcp"], filter=0)["readings"]
            self.assertEqual([it["form"] for it in reading["forms"] if "text" not in it], [], made["text"])
            self.assertEqual((reading["elements"][0]["code"], len(told["filters"])), (key.kind.key, 8))

    def test_filter_values(self):
        filters = {key.kind.name: key.told()["filters"] for key in key_types(ROWS)}
        wanted = ["all others", "point of sale item", "full case", "reserved", "unit inside a trade item"]
        self.assertEqual([filters["sgtin"][value] for value in (0, 1, 2, 3, 7)], wanted)
        self.assertEqual((filters["sscc"][1], filters["sscc"][6], filters["sgln"][1]), ("reserved", "unit load", "reserved"))

    def test_what_is_invalid(self):
        right = {"kind": "sgtin", "prefix": "0614141", "lead": "8", "reference": "12345", "serial": "6789"}
        self.assertEqual(compose({**right, "reference": "5", "serial": "A(B"}, ROWS)["text"], "(01)80614141000056(21)A\\(B")
        for change, field in (
            ({"kind": "x"}, "kind"), ({"prefix": "06"}, "prefix"), ({"lead": ""}, "lead"), ({"reference": "123456"}, "reference"),
            ({"serial": "a b"}, "serial"), ({"serial": "1" * 21}, "serial"), ({"kind": "giai", "reference": ""}, "reference"),
            ({"kind": "itip", "piece": "3", "total": "2"}, "piece"), ({"kind": "sgcn", "serial": "A"}, "serial"),
        ):
            shown = INSPECTOR.compose({**right, **({"lead": ""} if change.get("kind") == "x" else {}), **change})
            self.assertEqual(shown.get("wrong"), field, (change, shown))
            self.assertTrue(shown["sentence"].endswith("."))


class Symbols(unittest.TestCase):
    """The symbols, read back by the reader of ZXing where it is there."""

    def read_back(self, modules, zone):
        """Returns what the reader prints for a picture of a symbol."""
        scale, side = 6, len(modules) + 2 * zone
        blank = [False] * side
        lines = [blank] * zone + [[False] * zone + line + [False] * zone for line in modules] + [blank] * zone
        raw = b"".join((b"\0" + b"".join((b"\0" if module else b"\xff") * scale for module in line)) * scale for line in lines)
        parts = ((b"IHDR", struct.pack("!IIBBBBB", side * scale, side * scale, 8, 0, 0, 0, 0)), (b"IDAT", zlib.compress(raw)), (b"IEND", b""))
        with tempfile.TemporaryDirectory() as folder:
            path = Path(folder, "symbol.png")
            chunks = (struct.pack("!I", len(it)) + name + it + struct.pack("!I", zlib.crc32(name + it)) for name, it in parts)
            path.write_bytes(b"\x89PNG\r\n\x1a\n" + b"".join(chunks))
            return subprocess.run(["ZXingReader", str(path)], stdout=subprocess.PIPE, check=False).stdout.decode("utf-8", "replace")

    def test_sizes(self):
        sizes = [len(datamatrix.symbol(b"1" * count)) for count in (2, 20, 200, 1_000, 2_000, 2_600)]
        self.assertEqual(sizes, [10, 16, 40, 88, 120, 132])
        self.assertEqual([len(qr.symbol(b"x" * count)) for count in (1, 44, 300, 2_048)], [21, 33, 69, 169])
        self.assertEqual((datamatrix.symbol(b"a" * 1_400), qr.symbol(b"x" * 2_400)), (None, None))

    @unittest.skipUnless(shutil.which("ZXingReader"), "there is no ZXingReader")
    def test_read_back(self):
        for text in (b"0180614141123458216789", b"0109506000134352" b"10ABC\x1d21X1", b"10" + b"a" * 300, b"10" + b"7" * 46, b"9" * 1_200):
            told = self.read_back(datamatrix.symbol(text), 2)
            self.assertIn(f"Bytes:      {text.hex(' ').upper()}\n", told)
            self.assertIn("Identifier: ]d2", told)
        for size in (20, 44, 130, 300, 1_000):
            text = (b"https://id.gs1.org/01/80614141123458/21/6789?10=" + b"x" * size)[:size]
            self.assertIn(f"Bytes:      {text.hex(' ').upper()}\n", self.read_back(qr.symbol(text), 4))
        self.assertIn("HTTPS://ID.GS1.ORG/01/80614141123458", self.read_back(qr.symbol(b"HTTPS://ID.GS1.ORG/01/80614141123458"), 4))

    def test_of_a_reading(self):
        (reading,) = asked(LABEL)["readings"]
        matrix, code = reading["symbols"]
        self.assertEqual((matrix["says"], matrix["modules"], code["says"], code["modules"]), (LABEL, 16, reading["canon"], 33))
        (reading,) = asked("(01)09506000134352(10)" + "(91)".join(["7" * 20, *["a" * 90] * 1]))["readings"]
        self.assertTrue(all("path" in it for it in reading["symbols"]))


class Lines(unittest.TestCase):
    def test_rows_as_the_program(self):
        lines = [LABEL, "", "urn:epc:id:sscc:0614141.1234567890", "(17)261331", BITS, 'x"y,z']
        shown = asked("\n".join(lines))
        self.assertEqual([row[0] for row in shown["rows"]], [1, 3, 4, 5, 6])
        for number, form, text, reason, sentence in shown["rows"]:
            self.assertEqual(f"no {reason}" if reason else f"ok {text}", answer(form, lines[number - 1].encode()))
            self.assertEqual(bool(reason), bool(sentence))
        self.assertEqual(shown["sentence"], "5 lines: 3 answered, 2 rejected.")

    def test_another_target(self):
        shown = asked(f"{LABEL}\n(01)80614141123458\n{BITS}", target="hex", gcp=7)
        self.assertEqual([tuple(row[2:4]) for row in shown["rows"]], [("", "missing filter"), ("", "missing serial"), (BITS, "")])

    def test_one_line_is_a_text(self):
        self.assertEqual(asked(f"{LABEL}\n")["kind"], "text")

    def test_too_many_lines(self):
        with self.assertRaises(ValueError):
            asked("\n" * 100_000)


class Files(unittest.TestCase):
    def test_titles_are_of_codes_of_the_tables(self):
        rows = Rows(str(GS1))
        codes = {code for path in GS1.parent.glob("*.json") for code in Rows(str(path)).ais}
        self.assertEqual(set(rows.titles) - codes, set())
        self.assertEqual([rows.title(code) for code in ("01", "10", "21", "3103")], ["GTIN", "BATCH/LOT", "SERIAL", "NET WEIGHT (kg)"])
        self.assertEqual({code for code in rows.ais if not rows.title(code)}, {"717", "8110", "8112"})

    def test_tables_of_all_branches(self):
        inspector = Inspector(tables=str(GS1))
        try:
            (reading,) = inspector.inspect(Question.of({"text": "(01)80614141123458(3103)001750(7003)2612311200"}))["readings"]
            self.assertEqual([it["title"] for it in reading["elements"]], ["GTIN", "NET WEIGHT (kg)", "EXPIRY TIME"])
        finally:
            inspector.close()

    def test_fields_of_texts_that_are_none(self):
        self.assertIsNone(read_fields("pure", "urn:epc:id:sgtin:0614141.812345.%4", ROWS))
        self.assertIsNone(read_fields("hex", "3034257BF7", ROWS))


class Commands(unittest.TestCase):
    def test_help_names_the_tables(self):
        with redirect_stdout(io.StringIO()) as printed, self.assertRaises(SystemExit):
            arguments(["inspect", "--help"])
        told = " ".join(printed.getvalue().split())
        self.assertIn("else tables/gs1.json, and the page offers measures, food, healthcare and logistics too", told)

    def test_when_a_browser_is_opened(self):
        self.assertEqual([arguments(["inspect", *words]).open for words in ([], ["--open"], ["--no-open"])], [None, True, False])


class Questions(unittest.TestCase):
    def test_what_is_no_question(self):
        for asked_for in (
            None, [], {}, {"text": 1}, {"text": "", "x": 1}, {"text": "", "gcp": 13}, {"text": "", "gcp": -1}, {"text": "", "filter": "8"},
            {"text": "", "stem": "https://a.example/"}, {"text": "", "stem": "--gcp"}, {"text": "", "stem": "https:///a"}, {"text": "", "target": "pdf"},
            {"text": "", "encoding": "a b"}, {"text": "", "stem": f"https://{'a' * 1_020}"},
        ):
            with self.assertRaises(ValueError):
                Question.of(asked_for)
        question = Question.of({"text": "x", "gcp": "7", "filter": 0, "stem": "https://a.example/b", "keys_only": True, "encoding": ""})
        self.assertEqual(question.options, {"gcp": 7, "filter": 0, "stem": "https://a.example/b", "keys_only": True})

    def test_which_form_a_text_looks_like(self):
        texts = {"link": "https://x", "tag": "urn:epc:tag:x", "pure": "urn:epc:id:x", "bracketed": "(01)", "hex": BITS, "raw": "0109506000134352"}
        for form, text in texts.items():
            order = forms_in_order(text, ROWS.headers())
            self.assertEqual((order[0], len(order)), (form, 6))

    def test_which_forms_may_read_a_text(self):
        texts = ["", "(01)09506000134352", "0109506000134352", "^0109506000134352", "<GS>0109506000134352", "]C10109506000134352", BITS, BITS.lower()]
        texts += ["http://ä.example/ü/01/09506000134352?ö=1", "HTTPS://a.example/01/09506000134352", "urn:epc:id:sgtin:0614141.812345.6789"]
        texts += ["urn:epc:tag:sgtin-96:3.0614141.812345.6789", "Ärger", " 01", "(01)ä", "x", "30"]
        for text in texts:
            possible = possible_forms(text, ROWS.headers())
            read = [form for form in FORMS if form != "canon" and INSPECTOR.answer(form, "canon", bytes_of(form, text), str(GS1), {})[0] is not None]
            self.assertLessEqual(set(read), set(possible), text)
            self.assertEqual(possible[0], forms_in_order(text, ROWS.headers())[0])
        self.assertEqual([possible_forms(text, ()) for text in ("Ärger", "(01)ä", "http://ä")], [["raw"], ["bracketed"], ["link"]])

    def test_bytes(self):
        self.assertEqual(bytes_of("raw", "a^b<GS>c"), b"a\x1db\x1dc")
        self.assertEqual(bytes_of("link", "a^b\ud800"), b"a^b?")


class Serving(unittest.TestCase):
    @classmethod
    def setUpClass(cls):
        cls.server = Server(0, INSPECTOR)
        threading.Thread(target=cls.server.serve_forever, daemon=True).start()

    @classmethod
    def tearDownClass(cls):
        cls.server.shutdown()
        cls.server.server_close()

    def reply(self, method, path, body=None, **headers):
        """The status, the fields and the body of a reply."""
        connection = http.client.HTTPConnection("127.0.0.1", self.server.server_port, timeout=900)
        try:
            connection.request(method, path, body, headers={name.replace("_", "-"): value for name, value in headers.items()})
            told = connection.getresponse()
            return told.status, told.headers, told.read()
        finally:
            connection.close()

    def test_the_page(self):
        for path in FILES:
            status, headers, body = self.reply("GET", path)
            self.assertEqual((status, headers["Content-Security-Policy"], bool(body)), (200, POLICY, True))
            self.assertNotIn(b"innerHTML", body)
        self.assertEqual(self.reply("GET", "/../server.py")[0], 404)

    def test_questions(self):
        status, _, body = self.reply("POST", "/inspect", json.dumps({"text": LABEL}), Content_Type="application/json")
        self.assertEqual((status, len(json.loads(body)["readings"])), (200, 1))
        for text in ("{", "[]", '{"text": "x", "gcp": 99}', "[" * 100_000, '{"text": "x", "tables": "other"}'):
            status, _, body = self.reply("POST", "/inspect", text, Content_Type="application/json")
            self.assertEqual((status, list(json.loads(body))), (400, ["error"]))

    def test_composing(self):
        fields = {"kind": "sscc", "prefix": "0614141", "lead": "1", "reference": "234567890"}
        status, _, body = self.reply("POST", "/compose", json.dumps(fields), Content_Type="application/json")
        self.assertEqual((status, json.loads(body)["text"]), (200, "(00)106141412345678908"))
        for text in ("{", "[1]", "7"):
            self.assertEqual(self.reply("POST", "/compose", text, Content_Type="application/json")[0], 400)
        choices = json.loads(self.reply("GET", "/choices")[2])
        self.assertEqual((choices["sets"][0]["name"], len(choices["keys"])), ("gs1", 10))

    def test_more_than_the_page_takes(self):
        for digits in ("9" * 5_000, "8388609"):
            status, _, body = self.reply("POST", "/inspect", Content_Type="application/json", Content_Length=digits)
            self.assertEqual((status, list(json.loads(body))), (413, ["error"]))

    def test_a_page_that_is_served_already(self):
        self.assertTrue(is_served(self.server.server_port))
        with socket.create_server(("127.0.0.1", 0)) as closed:
            port = closed.getsockname()[1]
        self.assertFalse(is_served(port))
        with self.assertRaisesRegex(OSError, "name another by --port"):
            serve(self.server.server_port)

    def test_other_sites(self):
        question = json.dumps({"text": LABEL})
        for headers in ({"Host": "evil.example"}, {"Origin": "https://evil.example"}, {"Content_Type": "text/plain"}):
            status, _, body = self.reply("POST", "/inspect", question, **{"Content_Type": "application/json", **headers})
            self.assertEqual((status, body), (403, b""))
        self.assertEqual(self.reply("GET", "/", Host="evil.example")[0], 404)


if __name__ == "__main__":
    unittest.main()
