"""Columns in and out over the program, which $TDL names: elements, several forms, the ways through a file, pipes that wait."""
import csv
import io
import os
import random
import subprocess
import sys
import tempfile
import unittest
from pathlib import Path
from unittest import mock

SRC = Path(__file__).resolve().parent.parent / "src"
# (an installed module goes before the sources)
sys.path.append(str(SRC))

from tdl import Translator  # noqa: E402
from tdl import answers  # noqa: E402
from tdl.columns import source  # noqa: E402
from tdl.columns.job import Job  # noqa: E402
from tdl.columns.records import Reader  # noqa: E402
from tdl.columns.translation import translate_csv  # noqa: E402
from tdl.errors import Wrong  # noqa: E402

OWN = {"env": {**os.environ, "PYTHONPATH": os.environ.get("PYTHONPATH", str(SRC))}, "timeout": 900}
BITS, LINK = "3074257BF7194E4000001A85", "https://id.gs1.org/01/80614141123458/21/6789"
SHOP = """order,gtin,serial,lot
1,80614141123458,6789,ABC
2,0614141123452,6790,
3,614141123452,6791,
4,80614141123459,6792,
5,80614141123458,,ABC
6,80614141123458,6#7,
7,9.50600E+12,1,
8,,1,
9, 80614141123458 ,6/7,
10,80614141123458,1,"A,B"
"""


def run(command, *words, given=""):
    """The status, the output and the errors of a run over some input."""
    given = given.encode("utf-8", "surrogateescape")
    done = subprocess.run([sys.executable, "-m", "tdl", command, *map(str, words)], input=given, capture_output=True, check=False, **OWN)
    return done.returncode, done.stdout.decode("utf-8", "surrogateescape"), done.stderr.decode()


def rows_of(text):
    """The fields of the records of CSV."""
    return list(csv.reader(io.StringIO(text, newline="")))


class Elements(unittest.TestCase):
    def added(self, *words, given=SHOP):
        """The fields that are new, of each record."""
        width = len(rows_of(given)[0])
        return [row[width:] for row in rows_of(run("csv", *words, given=given)[1])]

    def test_elements_become_tags_and_reasons_name_columns(self):
        found = self.added("-e", "01=gtin", "-e", "21=serial", "--to", "hex", "--gcp", "7", "--filter", "3")
        self.assertEqual(found[:2], [["gtin_hex", "gtin_reason"], [BITS, ""]])
        self.assertEqual([reason for _, reason in found[4:9]], ["check gtin", "missing serial", "char serial 1", "rounded gtin", "missing gtin"])

    def test_short_gtins_spaces_and_escapes(self):
        found = self.added("-e", "01=gtin", "-e", "21=serial", "-e", "10=lot")
        links = [link.replace("https://id.gs1.org", "") for link, _ in found[1:]]
        self.assertEqual(links[:3], ["/01/80614141123458/10/ABC/21/6789", "/01/00614141123452/21/6790", "/01/00614141123452/21/6791"])
        self.assertEqual((links[4], links[8:]), ("/01/80614141123458/10/ABC", ["/01/80614141123458/21/6%2F7", "/01/80614141123458/10/A%2CB/21/1"]))

    def test_a_serial_may_look_like_a_shortened_number(self):
        given = "gtin,serial\n80614141123458,6.7E+5\n8.06141E+13,1\n"
        found = self.added("-e", "01=gtin", "-e", "21=serial", given=given)
        self.assertEqual(found[1:], [["https://id.gs1.org/01/80614141123458/21/6.7E%2B5", ""], ["", "rounded gtin"]])

    def test_several_forms_and_values(self):
        words = ("-e", "01=gtin", "-e", "21=serial", "-e", "10=lot", "--to", "hex", "--to", "link", "--split", "01,10", "--gcp", "7", "--filter", "3")
        found = self.added(*words)
        self.assertEqual(found[0], ["gtin_hex", "gtin_link", "gtin_01", "gtin_10", "gtin_reason"])
        self.assertEqual(found[1], ["", LINK.replace("/21", "/10/ABC/21"), "80614141123458", "ABC", "extra lot"])
        self.assertEqual(found[4], ["", "", "", "", "check gtin"])
        self.assertEqual(found[10][2:], ["80614141123458", "A,B", "extra lot"])
        self.assertEqual(self.added("-c", "1", "--from", "hex", "--split", "21,17", given=f"epc\n{BITS}\n"), [["epc_21", "epc_17", "epc_reason"], ["6789", "", ""]])

    def test_keys_that_are_absent_or_two(self):
        given = "sscc,gtin,sn\n106141412345678908,,\n,80614141123458,1\n,,1\n106141412345678908,80614141123458,1\n,x,1\n"
        found = self.added("-e", "21=sn", "-e", "00=sscc", "-e", "01=gtin", "--name", "id", given=given)
        self.assertEqual([row[0] for row in found[:3]], ["id_link", "https://id.gs1.org/00/106141412345678908", "https://id.gs1.org/01/80614141123458/21/1"])
        self.assertEqual([row[1] for row in found[3:]], ["key", "keys gtin", "length gtin"])

    def test_a_second_run_to_another_form(self):
        first = run("csv", "-c", "epc", "--from", "hex", "--to", "link", given=f"epc\n{BITS}\n30\n")[1]
        second = run("csv", "-c", "epc", "--from", "hex", "--to", "pure", given=first)[1]
        self.assertEqual(rows_of(second)[0], ["epc", "epc_link", "epc_reason", "epc_pure", "epc_pure_reason"])
        third = run("csv", "-c", "epc", "--from", "hex", "--to", "pure", "-n", "again", given=second)[1]
        self.assertEqual(rows_of(third)[0][5:], ["again_pure", "again_reason"])

    def test_arguments_that_do_not_go_together(self):
        for words, sentence in (
            (["-e", "01=gtin", "-c", "gtin"], "not allowed with"),
            (["-e", "01=gtin", "--from", "raw"], "elements have none"),
            (["-c", "gtin"], "-c needs --from"),
            (["-e", "21=serial"], "no element of 21 is a key"),
            (["-e", "01=gtin", "-e", "01=lot"], "the element 01 is named twice"),
            (["-e", "01=gtin", "-e", "9999=lot"], "the tables have no element 9999"),
            (["-e", "1=gtin"], "2 to 4 digits"),
            (["-e", "gtin"], "an element is CODE=COLUMN"),
            (["-e", "01=gtin", "-e", "21=sn"], "there is no column sn"),
            (["-c", "gtin", "--from", "raw", "--to", "link", "--to", "canon"], "two new columns would be named gtin_link"),
            (["-c", "gtin", "--from", "raw", "-o", "x.csv", "--rejected", "./x.csv"], "name the same file"),
        ):
            status, output, told = run("csv", *words, given=SHOP)
            self.assertEqual((status, output, sentence in told, "Traceback" in told), (2, "", True, False), told)


class Ways(unittest.TestCase):
    """Generated files: each way, in each number of processes and pieces of any size, gives the bytes that an oracle gives."""

    FIELDS = ["x", "", " y", "a b", "é", "\udcff", "1" * 300]
    QUOTED = ['"a, ""b"""', '"a\nb"', '"a\r\nb"', '""', '5" pipe', '"a;b\tc§"']
    EPCS = [f"{0x3074257BF7194E4000000000 + number:024X}" for number in range(30)] + ["30", "3", "", "3074257BF7194E400000x", " "]

    def answer(self, epc):
        """The link of a tag with this company prefix, its reference and check digit: they are those of BITS."""
        epc = epc.strip(" ")
        if len(epc) == 24:
            return LINK.replace("6789", str(int(epc[-9:], 16))), ""
        return "", "odd" if len(epc) % 2 else "digit 20" if "x" in epc else "reading"

    def made(self, dice):
        """A file: its bytes, its delimiter, and the number of its column with tags, from 0."""
        delimiter, width = dice.choice(",;\t§"), dice.randrange(1, 5)
        index, end = dice.randrange(width), dice.choice(["\n", "\r\n", "\n", "\r"])
        odd = dice.choice([0, 0, 0.01, 0.3])
        fields = self.FIELDS + (["\0"] if dice.random() < 0.1 else [])
        lines = [dice.choice(["", "\ufeff"]) + delimiter.join(f"c{number}" for number in range(width)) + end]
        for _ in range(dice.choice([0, 1, 5, 200])):
            row = [dice.choice(self.QUOTED) if dice.random() < odd else dice.choice(fields) for _ in range(width)]
            row[index] = dice.choice(self.EPCS) or (dice.choice(fields) and "30" if width == 1 else "")
            row += ["more"] * (dice.random() < odd) if width > 1 else []
            lines.append(delimiter.join(row).replace(",", delimiter) + (dice.choice(["\n", "\r\n"]) if dice.random() < odd else end))
            lines += [end] * (dice.random() < odd)
        if dice.random() < 0.3:
            lines[-1] = lines[-1].rstrip("\r\n")
        return "".join(lines).encode("utf-8", "surrogateescape"), delimiter, index

    def oracle(self, data, delimiter, index):
        """The two files that are written, or None for a file that is not CSV, by the csv module over the whole text."""
        text = data.decode("utf-8", "surrogateescape")
        mark, lines = text[: text.startswith("\ufeff")], io.StringIO(text[text.startswith("\ufeff") :], newline="").readlines()
        reader, before, answered, refused, width = csv.reader(lines, delimiter=delimiter, strict=True), 0, [], [], None
        try:
            for row in reader:
                if not row:
                    continue
                raw, before = "".join(lines[before : reader.line_num]), reader.line_num
                body, end = raw.rstrip("\r\n"), raw[len(raw.rstrip("\r\n")) :]
                if width is None:
                    width, answer, reason, number = len(row), f"{row[index]}_link", f"{row[index]}_reason", "record"
                    refused.append(f"{mark}{number}{delimiter}{body.lstrip()}{delimiter}{reason}{end or chr(10)}")
                    answered.append(f"{mark}{body}{delimiter}{answer}{delimiter}{reason}{end}")
                    continue
                if len(row) == width:
                    answer, reason = self.answer(row[index])
                else:
                    body, answer, reason = body + delimiter * (width - len(row)), "", f"fields {len(row)}"
                answered.append(f"{body}{delimiter}{answer}{delimiter}{reason}{end}")
                if reason:
                    number = len(answered) - 1
                    refused.append(f"{number}{delimiter}{body.lstrip(chr(13) + chr(10))}{delimiter}{reason}{end or chr(10)}")
        except csv.Error:
            return None
        return "".join(answered).encode("utf-8", "surrogateescape"), "".join(refused).encode("utf-8", "surrogateescape")

    def got(self, folder, data, delimiter, index, processes=1):
        """The two files that a way writes, or None."""
        for name in ("out", "why"):
            Path(folder, name).unlink(missing_ok=True)
        job = Job("hex", str(index + 1), targets=("link",), delimiter=delimiter, processes=processes)
        try:
            translate_csv(job, f"{folder}/in", f"{folder}/out", f"{folder}/why")
        except Wrong:
            return None
        return Path(folder, "out").read_bytes(), Path(folder, "why").read_bytes()

    def test_generated_files(self):
        kept = Translator("hex", "link")
        self.addCleanup(kept.close)
        # (one run of the program for all files; after a fork a process has a run of its own)
        keeper = mock.Mock(print_answers=kept.print_answers)
        changed = mock.patch.object(answers, "Translator", return_value=keeper)
        changed.start()
        self.addCleanup(changed.stop)
        dice = random.Random(7)
        shorter = 0
        for number in range(40):
            data, delimiter, index = self.made(dice)
            wanted = self.oracle(data, delimiter, index)
            with tempfile.TemporaryDirectory() as folder, mock.patch.object(Reader, "_without_quotes", autospec=True, side_effect=Reader._without_quotes) as way:
                Path(folder, "in").write_bytes(data)
                for size, processes in ((262_144, 1), (max(7, len(data) // 9), 1), (max(7, len(data) // 5), 4 if number % 10 == 0 else 1)):
                    with mock.patch.object(source, "BLOCK", size):
                        self.assertEqual(self.got(folder, data, delimiter, index, processes), wanted, (number, size, data))
                shorter += any(call.args[0]._without_quotes(call.args[1]) is not None for call in way.call_args_list[:1])
                with mock.patch.object(Reader, "_without_quotes", return_value=None):
                    self.assertEqual(self.got(folder, data, delimiter, index), wanted, (number, data))
        self.assertGreater(shorter, 5)


class Live(unittest.TestCase):
    """A line that came is answered although the pipe stays open."""

    def talk(self, words, turns):
        """Sends each text and reads the lines that answer it; nothing more is sent before."""
        command = [sys.executable, "-m", "tdl", *words]
        with subprocess.Popen(command, stdin=subprocess.PIPE, stdout=subprocess.PIPE, stderr=subprocess.DEVNULL, bufsize=0, env=OWN["env"]) as talking:
            for sent, wanted in turns:
                talking.stdin.write(sent.encode())
                self.assertEqual(b"".join(talking.stdout.readline() for _ in range(wanted.count("\n"))).decode(), wanted)
            talking.stdin.close()
            self.assertEqual((talking.stdout.read(), talking.wait()), (b"", 0))

    def test_csv(self):
        for jobs in ("1", "3"):
            turns = [("epc,note\n", "epc,note,epc_link,epc_reason\n"), (f"{BITS},", ""), ("a\n", f"{BITS},a,{LINK},\n"), (f'{BITS},"a\nb', "")]
            turns += [(f'"\n{BITS},c\n', f'{BITS},"a\nb",{LINK},\n{BITS},c,{LINK},\n')]
            self.talk(["csv", "-c", "epc", "--from", "hex", "--to", "link", "-j", jobs], turns)

    def test_jsonl(self):
        line = '{"read":{"epc":"%s"}%s}\n'
        turns = [(line % (BITS, ""), line % (BITS, f',"epc_link":"{LINK}"'))] * 2
        self.talk(["jsonl", "-c", "read.epc", "--from", "hex", "--to", "link"], turns)


class Jsonl(unittest.TestCase):
    def test_answers_and_reasons(self):
        given = [
            f'{{"read":{{"epc":"{BITS}"}}, "n":1 }}\r', '{"read":{"epc":"30"}}', "{}", "[1]", "", '{"a":NaN}', "\udcff", '{"read":{"epc":"a\\nb"}}',
            '{"read":{"epc":1}}', '{"read":{"epc":"\\ud800"}}', f'{{"read":{{"epc":"{BITS}"}},"epc_reason":"x"}}',
            '{"read":{"epc":"3"},"epc_reason":"x"}', '{"epc_link":1}',
        ]
        reason = '"epc_reason":'
        wanted = [
            f'{{"read":{{"epc":"{BITS}"}}, "n":1,"epc_link":"{LINK}"}}\r', f'{{"read":{{"epc":"30"}},{reason}"reading"}}', f'{{{reason}"member"}}',
            f'{{"line":"[1]",{reason}"json"}}', "", f'{{"line":"{{\\"a\\":NaN}}",{reason}"json"}}', f'{{"line":"\\udcff",{reason}"json"}}',
            f'{{"read":{{"epc":"a\\nb"}},{reason}"line-feed"}}', f'{{"read":{{"epc":1}},{reason}"member"}}', f'{{"read":{{"epc":"\\ud800"}},{reason}"odd"}}',
            f'{{"read":{{"epc":"{BITS}"}},{reason}"x","epc_link":"{LINK}"}}', f'{{"read":{{"epc":"3"}},{reason}"x","epc_link_reason":"odd"}}',
            f'{{"epc_link":1,{reason}"twice epc_link"}}',
        ]
        status, output, told = run("jsonl", "-c", "read.epc", "--from", "hex", "--to", "link", given="\n".join(given))
        self.assertEqual(output.split("\n"), wanted)
        self.assertEqual((status, told), (1, "12 lines, 2 translated, 10 rejected\n"))

    def test_elements(self):
        given = '{"i":{"gtin":614141123452,"sn":"7"}}\n{"i":{"gtin":"80614141123459"}}\n{"i":{"gtin":1.5}}\n{"i":{}}\n{"i":{"gtin":null,"sn":"9.5E+12"}}\n'
        found = run("jsonl", "-e", "01=i.gtin", "-e", "21=i.sn", "--split", "01,21", given=given)[1].splitlines()
        self.assertEqual(found[0], '{"i":{"gtin":614141123452,"sn":"7"},"gtin_01":"00614141123452","gtin_21":"7"}')
        reasons = [line.split(',"gtin_reason":')[1] for line in found[1:]]
        self.assertEqual(reasons, ['"check gtin"}', '"member gtin"}', '"missing gtin"}', '"missing gtin"}'])

    def test_a_file_appears_when_it_is_whole(self):
        with tempfile.TemporaryDirectory() as folder:
            Path(folder, "in").write_text(f'{{"epc":"{BITS}"}}')
            self.assertEqual(run("jsonl", "-c", "epc", "--from", "hex", f"{folder}/in", "-o", f"{folder}/out")[0], 0)
            self.assertEqual(Path(folder, "out").read_text(), f'{{"epc":"{BITS}","epc_link":"{LINK}"}}')
            self.assertEqual(sorted(os.listdir(folder)), ["in", "out"])


class Streams(unittest.TestCase):
    """Standard streams that are closed, fields without a limit, and the names of files that are written."""

    def shell(self, folder, command):
        """The status of a command of the shell in a folder."""
        return subprocess.run(["bash", "-c", command.replace("TDL", f"{sys.executable} -m tdl")], cwd=folder, check=False, capture_output=True, **OWN)

    def test_closed_streams(self):
        with tempfile.TemporaryDirectory() as folder:
            Path(folder, "in").write_text(f"epc\n{BITS}\n30\n")
            wanted = f"epc,epc_link,epc_reason\n{BITS},{LINK},\n30,,reading\n"
            for closed in ("2>&-", "0<&- 2>&-", "0<&- 1>&- 2>&-", "2>/dev/full"):
                done = self.shell(folder, f"TDL csv -c epc --from hex --to link in -o out {closed}")
                self.assertEqual((done.returncode, Path(folder, "out").read_text()), (1, wanted), closed)
                Path(folder, "out").unlink()
            for command in ("TDL csv -c epc --from hex <&-", "TDL csv -c epc --from hex in >&-", "TDL csv -c epc --from hex in >/dev/full"):
                done = self.shell(folder, command)
                self.assertEqual((done.returncode, done.stdout, b"Traceback" in done.stderr), (4, b"", False), command)

    def test_long_fields(self):
        long = "x" * 300_000
        for given in (f"epc,note\n{BITS},{long}\n{long},y\n", f'epc,note\n{BITS},"{long}\n"\n{long},y\n'):
            rows = rows_of(run("csv", "-c", "epc", "--from", "hex", "--to", "link", given=given)[1].replace(long, "long").replace("long\n", "long"))
            self.assertEqual(rows[1:], [[BITS, "long", LINK, ""], ["long", "y", "", "long"]])


if __name__ == "__main__":
    unittest.main()
