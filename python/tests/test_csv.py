"""`python3 -m tdl csv` over the program, which $TDL names."""
import csv
import io
import os
import pty
import subprocess
import sys
import tempfile
import unittest
from pathlib import Path

SRC = Path(__file__).resolve().parent.parent / "src"
BITS, LINK = "3074257BF7194E4000001A85", "https://id.gs1.org/01/80614141123458/21/6789"
OWN = {"env": {**os.environ, "PYTHONPATH": os.environ.get("PYTHONPATH", str(SRC))}, "check": False, "timeout": 900}


def run(*words, given=b""):
    """The status, the output and the errors of a run over some input."""
    done = subprocess.run([sys.executable, "-m", "tdl", "csv", *map(str, words)], input=given, capture_output=True, **OWN)
    return done.returncode, done.stdout, done.stderr.decode()


def written(*words, given):
    """The output alone."""
    return run("-c", "EPC", "--from", "hex", "--to", "link", *words, given=given)[1].decode()


class Records(unittest.TestCase):
    def test_answers_and_reasons(self):
        status, output, told = run("-c", "EPC", "--from", "hex", "--to", "link", given=f"id,EPC\n1,{BITS}\n2,30\n".encode())
        self.assertEqual(output.decode(), f"id,EPC,EPC_link,EPC_reason\n1,{BITS},{LINK},\n2,30,,reading\n")
        self.assertEqual((status, told), (1, "2 records, 1 translated, 1 rejected\n"))
        self.assertEqual(run("-c", "EPC", "--from", "hex", given=f"EPC\n{BITS}\n".encode())[0], 0)

    def test_quotes_line_ends_and_the_mark(self):
        given = f'\ufeffEPC,note\r\n{BITS},"a, ""b""\r\nc"\r\n\r\n"{BITS}",d'
        wanted = f'\ufeffEPC,note,EPC_link,EPC_reason\r\n{BITS},"a, ""b""\r\nc",{LINK},\r\n\r\n"{BITS}",d,{LINK},'
        self.assertEqual(written(given=given.encode()), wanted)
        self.assertEqual(written(given=given.replace("\r\n", "\n").encode()), wanted.replace("\r\n", "\n"))

    def test_texts_with_quotes_delimiters_and_line_feeds(self):
        texts = ['(01)80614141123458(21)a"b', "(01)80614141123458(21)a,b", "(01)80614141123458(21)a;b", "(01)8\n", "", "\udcff"]
        for delimiter in ",;\t":
            into = io.StringIO()
            csv.writer(into, delimiter=delimiter).writerows([["x", "y"], *([text, "z"] for text in texts)])
            output = run("-c", "x", "--from", "bracketed", "--to", "raw", "-d", delimiter, given=into.getvalue().encode("utf-8", "surrogateescape"))[1]
            rows = list(csv.reader(io.StringIO(output.decode("utf-8", "surrogateescape"), newline=""), delimiter=delimiter))
            self.assertEqual(rows[0], ["x", "y", "x_raw", "x_reason"])
            self.assertEqual([row[0] for row in rows[1:]], texts)
            self.assertEqual([row[2] for row in rows[1:4]], [text.replace("(01)", "01").replace("(21)", "21") for text in texts[:3]])
            self.assertEqual([row[3] for row in rows[4:]], ["line-feed", "key", "bracket 0"])

    def test_without_a_header(self):
        self.assertEqual(written("-H", "-c", "2", given=f"1,{BITS}\n2,{BITS}\n".encode()), f"1,{BITS},{LINK},\n2,{BITS},{LINK},\n")
        self.assertEqual(written("-c", "2", given=f"id,b\n2,{BITS}\n".encode()), f"id,b,b_link,b_reason\n2,{BITS},{LINK},\n")
        self.assertEqual(written("-H", "-c", "1", given=b""), "")

    def test_records_of_another_length(self):
        given = f"id,EPC,n\n1,{BITS}\n2,{BITS},3,4\n".encode()
        self.assertEqual(written(given=given), f"id,EPC,n,EPC_link,EPC_reason\n1,{BITS},,,fields 2\n2,{BITS},3,4,,fields 4\n")

    def test_wrong_files_and_arguments(self):
        for words, given, sentence in (
            (["-c", "x"], b"id,EPC\n", "there is no column x: there are id, EPC"),
            (["-c", "3"], b"id,EPC\n", "there is no column 3"),
            (["-c", "x", "-H"], b"id,EPC\n", "there is no column x: give a number from 1 to 2"),
            (["-c", "id"], b"id,id\n", "several columns are named id: give its number, 1 to 2"),
            (["-c", "id"], b"id,id_link\n", "the file has a column id_link already: name the new ones by --name"),
            (["-c", "id"], b"", "the file is empty"),
            (["-c", "id"], b'id\n"a\n', "the record at line 2 is not CSV: the quote that line 2 opens is not closed"),
            (["-c", "id"], "id\n".encode("utf-16"), "UTF-16"),
            (["-c", "id", "--gcp", "13"], b"id\nx\n", "gcp is a number from 1 to 12, not 13"),
            (["-c", "id", "-j", "0"], b"id\n", "the number of processes is 1 to 256"),
            (["-c", "id", "-d", "ab"], b"id\n", "a delimiter is one character"),
        ):
            status, output, told = run("--from", "hex", *words, given=given)
            self.assertEqual((status, sentence in told, "Traceback" in told), (2, True, False), told)
        self.assertEqual(run("-c", "x", "--from", "hex", "/not/there")[0], 4)


class Files(unittest.TestCase):
    def setUp(self):
        self.folder = tempfile.TemporaryDirectory()
        self.addCleanup(self.folder.cleanup)

    def path(self, name):
        return Path(self.folder.name, name)

    def test_each_number_of_processes_writes_the_same(self):
        rows = (f'{n},{0x3074257BF7194E4000000000 + n:024X},"a, {n}\n"' if n % 7 else f"{n},30,x" for n in range(9_001))
        self.path("in.csv").write_text("id,EPC,note\n" + "\n".join(rows))
        found = set()
        for jobs in (1, 2, 3):
            words = ("-c", "EPC", "--from", "hex", self.path("in.csv"), "-o", self.path("out.csv"), "--rejected", self.path("why.csv"), "-j", jobs)
            self.assertEqual(run(*words)[::2], (1, "9,001 records, 7,715 translated, 1,286 rejected\n"))
            found.add((self.path("out.csv").read_bytes(), self.path("why.csv").read_bytes()))
        ((output, rejected),) = found
        rows = list(csv.reader(io.StringIO(output.decode(), newline="")))
        self.assertEqual([row[0] for row in rows[1:]], [str(n) for n in range(9_001)])
        self.assertEqual([row[3:] for row in rows[1:9]][::6], [["", "reading"], [LINK.replace("6789", "6"), ""]])
        why = list(csv.reader(io.StringIO(rejected.decode(), newline="")))
        self.assertEqual(why[:2], [["record", "id", "EPC", "note", "EPC_reason"], ["1", "0", "30", "x", "reading"]])
        self.assertEqual([int(row[0]) for row in why[1:]], [n + 1 for n in range(0, 9_001, 7)])

    def test_empty_lines_and_open_quotes_between_the_shares_of_processes(self):
        line = f"{BITS},{LINK},\n"
        self.path("in.csv").write_text("EPC\n" + f"{BITS}\n" * 1_999 + "\n\n" + f"{BITS}\n" * 2_000 + "\n")
        self.path("open.csv").write_text("EPC\n" + f"{BITS}\n" * 5_000 + '"\n\n')
        for jobs in (1, 2):
            words = ("-c", "EPC", "--from", "hex", "--to", "link", "-j", jobs)
            self.assertEqual(run(*words, self.path("in.csv"))[1].decode(), "EPC,EPC_link,EPC_reason\n" + line * 1_999 + "\n\n" + line * 2_000)
            self.assertIn("the record at line 5002 is not CSV: the quote that line 5002 opens is not closed", run(*words, self.path("open.csv"))[2])

    def test_a_file_appears_when_it_is_whole(self):
        self.path("in.csv").write_text(f'EPC\n{BITS}\n"a')
        self.path("out.csv").write_text("before")
        words = ("-c", "EPC", "--from", "hex", self.path("in.csv"), "-o", self.path("out.csv"))
        self.assertEqual(run(*words)[0], 2)
        self.assertEqual(self.path("out.csv").read_text(), "before")
        self.path("in.csv").write_text(f"EPC\n{BITS}\n")
        self.path("out.csv").chmod(0o640)
        self.assertEqual(run(*words)[0], 0)
        self.assertEqual(self.path("out.csv").read_text(), f"EPC,EPC_link,EPC_reason\n{BITS},{LINK},\n")
        self.assertEqual(self.path("out.csv").stat().st_mode & 0o777, 0o640)
        self.assertEqual(run(*words[:-1], self.path("in.csv"))[0], 0)
        self.assertEqual(sorted(path.name for path in Path(self.folder.name).iterdir()), ["in.csv", "out.csv"])
        self.assertEqual(run(*words, "--rejected", self.path("out.csv"))[0], 2)

    def test_progress_on_a_terminal_alone(self):
        self.path("in.csv").write_text("EPC\n" + f"{BITS}\n" * 30_000)
        shown, terminal = pty.openpty()
        words = [sys.executable, "-m", "tdl", "csv", "-c", "EPC", "--from", "hex", str(self.path("in.csv")), "-o", str(self.path("out.csv"))]
        self.assertEqual(subprocess.run(words, stderr=terminal, **OWN).returncode, 0)
        told = ""
        while "30,000 translated, 0 rejected" not in told:
            told += os.read(shown, 65_536).decode()
        for end in (shown, terminal):
            os.close(end)
        self.assertRegex(told, r"\[#+ *\] [0-9,]+ records, [0-9,]+ a second, \d+ s left, 0 rejected")
        self.assertIn("30,000 records, 30,000 translated", told)


if __name__ == "__main__":
    unittest.main()
