"""What `python3 -m tdl csv` and `jsonl` read: stray quotes, byte order marks, arrays of objects, names with control characters."""
import csv
import io
import json
import random
import subprocess
import sys
import threading

import pytest

from tools.common import PATIENCE

Environment = dict[str, str]
BITS, LINK = "3074257BF7194E4000001A85", "https://id.gs1.org/01/80614141123458/21/6789"
MARK = "\ufeff"


def run(module: Environment, command: str, *words: object, given: str = "") -> tuple[int, str, str]:
    """Returns the status, the output and the errors of a command."""
    line = [sys.executable, "-m", "tdl", command, *map(str, words)]
    done = subprocess.run(line, input=given.encode("utf-8", "surrogateescape"), env=module, capture_output=True, check=False)
    return done.returncode, done.stdout.decode("utf-8", "surrogateescape"), done.stderr.decode()


QUOTES = [
    (f'1,{BITS},a\n2,"12" monitor,b\n3,{BITS},c\n', [f"1,{BITS},a,{LINK},", '2,"12" monitor,b,,quote 3', f"3,{BITS},c,{LINK},"]),
    (f'1,{BITS},"a"b\n2,{BITS},c\n', [f'1,{BITS},"a"b,,quote 2', f"2,{BITS},c,{LINK},"]),
    (f'\n1,"x"y,"a\nb"\n2,{BITS},"c\nd"\n', ["", '1,"x"y,"a', 'b",,quote 3', f'2,{BITS},"c', f'd",{LINK},']),
    (f'1,"x"y\n2,{BITS},"c"\n', ['1,"x"y,,,quote 2', f'2,{BITS},"c",{LINK},']),
    (f'1,{BITS},5" pipe\n2,"{BITS}","a ""b"""\n', [f'1,{BITS},5" pipe,{LINK},', f'2,"{BITS}","a ""b""",{LINK},']),
]


@pytest.mark.parametrize("jobs", [1, 3])
@pytest.mark.parametrize("records, wanted", QUOTES)
def test_a_stray_quote_rejects_its_record(module: Environment, records: str, wanted: list[str], jobs: int) -> None:
    """A record whose quotes are not CSV is rejected alone, by its line; it ends where other readers let it end."""
    status, output, _ = run(module, "csv", "-c", "epc", "--from", "hex", "--to", "link", "-j", jobs, given=f"n,epc,note\n{records}")
    assert output.splitlines() == ["n,epc,note,epc_link,epc_reason", *wanted]
    assert status == int("quote" in output)


def test_stray_quotes_between_pieces(module: Environment) -> None:
    """Among many records each stray quote rejects one, as the reader of csv finds the records; the numbers are those of the lines."""
    dice = random.Random(3)
    kinds = [f'{BITS},"12" monitor', f"{BITS},plain", f'{BITS},"a\nb"', f'"{BITS}"x,y']
    records = dice.choices(kinds, (1, 8, 4, 1), k=30_000)
    given, line, wanted = "epc,note\n" + "\n".join(records) + "\n", 2, []
    for record in records:
        wanted.append(f"quote {line}" if record in (kinds[0], kinds[3]) else "")
        line += 1 + record.count("\n")
    for jobs in (1, 3):
        rows = list(csv.reader(io.StringIO(run(module, "csv", "-c", "epc", "--from", "hex", "-j", jobs, given=given)[1], newline="")))
        assert [row[3] for row in rows[1:]] == wanted


@pytest.mark.parametrize("given, begun, opened", [
    ('epc\n"a\n', 2, 2),
    ('epc,note\n1,x\n2,"y\nz"\n\n3,"a\nb","c\nd\n', 6, 7),
    ('epc,note\n1,"x"y\n2,"a"" b\n', 3, 3),
])
def test_an_open_quote_is_named(module: Environment, given: str, begun: int, opened: int) -> None:
    """A quote that is open to the end of the file ends the run, and its line is named."""
    status, _, told = run(module, "csv", "-c", "epc", "--from", "hex", given=given)
    assert (status, told) == (2, f"tdl csv: the record at line {begun} is not CSV: the quote that line {opened} opens is not closed\n")


def test_byte_order_marks(module: Environment) -> None:
    """JSON lines may begin with a byte order mark, which stays."""
    line = f'{{"epc":"{BITS}"}}\n'
    found = run(module, "jsonl", "-c", "epc", "--from", "hex", "--to", "link", given=MARK + line * 2)
    wanted = f'{{"epc":"{BITS}","epc_link":"{LINK}"}}\n'
    assert found == (0, MARK + wanted * 2, "2 lines, 2 translated, 0 rejected\n")


@pytest.mark.parametrize("mark", ["", MARK])
@pytest.mark.parametrize("given, wanted", [
    ("[]", "[]"),
    (" [ ] \n", " [ ] \n"),
    (f'[{{"epc":"{BITS}"}},{{}}]', f'[{{"epc":"{BITS}","epc_link":"{LINK}"}},{{"epc_reason":"member"}}]'),
    ('[\n  {"epc":"3","x":[{"y":"]}\\""}]} ,\n  5,"a,]",[1,{}],null\n]\n',
     '[\n  {"epc":"3","x":[{"y":"]}\\""}],"epc_reason":"odd"} ,\n  {"line":"5","epc_reason":"json"},{"line":"\\"a,]\\"","epc_reason":"json"},'
     '{"line":"[1,{}]","epc_reason":"json"},{"line":"null","epc_reason":"json"}\n]\n'),
    ('[{"epc":NaN},{"a" "b"}]', '[{"line":"{\\"epc\\":NaN}","epc_reason":"json"},{"line":"{\\"a\\" \\"b\\"}","epc_reason":"json"}]'),
])
def test_arrays_of_objects(module: Environment, mark: str, given: str, wanted: str) -> None:
    """The objects of an array get members as lines do, and the rest of the array stays as it is."""
    assert run(module, "jsonl", "-c", "epc", "--from", "hex", "--to", "link", given=mark + given)[1] == mark + wanted


@pytest.mark.parametrize("given, sentence", [
    ("[1", "not closed"),
    ('[{"a":"', "not closed"),
    ("[1,]", "byte 3"),
    ("[,1]", "byte 1"),
    ('[{"epc":"30"} {}]', "byte 14"),
    ("[1] x", "more after the array"),
    ("[]]", "more after the array"),
])
def test_arrays_that_are_not_json(module: Environment, given: str, sentence: str) -> None:
    """An array that is not JSON between its items ends the run."""
    status, _, told = run(module, "jsonl", "-c", "epc", "--from", "hex", given=given)
    assert (status, sentence in told) == (2, True), told


def test_a_large_array(module: Environment) -> None:
    """An array of many blocks gives what its objects give as lines, in one process and in three; an item may be longer than a block."""
    dice = random.Random(9)
    items = [{"epc": f"{0x3074257BF7194E4000000000 + number:024X}", "x": [{"y": dice.choice('"\\[]{},é')}] * dice.randrange(20)} for number in range(9_000)]
    items[4_000]["x"] = ["long" * 200_000]
    texts = [json.dumps(item, ensure_ascii=False) for item in items]
    lines = run(module, "jsonl", "-c", "epc", "--from", "hex", given="\n".join(texts))[1].split("\n")
    for jobs in (1, 3):
        status, output, told = run(module, "jsonl", "-c", "epc", "--from", "hex", "-j", jobs, given=f"[{', '.join(texts)}]")
        assert (status, told) == (0, "9,000 lines, 9,000 translated, 0 rejected\n")
        assert output == f"[{', '.join(lines)}]"


def test_an_array_is_answered_as_it_comes(module: Environment) -> None:
    """An item that came is answered although the array is open."""
    words = [sys.executable, "-m", "tdl", "jsonl", "-c", "epc", "--from", "hex", "--to", "link"]
    with subprocess.Popen(words, env=module, stdin=subprocess.PIPE, stdout=subprocess.PIPE, stderr=subprocess.DEVNULL, bufsize=0) as talking:
        assert talking.stdin and talking.stdout
        watch = threading.Timer(PATIENCE, talking.kill)
        watch.daemon = True
        watch.start()
        for begin in ("[\n", ",\n"):
            talking.stdin.write(f'{begin}{{"epc":"{BITS}"}}'.encode())
            wanted = f'{begin}{{"epc":"{BITS}","epc_link":"{LINK}"}}'.encode()
            found = b""
            while len(found) < len(wanted) and (more := talking.stdout.read(len(wanted) - len(found))):
                found += more
            assert found == wanted
        talking.stdin.write(b"]")
        talking.stdin.close()
        assert (talking.stdout.read(), talking.wait()) == (b"]", 0)
        watch.cancel()


@pytest.mark.parametrize("command, words, given", [
    ("csv", ["-c", "x"], "a\u009b[31m,b\x7f\n1,2\n"),
    ("csv", ["-c", "\x1b[31m"], "a,b\n1,2\n"),
    ("jsonl", ["-c", "x", "/not/\x1b[31m"], ""),
])
def test_no_control_character_reaches_a_terminal(module: Environment, command: str, words: list[str], given: str) -> None:
    """What is told of a file's own texts has their control characters as codes."""
    status, _, told = run(module, command, "--from", "any", *words, given=given)
    assert status in (2, 4) and told.endswith("\n") and told[:-1].isprintable(), told
