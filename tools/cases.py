"""The cases of checks/cases: what they say, and how what a program does differs from it.

Each file of checks/cases is a list of cases:

  name     what the case shows
  words    the words of the command line
  files    the files of the folder in which the program runs: a text, or a JSON object, which is written without blanks
  lent     files of the repository that stand in this folder, by the names that they have there; a list of files stands for a case
           with each of them
  sparse   more files: pairs of a place and the text there, with bytes of 0 between
  folders  the names of folders in it
  input    the text on standard input
  stdin    the file or folder that is standard input, in place of a text
  output   the text that is wanted on standard output
  pattern  in place of output: the regular expression that the whole of it matches, where a choice is left free
  lines    in place of input and output: pairs of a line and its answer, to each of which a line feed is added
  turns    the same, where each line is sent once the answer to the line before has come
  stdout   the device that is standard output, which then is not compared
  error    the text that is wanted on standard error; in its place one line that begins with `tdl: ` is wanted with a status of SAID, and
           nothing with any other
  status   the status that is wanted
  heavy    true: without proofs it takes minutes, so bin/test leaves it out if nothing is proved
  for      the public calls of the libraries that the case is for; tools/calls.py counts the cases of each
  examples the examples of the crates' pages that the case runs: pairs of a call, as vectors write it, and its answer
  cut      the most bytes of standard input that a read gets; a list of them stands for a case with each
  broken   true: the read after the input fails. In a case with lines a list of numbers, which stands for a case with each: the read after
           so many bytes of the input fails, and the lines that end before it are answered
  room     how many bytes standard output takes before a write fails; a list of them stands for a case with each. Where the output has more,
           its front is wanted, and status 5
  unread   true: nothing of standard input is read

A text has one character for each byte (latin-1). It is a string; or [TEXT, N], which is N times the text; or [TEXT, N, FIRST],
which is N times the text with a number in the place of `{n}`, first FIRST and then one more each time; or a list of texts, which
are joined. Only name, words and status are always there; what is left out is empty.
"""
import json
import os
import re
import shutil
from typing import Any, Iterator

from tools.repository import TOP

Case = dict[str, Any]

CASES = TOP / "checks" / "cases"
NEEDED = {"name", "words", "status"}
KNOWN = NEEDED | {"files", "lent", "sparse", "folders", "input", "stdin", "output", "pattern"}
KNOWN |= {"lines", "turns", "stdout", "error", "heavy", "for", "examples", "cut", "broken", "room", "unread"}
SAID = {2, 4, 5, 6, 8, 9}
APART = [("input", "stdin"), ("output", "stdout"), ("output", "pattern"), ("pattern", "stdout"), ("lines", "turns")]
APART += [(pairs, f) for pairs in ("lines", "turns") for f in ("input", "stdin", "output", "pattern", "stdout")]
APART += [(stream, f) for stream in ("cut", "broken", "unread") for f in ("stdin", "turns")]
APART += [("cut", "broken"), ("cut", "unread"), ("broken", "unread"), ("room", "stdout"), ("room", "turns"), ("room", "pattern")]
# the statuses of a read and of a write that failed
READ_FAULT, WRITE_FAULT = 4, 5
SHOWN = 200


def subjects() -> Iterator[tuple[str, list[Case]]]:
    """Yields the files of cases, each with its name and its cases."""
    for path in sorted(CASES.glob("*.json")):
        yield path.stem, [single for case in json.loads(path.read_text("ascii")) for single in singles(case)]


def singles(case: Case) -> Iterator[Case]:
    """Yields a case once for each file of a list of files that are lent, for each place at which its input is cut or breaks, or for each room
    of its output, which its name then has too."""
    for name, paths in case.get("lent", {}).items():
        if isinstance(paths, list):
            yield from ({**case, "name": f"{case['name']}, by {path}", "lent": {**case["lent"], name: path}} for path in paths)
            return
    for member, single in (("broken", broken_at), ("room", in_room), ("cut", cut_at)):
        if isinstance(case.get(member), list):
            yield from (single(case, number) for number in case[member])
            return
    yield in_room(case, case["room"]) if "room" in case else case


def broken_at(case: Case, place: int) -> Case:
    """The case whose input breaks at a place: the lines that end before it are answered."""
    given = joined(case, "input", 0)[:place]
    answers = [text for _, text in case["lines"][:given.count(b"\n")]]
    kept = {member: value for member, value in case.items() if member != "lines"}
    name = f"{case['name']}, broken after {place} bytes"
    return {**kept, "name": name, "input": given.decode("latin-1"), "output": [[text, "\n"] for text in answers], "broken": True, "status": READ_FAULT}


def cut_at(case: Case, most: int) -> Case:
    """The case whose reads get so many bytes at most."""
    return {**case, "name": f"{case['name']}, {most} bytes a read", "cut": most}


def in_room(case: Case, room: int) -> Case:
    """The case whose output takes so many bytes."""
    output = joined(case, "output", 1)
    kept = {member: value for member, value in case.items() if member != "lines"}
    kept.update({"input": joined(case, "input", 0).decode("latin-1")} if "lines" in case else {})
    status = WRITE_FAULT if room < len(output) else case["status"]
    return {**kept, "name": f"{case['name']}, room for {room} bytes", "room": room, "output": output[:room].decode("latin-1"), "status": status}


def bytes_of(text: Any) -> bytes:
    """The bytes of a text."""
    if isinstance(text, str):
        return text.encode("latin-1")
    if len(text) == 2 and isinstance(text[1], int):
        return bytes_of(text[0]) * text[1]
    if len(text) == 3 and isinstance(text[1], int):
        piece, times, first = text
        return b"".join(bytes_of(piece.replace("{n}", str(first + n))) for n in range(times))
    return b"".join(map(bytes_of, text))


def content_of(file: Any) -> bytes:
    """The bytes of a file."""
    if isinstance(file, dict):
        return json.dumps(file, separators=(",", ":")).encode("ascii")
    return bytes_of(file)


def joined(case: Case, field: str, column: int) -> bytes:
    """The input or the output of a case."""
    for pairs in ("lines", "turns"):
        if pairs in case:
            return b"".join(bytes_of(pair[column]) + b"\n" for pair in case[pairs])
    return bytes_of(case.get(field, ""))


def form_fault(case: Case) -> str:
    """What is wrong with the form of a case, or nothing."""
    faults = [f"unknown {field}" for field in sorted(case.keys() - KNOWN)]
    faults += [f"lacks {field}" for field in sorted(NEEDED - case.keys())]
    faults += [f"{a} beside {b}" for a, b in APART if a in case and b in case]
    return ", ".join(faults)


def is_said(case: Case, error: bytes) -> bool:
    """Whether standard error has what a case wants there."""
    if "error" in case:
        return error == bytes_of(case["error"])
    return bool(re.fullmatch(rb"tdl: [^\n]+\n", error)) if case["status"] in SAID else not error


def lay_out(case: Case, folder: bytes) -> None:
    """Makes the files and folders of a case."""
    for name in case.get("folders", []):
        os.mkdir(os.path.join(folder, bytes_of(name)))
    for name, file in case.get("files", {}).items():
        with open(os.path.join(folder, bytes_of(name)), "wb") as written:
            written.write(content_of(file))
    for name, path in case.get("lent", {}).items():
        shutil.copyfile(TOP / path, os.path.join(os.fsdecode(folder), name))
    for name, texts in case.get("sparse", {}).items():
        with open(os.path.join(folder, bytes_of(name)), "wb") as written:
            for place, text in texts:
                written.seek(place)
                written.write(bytes_of(text))


def shown(text: bytes) -> str:
    """The front of a text, as it is printed."""
    return repr(text[:SHOWN])[1:] + (f" and {len(text) - SHOWN} bytes more" if len(text) > SHOWN else "")


def difference(wanted: bytes, got: bytes) -> str:
    """The first line in which two texts differ, with what each has there."""
    both = [text.splitlines(keepends=True) for text in (wanted, got)]
    same = next((i for i, pair in enumerate(zip(*both)) if pair[0] != pair[1]), min(map(len, both)))
    differ = [shown(lines[same]) if same < len(lines) else "nothing more" for lines in both]
    return f"  line {same + 1} wanted {differ[0]}\n  line {same + 1} got    {differ[1]}"
