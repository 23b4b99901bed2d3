"""What the page shows of a text: the program's answers, with what is known of their places."""
from __future__ import annotations

from collections import OrderedDict, defaultdict
from concurrent.futures import ThreadPoolExecutor
from threading import Lock
from typing import Any, DefaultDict, Dict, List, Mapping, Optional, Tuple, cast

from ..errors import Rejected
from ..lines import Answer
from ..options import Form, Target
from ..translator import Translator
from .elements import Element, elements
from .encode import Wrong, compose, key_types
from .fields import Reading, read_fields
from .filters import filters_of
from .marks import bit_rows, key_of, marks_of, pieces, value_marks
from .questions import FORMS, Question, bytes_of, forms_in_order, possible_forms
from .reasons import COUNTED, explain, explain_target, listed, unknown_code
from .rows import Rows
from .sets import Sets, sets_by_code
from .symbols import symbols_of
from .values import meaning

KEPT = 24
MOST_LINES = 100_000
MOST_SHOWN = 8_192
Shown = Dict[str, Any]


class Inspector:
    """Answers the page's questions. `tables` is a table document of the user's own, which the page offers first, before the sets of the
    project; `prefixes` is a list of company prefix lengths. The program is found as `Translator` finds it.

    Runs of the program are kept between questions, the last 24 that were needed. Threads may share an inspector.
    """

    def __init__(self, *, tables: Optional[str] = None, prefixes: Optional[str] = None, program: Optional[str] = None) -> None:
        self._files: Dict[str, Any] = {"prefixes": prefixes, "program": program}
        self._lock = Lock()
        self._kept: "OrderedDict[Tuple[Any, ...], Translator]" = OrderedDict()
        self.sets = Sets(tables)

    def close(self) -> None:
        """Ends the runs of the program."""
        with self._lock:
            while self._kept:
                self._kept.popitem()[1].close()

    def choices(self) -> Shown:
        """Returns what the page's controls offer: tables, key types, and the words for reasons."""
        keys = [it.told() for it in key_types(self.sets.rows(""))]
        return {"sets": self.sets.offered(), "keys": keys, "reasons": COUNTED, "most_lines": MOST_LINES}

    def compose(self, asked: Mapping[str, Any]) -> Shown:
        """Returns the label of the fields of a form, or the name of an invalid field with a sentence."""
        try:
            return compose(asked, self.sets.rows(""))
        except Wrong as wrong:
            return {"wrong": wrong.field, "sentence": str(wrong)}

    def inspect(self, question: Question) -> Shown:
        """Returns what the page shows: one text, or a table of many lines."""
        lines = question.text.split("\n")
        if len(lines) > MOST_LINES:
            raise ValueError(f"The page takes {MOST_LINES:,} lines. For more, use python3 -m tdl csv.")
        answers = Answers(self, question)
        return answers.many(lines) if sum(map(bool, lines)) > 1 else answers.one("".join(lines))

    def translator(self, source: str, target: str, tables: str, options: Mapping[str, Any]) -> Translator:
        """Returns a translator with the files of this inspector."""
        return Translator(cast(Form, source), cast(Target, target), tables=tables, **self._files, **options)

    def answer(self, source: str, target: str, text: bytes, tables: str, options: Mapping[str, Any]) -> Tuple[Optional[str], str]:
        """Returns the translation and nothing, or None and the reason why there is none."""
        name = (source, target, tables, *sorted(options.items()))
        with self._lock:
            translator = self._kept.pop(name, None) or self.translator(source, target, tables, options)
            self._kept[name] = translator
            if len(self._kept) > KEPT:
                self._kept.popitem(last=False)[1].close()
            try:
                return translator.translate(text), ""
            except Rejected as rejected:
                return None, rejected.reason


class Answers:
    """The answers to one question, by the tables that it names."""

    def __init__(self, inspector: Inspector, question: Question) -> None:
        self._inspector = inspector
        self._question = question
        self._tables = inspector.sets.path(question.tables)
        self._rows: Rows = inspector.sets.rows(question.tables)

    def _answer(self, source: str, target: str, text: bytes, options: Mapping[str, Any]) -> Tuple[Optional[str], str]:
        return self._inspector.answer(source, target, text, self._tables, options)

    def one(self, text: str) -> Shown:
        """Returns what the page shows of one text: its readings, why other forms do not read it, and both in a sentence."""
        readings, errors = [], []
        for form in forms_in_order(text, self._rows.headers()):
            told = bytes_of(form, text)
            link, reason = self._answer(form, "canon", told, {})
            if link is None:
                errors.append(self._error(form, told, reason))
            else:
                readings.append(self._reading(form, told, link))
        sentence = " ".join(map(summary, readings)) if readings else f"No form reads this text. As {errors[0]['name']}: {errors[0]['sentence']}"
        return {"kind": "text", "readings": readings, "errors": errors, "encodings": self._rows.encodings(), "sentence": sentence}

    def _error(self, form: str, text: bytes, reason: str) -> Shown:
        """Returns why a form does not read a text, with the text as far as a screen can hold it."""
        sentence, marks = explain(form, text, reason, self._rows)
        shown: Shown = {"form": form, "name": FORMS[form], "reason": reason, "sentence": sentence, "pieces": pieces(text[:MOST_SHOWN], marks)}
        kind, *words = reason.split(" ")
        code = unknown_code(form, text, int(words[0]), self._rows) if kind == "unknown" else ""
        return {**shown, "sets": sets_by_code().get(code, [])}

    def _reading(self, form: str, text: bytes, link: str) -> Shown:
        """Returns what a text says that a form reads."""
        options = self._question.options
        label, _ = self._answer(form, "bracketed", text, {})
        pure, _ = self._answer(form, "pure", text, {**_for_target("pure", options), "keys_only": True})
        epc = read_fields("pure", pure, self._rows) if pure else None
        gcp = epc.option.gcp if epc else None
        shown_label = (label or "").encode("ascii")
        found = elements("bracketed", shown_label, self._rows)
        key = key_of(found, self._rows)
        written = [self._written(form, target, text, key, gcp) for target in FORMS]
        texts = {it["form"]: it.get("text") for it in written}
        bits = self._bits(form, text, texts["hex"])
        kind = self._rows.kinds.get(key or "")
        return {
            "form": form,
            "name": FORMS[form],
            "canon": link,
            "pieces": pieces(text, marks_of(form, text, self._rows, gcp), key),
            "elements": [self._element(it, shown_label, key, gcp) for it in found],
            "forms": written,
            "filters": filters_of(kind.name) if kind else [],
            "symbols": symbols_of(texts["raw"], texts["bracketed"], texts["link"]),
            "encoding": bits.option.encoding if bits else "",
            "bits": bit_rows(bits, self._rows) if bits else [],
        }

    def _element(self, element: Element, label: bytes, key: Optional[str], gcp: Optional[int]) -> Shown:
        value = element.plain(label)
        alone = Element(element.code, 0, tuple(range(len(value) + 1)))
        marks = value_marks(alone, self._rows, key, gcp)
        title = self._rows.title(element.code)
        text, remark = meaning(element.code, value.decode("latin-1"), title)
        told = {"code": element.code, "title": title, "role": self._rows.ais[element.code].role, "meaning": text, "remark": remark}
        return {**told, "pieces": pieces(value, marks, key)}

    def _written(self, form: str, target: str, text: bytes, key: Optional[str], gcp: Optional[int]) -> Shown:
        """Returns a form that can be written, or why it cannot."""
        shown: Shown = {"form": target, "name": FORMS[target]}
        answer, reason = self._answer(form, target, text, _for_target(target, self._question.options))
        if answer is None:
            sentence, need = explain_target(reason, self._rows)
            return {**shown, "reason": reason, "sentence": sentence, "need": need}
        told = answer.encode("ascii")
        return {**shown, "text": answer, "pieces": pieces(told, marks_of(target, told, self._rows, gcp), key)}

    def _bits(self, form: str, text: bytes, written: Optional[str]) -> Optional[Reading]:
        """Returns the fields of the tag bits that can be written, else of those that were read."""
        digits = written or (text.decode("ascii") if form == "hex" else None)
        return read_fields("hex", digits, self._rows) if digits else None

    def many(self, lines: List[str]) -> Shown:
        """Returns a row for each line that is not empty: its number, the form that reads it, and the answer, or the reason with a sentence."""
        numbered = [(number, line) for number, line in enumerate(lines, 1) if line]
        texts = [line for _, line in numbered]
        found = self._links(texts)
        rows = [[number, form, *self._cells(answer, form)] for (number, _), (form, answer) in zip(numbered, found)]
        if self._question.target != "canon":
            self._retarget(rows, texts)
        rejected = sum(bool(row[3]) for row in rows)
        sentence = f"{len(rows):,} lines: {len(rows) - rejected:,} answered, {rejected:,} rejected."
        return {"kind": "lines", "target": self._question.target, "rows": rows, "encodings": self._rows.encodings(), "sentence": sentence}

    def _cells(self, answer: Answer, form: str) -> List[str]:
        """Returns the answer, the reason and its sentence; what does not apply is empty."""
        if isinstance(answer, str):
            return [answer, "", ""]
        return ["", answer.reason, explain(form, answer.text, answer.reason, self._rows)[0]]

    def _translated(self, form: str, target: str, texts: List[str], options: Mapping[str, Any]) -> List[Answer]:
        with self._inspector.translator(form, target, self._tables, options) as translator:
            return list(translator.translate_all(bytes_of(form, text) for text in texts))

    def _links(self, texts: List[str]) -> List[Tuple[str, Answer]]:
        """Returns the first form that reads each text with its canonical link, or the form that it looks like with its reason."""
        headers = self._rows.headers()
        orders = [possible_forms(text, headers) for text in texts]
        found: Dict[int, Tuple[str, Answer]] = {}
        waiting = list(range(len(texts)))
        for turn in range(len(FORMS) - 1):
            places: DefaultDict[str, List[int]] = defaultdict(list)
            for place in waiting:
                places[orders[place][turn]].append(place)

            def answers(form: str) -> List[Answer]:
                return self._translated(form, "canon", [texts[place] for place in places[form]], {})

            with ThreadPoolExecutor(len(places) or 1) as pool:
                for form, of_form in zip(places, pool.map(answers, places)):
                    for place, answer in zip(places[form], of_form):
                        if turn == 0 or isinstance(answer, str):
                            found[place] = (form, answer)
            waiting = [place for place in waiting if not isinstance(found[place][1], str) and turn + 1 < len(orders[place])]
        return [found[place] for place in range(len(texts))]

    def _retarget(self, rows: List[List[Any]], texts: List[str]) -> None:
        """Puts the translations to another form in the place of the links."""
        target = self._question.target
        options = _for_target(target, self._question.options)
        for form in {row[1] for row in rows}:
            places = [place for place, row in enumerate(rows) if row[1] == form and not row[3]]
            for place, answer in zip(places, self._translated(form, target, [texts[place] for place in places], options)):
                if isinstance(answer, str):
                    rows[place][2] = answer
                else:
                    rows[place][2:] = ["", answer.reason, explain_target(answer.reason, self._rows)[0]]


def summary(reading: Shown) -> str:
    """Returns what a reading says in a sentence, with the remarks on its values."""
    names = [f"({it['code']}) {it['title']}".strip() for it in reading["elements"]]
    count = sum("text" in it for it in reading["forms"])
    remarks = [f"({it['code']}): {it['remark']}" for it in reading["elements"] if it["remark"]]
    return " ".join([f"Read as {reading['name']}: {listed(names)}, written in {count} of {len(FORMS)} forms.", *remarks])


def _for_target(target: str, options: Dict[str, Any]) -> Dict[str, Any]:
    """Returns the options that a form heeds: only links have a stem, and only tags have a filter value and an encoding."""
    heeded = {"canon": (), "link": ("stem", "keys_only"), "pure": ("gcp", "keys_only")}
    heeded.update({form: ("keys_only",) for form in ("raw", "bracketed")})
    heeded.update({form: ("gcp", "filter", "encoding", "keys_only") for form in ("hex", "tag")})
    return {name: value for name, value in options.items() if name in heeded[target]}
