"""Identifiers of EPCIS, translated many at a time: EPCs, classes of lots and of trade items, and Digital Links."""
from __future__ import annotations

import re
from typing import Dict, Iterable, List, Literal, NamedTuple, Optional, Tuple

from ..errors import Rejected
from ..lines import Lines, Text
from ..translator import Classes, Translator

Target = Literal["link", "uri"]
STEM = "https://id.gs1.org"
EPC, CLASS, PATTERN, LINK = "urn:epc:", "urn:epc:class:", "urn:epc:idpat:", "http"
# reasons of a text that is not a Digital Link, and of a link that may be a class
NOT_LINKS = ("path", "http")
UNFIT = ("missing element", "class")
# what makes an instance of a class of these kinds, by the kind and by its key: the end of the canonical link of the serial 0
ENDS = {"sgtin": ("01", "/21/0"), "itip": ("8006", "/21/0"), "grai": ("8003", "0"), "gdti": ("253", "0"), "sgcn": ("255", "0")}
KEYS = {key: (kind, end) for kind, (key, end) in ENDS.items()}
CLASS_OF = re.compile(r"urn:epc:idpat:(?:(sgtin|grai|gdti|sgcn):([0-9]+\.[0-9]*)|(itip):([0-9]+\.[0-9]*\.[0-9]+\.[0-9]+))\.\*")


# the identifier in the form that is asked for, or None with the reason, and its canonical link, if it has one and is asked for
Answer = Tuple[Optional[str], str, Optional[str]]


class How(NamedTuple):
    """What is asked for: the form, whether canonical links are wanted too, and options of the program."""

    target: Target
    has_list: bool = False
    stem: Optional[str] = None
    tables: Optional[str] = None
    prefixes: Optional[str] = None
    gcp: Optional[int] = None


def _asked(run: Lines, texts: List[str]) -> List[Answer]:
    """Returns the answer of a run to each text."""
    # (a text of JSON may have half a surrogate pair, which no encoding has)
    lines: List[Text] = [text if text.isascii() else text.encode("utf-8", "surrogatepass") for text in texts]
    found = run.translate_list(lines)
    return [(None, each.reason, None) if isinstance(each, Rejected) else (each, "", None) for each in found]


def _kind(text: str) -> str:
    """Returns how a candidate begins, which says who translates it."""
    if text[:4].lower() == LINK:
        return LINK
    return CLASS if text.startswith(CLASS) else PATTERN if text.startswith(PATTERN) else EPC


def _pattern(before: Answer, kind: str, instance: str) -> Answer:
    """Returns the pattern of all serials of a class, whose instance has the serial 0; or the answer before without such an instance."""
    begin = f"urn:epc:id:{kind}:"
    if instance.startswith(begin) and instance.endswith(".0"):
        return f"{PATTERN}{kind}:{instance[len(begin) : -1]}*", "", before[2]
    return before


class Identities:
    """Translates identifiers by kept runs of the program."""

    def __init__(self, how: How) -> None:
        self._how, self._is_link = how, how.target == "link"
        tables = how.tables
        self._of_class = Classes("canon", tables=tables)
        self._pure_canon, self._link_canon = Translator("pure", "canon", tables=tables), Translator("link", "canon", tables=tables)
        if self._is_link:
            stem = how.stem
            self._pure, self._link = Translator("pure", "link", tables=tables, stem=stem), Translator("link", "link", tables=tables, stem=stem)
        else:
            given = {"tables": tables, "prefixes": how.prefixes, "gcp": how.gcp}
            self._pure, self._link = Translator("pure", "pure", tables=tables), Translator("link", "pure", **given)  # type: ignore[arg-type]
            self._to_class = Classes("uri", **given)  # type: ignore[arg-type]

    def answers(self, texts: Iterable[str]) -> Dict[str, Answer]:
        """Returns the answer to each text."""
        kinds: Dict[str, List[str]] = {EPC: [], CLASS: [], PATTERN: [], LINK: []}
        answers: Dict[str, Answer] = {}
        for text in dict.fromkeys(texts):
            if "\n" in text:
                answers[text] = None, "line-feed", None
            else:
                kinds[_kind(text)].append(text)
        for kind, one in ((EPC, self._epcs), (CLASS, self._classes), (PATTERN, self._patterns), (LINK, self._links)):
            if kinds[kind]:
                answers.update(zip(kinds[kind], one(kinds[kind])))
        return answers

    def _with_canon(self, run: Lines, texts: List[str], answers: List[Answer]) -> List[Answer]:
        """Returns the answers with their canonical links, if these are wanted. A link begins with the stem that is asked for."""
        if not self._how.has_list:
            return answers
        if self._is_link:
            stem = self._how.stem or STEM
            return [(text, reason, text and STEM + text[len(stem) :]) for text, reason, _ in answers]
        return [(text, reason, canon) for (text, reason, _), (canon, _, _) in zip(answers, _asked(run, texts))]

    def _of_canon(self, texts: List[str], canons: List[Answer]) -> List[Answer]:
        """Returns the answers to classes, of which the canonical links are known. As a URI a class stays as it is."""
        stem = self._how.stem or STEM
        return [
            (None, reason, None) if canon is None else (stem + canon[len(STEM) :] if self._is_link else text, "", canon)
            for text, (canon, reason, _) in zip(texts, canons)
        ]

    def _epcs(self, texts: List[str]) -> List[Answer]:
        return self._with_canon(self._pure_canon, texts, _asked(self._pure, texts))

    def _classes(self, texts: List[str]) -> List[Answer]:
        return self._of_canon(texts, _asked(self._of_class, texts))

    def _patterns(self, texts: List[str]) -> List[Answer]:
        """Returns the answers to patterns of all serials of a class: that to the serial 0 without it."""
        matches = [CLASS_OF.fullmatch(text) for text in texts]
        kinds = [match and (match[1] or match[3]) for match in matches]
        pure = [f"urn:epc:id:{kind}:{match[2] or match[4]}.0" for kind, match in zip(kinds, matches) if match]
        found = iter(_asked(self._pure_canon, pure))
        canons: List[Answer] = []
        for kind in kinds:
            link, reason, _ = next(found) if kind else (None, "", None)
            end = ENDS[kind][1] if kind else ""
            canons.append((link[: -len(end)], "", None) if link and link.endswith(end) else (None, reason or "reading", None))
        return self._of_canon(texts, canons)

    def _links(self, texts: List[str]) -> List[Answer]:
        answers = self._with_canon(self._link_canon, texts, _asked(self._link, texts))
        if self._is_link:
            return answers
        for again, reasons in ((self._lots, ("extra",)), (self._bare, ("missing serial",))):
            places = [place for place, (_, reason, _) in enumerate(answers) if reason and reason.startswith(reasons)]
            if places:
                for place, answer in zip(places, again([texts[place] for place in places], [answers[place] for place in places])):
                    answers[place] = answer
        return answers

    def _lots(self, texts: List[str], answers: List[Answer]) -> List[Answer]:
        """Returns the answers to links with an element that an EPC has no place for: class URIs, if it is a class."""
        return [
            before if reason in UNFIT or reason.startswith("extra") else (text, reason, before[2])
            for before, (text, reason, _) in zip(answers, _asked(self._to_class, texts))
        ]

    def _bare(self, texts: List[str], answers: List[Answer]) -> List[Answer]:
        """Returns the answers to links without a serial: the pattern of all serials."""
        parts = [(link or "").split("/") for link, _, _ in _asked(self._link_canon, texts)]
        kinds = [KEYS.get(part[3]) if len(part) == 5 and "?" not in part[4] else None for part in parts]
        instances = ["/".join(part) + kind[1] for part, kind in zip(parts, kinds) if kind]
        found = iter(_asked(self._link, instances))
        return [_pattern(before, kind[0], next(found)[0] or "") if kind else before for before, kind in zip(answers, kinds)]

    def close(self) -> None:
        """Ends the runs."""
        for run in vars(self).values():
            if isinstance(run, Lines):
                run.close()
