"""A column of a pandas frame, translated."""
from __future__ import annotations

import threading
from contextlib import suppress
from typing import Any, Dict, List, Optional, Sequence, Tuple, Union

from .cell_engine import CellEngine
from .errors import Rejected
from .options import Form, Target
from .texts import bytes_of
from .translator import Translator, is_of_cells, spelling_of

_RUNS: "Dict[Tuple[Any, ...], Union[Translator, CellEngine]]" = {}
_LOCK = threading.Lock()
# what a column of numbers has, which a repair reads as text
NUMBERS = (int, float)


class _Meta:
    """The frame without rows that `Column` gives for no texts, which Dask asks for: that of a column, or that of one without more options."""

    def __get__(self, instance: Optional[Column], owner: object) -> Any:
        names = instance.names if instance else ["answer", "reason"]
        return _frame({name: [] for name in names}, None)


def _frame(columns: Dict[str, List[Any]], index: Any) -> Any:
    import pandas  # type: ignore[import]

    return pandas.DataFrame(columns, index=index, dtype=object)


class Column:
    """Translates a column: called with a Series of pandas, it gives a frame of the same index with the columns `answer` and `reason`.

        frame[["link", "reason"]] = tdl.Column("hex", "link")(frame["epc"])
        reads["epc"].map_partitions(tdl.Column("hex", "link"), meta=tdl.Column.META)

    With the source `any` the frame has the column `form` too, and with `repair` the column `repaired`; then META is that of the object.
    A missing value has none of them. What is not a text has the reason `type NAME`, and a text with a line feed `line-feed`. Blanks around a
    text do not count. The arguments are those of `Translator`. It can be pickled: each process keeps its own run of the program for equal
    arguments. `pyspark.sql.functions.pandas_udf` takes it, since its call has the types of pandas as annotations.
    """

    META = _Meta()

    def __init__(self, source: Form, target: Target = "canon", *, repair: bool = False, fnc1: Union[str, Sequence[str]] = (), **options: Any) -> None:
        spelled = fnc1 if isinstance(fnc1, str) else tuple(fnc1)
        Translator(source, target, repair=repair, fnc1=fnc1, **options).close()
        self._how: Tuple[Any, ...] = (source, target, bool(repair), spelled, *sorted(options.items()))
        self.names = ["answer", "reason", *["form"] * (source == "any"), *["repaired"] * bool(repair)]
        self._is_repaired = bool(repair)
        self._annotate()

    def _annotate(self) -> None:
        """Gives the call the types of pandas as annotations, where there is pandas."""
        with suppress(ImportError):
            import pandas

            annotations = {"series": pandas.Series, "return": pandas.DataFrame}
            self.__annotations__ = type(self).__call__.__annotations__ = annotations

    def __reduce__(self) -> Tuple[Any, ...]:
        source, target, repair, fnc1, *options = self._how
        return _column, (source, target, repair, fnc1, dict(options))

    def _run(self) -> Union[Translator, CellEngine]:
        """Returns what answers: a translator if the program alone does, and no cell has to be looked at."""
        with _LOCK:
            if self._how not in _RUNS:
                source, target, repair, fnc1, *options = self._how
                chosen = dict(options)
                if source == "raw" or is_of_cells(source, target, repair, fnc1, chosen.get("encoding")):
                    how, others = spelling_of(source, repair, fnc1, chosen)
                    _RUNS[self._how] = CellEngine(how, target, others)
                else:
                    _RUNS[self._how] = Translator(source, target, **chosen)
            return _RUNS[self._how]

    def __call__(self, series: Any) -> Any:
        values = series.tolist()
        reasons: List[Any] = [None] * len(values)
        places: Sequence[int] = range(len(values))
        if not set(map(type, values)) <= {str} or "\n" in "".join(values):
            if self._is_repaired:
                values = [str(value) if type(value) in NUMBERS and value == value else value for value in values]
            places = _texts_among(values, series.isna().tolist(), reasons)
        # (most columns: no text has to be looked at)
        texts = values if len(places) == len(values) else [values[place] for place in places]
        run = self._run()
        found = self._translated(run, texts) if isinstance(run, Translator) else _answered(run, texts, self._is_repaired)
        columns = [found[0], found[1], *found[2:]]
        if len(places) < len(values):
            columns = [_spread(column, places, len(values)) for column in columns]
            columns[1] = [told or reason for told, reason in zip(columns[1], reasons)]
        return _frame(dict(zip(self.names, columns)), series.index)

    @staticmethod
    def _translated(run: Translator, texts: List[Any]) -> List[List[Any]]:
        """Returns the answers to texts and their reasons."""
        answers: List[Any] = list(run.translate_list(_trimmed(texts)))
        reasons: List[Any] = [None] * len(answers)
        if Rejected in set(map(type, answers)):
            for place, answer in enumerate(answers):
                if isinstance(answer, Rejected):
                    answers[place], reasons[place] = None, answer.reason
        return [answers, reasons]


def _column(source: Form, target: Target, repair: bool, fnc1: Union[str, Sequence[str]], options: Dict[str, Any]) -> Column:
    """Makes a column that was pickled."""
    return Column(source, target, repair=repair, fnc1=fnc1, **options)


def _trimmed(texts: List[Any]) -> List[Any]:
    """Returns texts without the blanks around them."""
    if set(map(type, texts)) <= {str}:
        whole = "".join(texts)
        return [text.strip(" \t") for text in texts] if " " in whole or "\t" in whole else texts
    return [text.strip(b" \t") if isinstance(text, bytes) else text.strip(" \t") for text in texts]


def _answered(run: CellEngine, texts: List[Any], is_repaired: bool) -> List[List[Any]]:
    """Returns the answers to texts, their reasons, and the forms and repairs of those that have one."""
    cells = run.answered([bytes_of(text) for text in texts])
    reasons = [cells.reasons.get(place) for place in range(len(texts))]
    answers = [None if reason else answer for answer, reason in zip(cells.columns[0], reasons)]
    columns: List[List[Any]] = [answers, reasons, *([cells.forms] if run.is_any else [])]
    columns += [[cells.repaired.get(place) for place in range(len(texts))]] * is_repaired
    return [[cell.decode("latin-1") if cell else None for cell in column] for column in columns]


def _spread(column: List[Any], places: Sequence[int], count: int) -> List[Any]:
    """Returns `count` cells that have these at their places, and are empty elsewhere."""
    found: List[Any] = [None] * count
    for place, cell in zip(places, column):
        found[place] = cell
    return found


def _texts_among(values: List[Any], is_missing: List[bool], reasons: List[Any]) -> List[int]:
    """Returns the places of the texts, and puts a reason at each other place that is not missing."""
    places = []
    for place, (value, is_none) in enumerate(zip(values, is_missing)):
        if is_none:
            continue
        if not isinstance(value, (str, bytes)):
            reasons[place] = f"type {type(value).__name__}"
        elif b"\n" in value if isinstance(value, bytes) else "\n" in value:
            reasons[place] = "line-feed"
        else:
            places.append(place)
    return places
