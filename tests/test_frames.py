"""`tdl.Column` over pandas: what it takes, what it gives, and what other programs see of it."""
import json
import subprocess
import sys

import pytest

Environment = dict[str, str]
PANDAS = "/usr/lib/python3/dist-packages/pandas/__init__.py"
ITEM, GTIN = "https://id.gs1.org/01/80614141123458/21/6789", "https://id.gs1.org/01/04006381333931"
SHOWN = """
import json, pickle, sys
import pandas, tdl
arguments, options, cells = json.loads(sys.argv[1])
column = pickle.loads(pickle.dumps(tdl.Column(*arguments, **options)))
frame = column(pandas.Series(cells))
values = frame.where(frame.notna(), None).values.tolist()
print(json.dumps([list(frame.columns), values, list(column.META.columns)]))
"""


def shown(module: Environment, *asked: object) -> object:
    """Returns the names of a frame's columns, its values, and the names of META."""
    words = ["/usr/bin/python3", "-c", SHOWN, json.dumps(asked)]
    return json.loads(subprocess.run(words, env=module, stdout=subprocess.PIPE, check=True).stdout)


@pytest.mark.needs(PANDAS)
@pytest.mark.parametrize("arguments, options, cells, wanted", [
    (("hex",), {}, [" 3074257BF7194E4000001A85", "zz", None], [["answer", "reason"], [[ITEM, None], [None, "digit 0"], [None, None]]]),
    (("raw",), {}, ["0104006381333931", "0104006381333931|"], [["answer", "reason"], [[GTIN, None], [None, "fnc1?"]]]),
    (("raw",), {"fnc1": "|"}, ["010400638133393110A|"], [["answer", "reason"], [[f"{GTIN}/10/A", None]]]),
    (("any",), {}, ["4006381333931", "4012345678901", None, 5, "a\nb"],
     [["answer", "reason", "form"], [[GTIN, None, "gtin"], [None, "ambiguous gtin raw", None], [None] * 3, [None, "type int", None], [None, "line-feed", None]]]),
    (("any", "gtin-13"), {"repair": True}, ["4006381333931.0", "x"],
     [["answer", "reason", "form", "repaired"], [["4006381333931", None, "gtin", "decimal"], [None, "form", None, None]]]),
    (("gtin",), {"repair": True}, [4006381333931.0, 1.2e17, None],
     [["answer", "reason", "repaired"], [[GTIN, None, "decimal"], [None, "rounded", None], [None] * 3]]),
    (("link", "class"), {"gcp": 7}, [f"{GTIN}/10/A"], [["answer", "reason"], [["urn:epc:class:lgtin:4006381.033393.A", None]]]),
])
def test_columns(module: Environment, arguments: object, options: object, cells: object, wanted: list[object]) -> None:
    """A column that was pickled gives answers, reasons, forms and repairs, and META has their names."""
    assert shown(module, arguments, options, cells) == [*wanted, wanted[0]]


@pytest.mark.needs(PANDAS)
def test_annotations_are_types(module: Environment) -> None:
    """`pandas_udf` finds the types of pandas by each way that it looks for them."""
    script = (
        "import inspect, typing, pandas, tdl; column = tdl.Column('hex'); wanted = {'series': pandas.Series, 'return': pandas.DataFrame};"
        "signed = inspect.signature(column);"
        "print(inspect.getfullargspec(column).annotations == typing.get_type_hints(column) == wanted,"
        "signed.parameters['series'].annotation is pandas.Series, signed.return_annotation is pandas.DataFrame)"
    )
    done = subprocess.run(["/usr/bin/python3", "-c", script], env=module, capture_output=True, text=True, check=False)
    assert done.stdout == "True True True\n", done.stderr


def test_names_of_the_module(module: Environment) -> None:
    """`dir` lists all names before one is used, and imports none of them."""
    script = "import sys, tdl; print(set(tdl.__all__) <= set(dir(tdl)), 'tdl.translator' in sys.modules)"
    done = subprocess.run([sys.executable, "-c", script], env=module, capture_output=True, text=True, check=False)
    assert done.stdout == "True False\n", done.stderr


def test_texts_of_any_form(module: Environment) -> None:
    """`Translator` answers texts of any form with their forms and repairs, and rejects by the form that was found."""
    script = (
        "import tdl\n"
        "with tdl.Translator('any', repair=True) as any_:\n"
        "    found = any_.translate_list(['61414112345', '(00)106141412345678908', '4006381333932', 'x'])\n"
        "    print([(getattr(one, 'form', None), getattr(one, 'repaired', None), getattr(one, 'source', None)) for one in found])\n"
        "    print(list(any_.translate_all(iter(['96385074']), batch=1)), any_.translate(b'96385074'), any_.print_answers(b'x\\r\\n96385074\\n', 2))\n"
    )
    done = subprocess.run([sys.executable, "-c", script], env=module, capture_output=True, text=True, check=False)
    item = "https://id.gs1.org/01/00000096385074"
    forms = [("gtin", "zeros", None), ("bracketed", "", None), (None, None, "gtin"), (None, None, "any")]
    printed = f"no form\nok {item}\n".encode()
    assert done.stdout == f"{forms}\n{[item]} {item} {printed!r}\n", done.stderr


@pytest.mark.parametrize("source, target, text, sentence", [
    ("any", "canon", "x", "No form begins so."),
    ("any", "canon", "4012345678901", "Two forms read this cell, gtin and raw. Name the form of the column."),
    ("any", "canon", "61414112345", "11 digits are neither a GTIN, which has 8, 12, 13 or 14, nor an SSCC, which has 18. Lost zeros can be repaired."),
    ("any", "canon", "4006381333932", "The check digit is wrong."),
    ("gtin", "canon", "12x", "Character 3 is not a digit. A GTIN has 8, 12, 13 or 14 digits."),
    ("sscc", "canon", "1", "An SSCC has 18 digits."),
    ("bracketed", "gtin-8", "(01)80614141123458", "The GTIN has more digits than this form."),
    ("bracketed", "gtin-8", "(00)106141412345678908", "The text names no GTIN."),
])
def test_sentences(module: Environment, source: str, target: str, text: str, sentence: str) -> None:
    """Each reason of a cell has a sentence."""
    script = "import sys, tdl\ntry: tdl.Translator(*sys.argv[1:3]).translate(sys.argv[3])\nexcept tdl.Rejected as error: print(error.sentence)"
    done = subprocess.run([sys.executable, "-c", script, source, target, text], env=module, capture_output=True, text=True, check=False)
    assert done.stdout == f"{sentence}\n", done.stderr
