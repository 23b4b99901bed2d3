"""GS1 identities, translated by the library libtdl or by the program `tdl`.

    >>> import tdl
    >>> tdl.canon("pure", "urn:epc:id:sgtin:0614141.812345.6789")
    'https://id.gs1.org/01/80614141123458/21/6789'

A text has one of the forms `hex`, `tag`, `pure`, `raw`, `bracketed` and `link`, and is translated to one of these or to `canon`, the
canonical GS1 Digital Link. A text without a translation raises `Rejected`, which says why and where.
"""
from typing import TYPE_CHECKING, List

if TYPE_CHECKING:
    from .errors import FilesRejected, ProgramError, Rejected, Wrong
    from .events.calls import Events, epcis, epcis_lines
    from .frames import Column
    from .options import Form, Target
    from .tables import BUILT_IN, GS1, Counts, check
    from .translator import Classes, Dumps, Translator, canon

__version__ = "1.0.0"

__all__ = [
    "BUILT_IN",
    "Classes",
    "Column",
    "Counts",
    "Dumps",
    "Events",
    "FilesRejected",
    "Form",
    "GS1",
    "ProgramError",
    "Rejected",
    "Target",
    "Translator",
    "Wrong",
    "canon",
    "check",
    "epcis",
    "epcis_lines",
]

_MODULES = {
    "errors": ("FilesRejected", "ProgramError", "Rejected", "Wrong"),
    "events.calls": ("Events", "epcis", "epcis_lines"),
    "frames": ("Column",),
    "options": ("Form", "Target"),
    "tables": ("BUILT_IN", "GS1", "Counts", "check"),
    "translator": ("Classes", "Dumps", "Translator", "canon"),
}


def __dir__() -> List[str]:
    """Returns the names of the module, those that are not imported yet too."""
    return sorted({*globals(), *__all__})


def __getattr__(name: str) -> object:
    """Imports what is first used, so that a command can answer a signal as soon as it is started."""
    from importlib import import_module

    for module, names in _MODULES.items():
        if name in names:
            found = globals()[name] = getattr(import_module(f".{module}", __name__), name)
            return found
    raise AttributeError(f"module {__name__!r} has no attribute {name!r}")
