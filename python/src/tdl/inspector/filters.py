"""The meanings of filter values by EPC scheme (EPC Tag Data Standard, section 10)."""
from __future__ import annotations

from typing import Dict, List

# 0 is `all others` in each scheme, and every other value is reserved
FILTERS: Dict[str, Dict[int, str]] = {
    "sgtin": {1: "point of sale item", 2: "full case", 4: "inner pack", 6: "unit load", 7: "unit inside a trade item"},
    "sscc": {2: "full case", 6: "unit load"},
    "giai": {1: "rail vehicle"},
    "gdti": {1: "travel document"},
}


def filters_of(name: str) -> List[str]:
    """Returns the meanings of the filter values 0 to 7 of an EPC scheme."""
    known = {0: "all others", **FILTERS.get(name, {})}
    return [known.get(value, "reserved") for value in range(8)]
