"""calls: prints how many cases and vectors are for each public call of the libraries: `python3 tools calls` at the top of the repository.

The member `for` of a case of checks/cases names its calls, and a vector of crates/vectors/data begins with one.
"""
from collections import Counter

from tools import vectors
from tools.cases import Case, subjects
from tools.common import parser


def calls_of(case: Case) -> list[str]:
    """Returns the calls that a case is for."""
    named = case.get("for", [])
    return [named] if isinstance(named, str) else list(named)


def main() -> int:
    """Prints a line of each call, in the order of names, and returns the status."""
    parser(__doc__).parse_args()
    cases = Counter(call for _, some in subjects() for case in some for call in calls_of(case))
    kept = Counter(case.split()[0] for case, _ in vectors.cases())
    for call in sorted({*cases, *kept}):
        print(f"{call}: {cases[call]} cases, {kept[call]} vectors")
    return 0
