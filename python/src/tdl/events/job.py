"""What is asked for of EPCIS events, and parts of them with their translations."""
from __future__ import annotations

from dataclasses import dataclass
from typing import Dict, List, NamedTuple, Optional, Tuple

from .identities import NOT_LINKS, Answer, How, Identities
from .parts import DIVIDED, FOREIGN, STRING, Located, Part, spelled
from .schemes import is_of_other_scheme

# how an event's hash begins (CBV 2.0, section 8.9)
HASH = "ni:///sha-256;"


@dataclass(frozen=True)
class Job:
    """What is asked for: the paths of the document and of what is written, each None for nothing and `-` for a standard stream; whether the
    document is an event a line; the number of processes; and whether the written files are on the disk before the end."""

    how: How
    document: str = "-"
    output: Optional[str] = "-"
    listed: Optional[str] = None
    rejected: Optional[str] = None
    is_of_lines: bool = False
    processes: int = 1
    is_synced: bool = True


class Counts(NamedTuple):
    """The numbers of events, of identifiers, of those that were translated, had the form before, are of schemes that are not translated, are
    neither EPCs nor Digital Links, and were rejected; and that of event hashes."""

    events: int = 0
    identifiers: int = 0
    translated: int = 0
    same: int = 0
    untranslated: int = 0
    foreign: int = 0
    rejected: int = 0
    hashes: int = 0

    def plus(self, other: Counts) -> Counts:
        """Returns the sums."""
        return Counts(*(one + more for one, more in zip(self, other)))


class Rejection(NamedTuple):
    """A rejected identifier: the number of its event from 1, its field, its text and the reason."""

    event: int
    field: str
    text: str
    reason: str


class Written(NamedTuple):
    """What is written of a part: its bytes, what is listed, and the rejected identifiers, whose events count from the part's begin; and the
    number of events, or of lines, by which the next part's go on."""

    data: bytes
    listed: List[str]
    rejected: List[Rejection]
    counts: Counts
    numbers: int


class Worker:
    """Translates parts, by kept runs of the program."""

    def __init__(self, how: How) -> None:
        self._identities, self._has_list = Identities(how), how.has_list

    def write(self, piece: Part) -> Written:
        """Returns what is written of a part."""
        (written,) = self.written_each([piece.located()])
        return written

    def written_each(self, parts: List[Located]) -> List[Written]:
        """Returns what is written of parts whose identifiers are found."""
        # (an identifier that markup divides is listed as any other)
        asked = (text for part in parts for text, _, _, style in part.found if style < FOREIGN or (self._has_list and style is DIVIDED))
        answers = self._identities.answers(asked)
        return [self._written(part, answers) for part in parts]

    def _written(self, part: Located, answers: Dict[str, Answer]) -> Written:
        listed = [_listed(text, answers) for text, _, _, _ in part.found] if self._has_list else []
        pieces, rejected, counts = _replaced(part, answers)
        # (a line may have bytes that are not UTF-8)
        return Written("".join(pieces).encode(part.codec, "surrogateescape"), listed, rejected, counts, part.events)

    def close(self) -> None:
        """Ends its runs of the program."""
        self._identities.close()


def _replaced(located: Located, answers: Dict[str, Answer]) -> Tuple[List[str], List[Rejection], Counts]:
    """Returns the pieces of a part with answers in place of identifiers, the rejected ones, and the counts."""
    kept, raw, found = located.kept, located.raw, located.found
    pieces, rejected, same, foreign, other, place = [kept[0]], [], 0, 0, 0, 0  # type: List[str], List[Rejection], int, int, int, int
    for text, event, field, style in found:
        if style >= FOREIGN:
            foreign += style is FOREIGN
            rejected += [Rejection(event, field, text, "markup")] * (style is DIVIDED)
            continue
        answer, reason, _ = answers[text]
        stands = raw[place]
        place += 1
        if answer is None:
            if reason in NOT_LINKS:
                foreign += 1
            elif is_of_other_scheme(text):
                other += 1
            else:
                rejected.append(Rejection(event, field, text, reason))
        elif answer == text:
            same += 1
        else:
            stands = f'"{answer}"' if style is STRING else spelled(answer, style)
        pieces += (stands, kept[place])
    translated = len(found) - same - other - foreign - len(rejected)
    hashes = sum(text.count(HASH) for text in kept)
    return pieces, rejected, Counts(located.events, len(found), translated, same, other, foreign, len(rejected), hashes)


def _listed(text: str, answers: Dict[str, Answer]) -> str:
    """Returns the canonical link of an identifier, or its text if it has none."""
    return answers[text][2] or text if text in answers else text
