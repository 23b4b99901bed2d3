"""The sentence that is proved stands alike on the front page, in the manual page and in docs/THEOREM.md."""
import re

import pytest

from tools.repository import TOP

SENTENCE = "by the same tables, two codes that canon accepts get equal links if and only if they name the same elements, elements that mean 'none' not counted."


@pytest.mark.parametrize("page", ["README.md", "docs/THEOREM.md", "packaging/man/tdl.1"])
def test_stands_alike(page: str) -> None:
    text = re.sub(r"^\.Cm |[*`]", "", (TOP / page).read_text("utf-8"), flags=re.MULTILINE)
    assert SENTENCE in " ".join(text.split()).lower()
