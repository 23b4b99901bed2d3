"""site [FOLDER]: makes a searchable site of the documents: README.md, CONTRIBUTING.md, CHANGELOG.md, docs/, and the pages of all definitions,
of which git keeps only that of the kernel.

FOLDER is packaging/out/site if it is not given. It needs `mkdocs` (Debian's package of that name) and no network. packaging/make puts the site
into the packages if `mkdocs` is installed. The status is 0, 70 if `mkdocs` is missing, or that of `mkdocs`.
"""
import re
import shutil
import subprocess
import sys
import tempfile
from pathlib import Path

from tools import definition_pages
from tools.common import parser
from tools.definitions import Specs
from tools.repository import TOP

MISSING = 70
PAGES = ["CONTRIBUTING.md", "CHANGELOG.md"]
# a link to a file that is not part of the site
OUTSIDE = re.compile(r"\]\((?!https?:|#)((?:\.\./)*(?:LICENSE|crates/[^)]*|packaging/[^)]*|examples/[^)]*))\)")


def lay_out(folder: Path) -> None:
    """Writes the documents to a folder as the site has them: README.md is its first page."""
    (folder / "docs").mkdir(parents=True)
    for path in [TOP / "README.md", *(TOP / name for name in PAGES), *sorted((TOP / "docs").rglob("*"))]:
        copy = folder / ("index.md" if path.name == "README.md" and path.parent == TOP else path.relative_to(TOP))
        if path.is_dir():
            copy.mkdir(exist_ok=True)
        elif path.suffix == ".md":
            copy.write_text(OUTSIDE.sub("](#)", path.read_text("utf-8")), "utf-8")
        else:
            shutil.copyfile(path, copy)
    for path, text in definition_pages.definitions(Specs(), tuple(definition_pages.PAGES)).items():
        (folder / path.relative_to(TOP)).write_text(OUTSIDE.sub("](#)", text), "utf-8")


def make(to: Path) -> int:
    """Makes the site in a folder, and returns the status."""
    if not shutil.which("mkdocs"):
        print("site: there is no `mkdocs` on the PATH: apt install mkdocs", file=sys.stderr)
        return MISSING
    with tempfile.TemporaryDirectory() as room:
        lay_out(Path(room, "site"))
        shutil.copyfile(TOP / "packaging" / "site.yml", Path(room, "mkdocs.yml"))
        return subprocess.run(["mkdocs", "build", "--quiet", "--site-dir", to.resolve()], cwd=room).returncode


def main() -> int:
    """Returns the status."""
    asked = parser(__doc__)
    asked.add_argument("folder", nargs="?", type=Path, default=TOP / "packaging" / "out" / "site")
    return make(asked.parse_args().folder)
