"""Runs a program of this package: `python3 tools PATH ARGUMENT..`, where PATH is its launcher, such as bench/lines for tools/bench/lines.py."""
import sys
from importlib import import_module
from pathlib import Path

TOP = Path(__file__).resolve().parent.parent
# (the Python module and its wheel are no part of this package)
sys.path[:1] = [str(TOP), str(TOP / "python"), str(TOP / "python" / "src")]
sys.argv[:2] = [str(Path(sys.argv[1]).resolve())]
module = import_module(".".join(("tools", *Path(sys.argv[0]).relative_to(TOP).parts)))
sys.exit(module.main())
