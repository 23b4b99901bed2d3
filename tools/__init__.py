"""The tools of this repository: each module of bin, checks, bench, packaging and tables is the program of its name there."""
