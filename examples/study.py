#!/usr/bin/env python3
"""A parameter study: what the insulation of the wall does to its temperatures, from one batch of twelve systems.

    examples/study.py [PROGRAM]        (./assemble where none is named; scipy is needed)

Printed are the conductivity of the insulation, the temperatures of the inside at its ends and in its corner, and how far the corner
is from the air outside, as a part of the difference of both airs. Under 0.7 it is too cold: mould may grow there (ISO 13788).
The right side is the same for all, since the insulation has no part in it.
"""
import io
import re
import subprocess
import sys
from pathlib import Path

from scipy.io import mmread
from scipy.sparse.linalg import spsolve

TOP = Path(__file__).resolve().parent.parent
PROGRAM = sys.argv[1] if len(sys.argv) > 1 else TOP / "assemble"
STUDY = "examples/study"
CORNER = 22  # the row of the node in the corner inside
OUTSIDE, INSIDE = -10, 20


def run(*words):
    """What a run writes."""
    return subprocess.run([PROGRAM, *words], cwd=TOP, stdout=subprocess.PIPE, text=True, check=True).stdout


def values_of(text):
    """The matrix or the vector of a text in units of 2^-32."""
    return mmread(io.StringIO(text)) / 2**32


load = values_of(run("--mesh", "examples/wall.inp", "--problem", f"{STUDY}/01.txt", "--matrix", "/dev/null", "--rhs", "-"))
parts = re.split(r"^job \d+ status (\d+)\n", run("--batch", f"{STUDY}/batch.txt"), flags=re.M)[1:]
for k, (status, text) in enumerate(zip(parts[::2], parts[1::2]), start=1):
    if status != "0":
        raise SystemExit(text)
    u = spsolve(values_of(text).tocsc(), load)
    factor = (u[CORNER] - OUTSIDE) / (INSIDE - OUTSIDE)
    print(f"0.{k:02} W/(m K): {max(u):.2f} at the ends, {u[CORNER]:.2f} in the corner, factor {factor:.2f}")
