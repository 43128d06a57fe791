#!/usr/bin/env python3
"""Solves the system of the wall by conjugate gradients, without its matrix: each product is a run of the program.

    examples/cg.py [PROGRAM]        (./assemble where none is named; numpy is needed)
"""
import subprocess
import sys
from pathlib import Path

import numpy

TOP = Path(__file__).resolve().parent.parent
RUN = [sys.argv[1] if len(sys.argv) > 1 else TOP / "assemble", "--mesh", TOP / "examples/wall.inp", "--problem", TOP / "examples/wall.txt"]
ARRAY = "%%MatrixMarket matrix array integer general"


def values_of(words, text=""):
    """What a run writes in units of 2^-32, the first three lines apart."""
    done = subprocess.run([*RUN, *words.split()], input=text, stdout=subprocess.PIPE, text=True, check=True)
    return numpy.array(done.stdout.split("\n")[3:-1], float) / 2**32


def product(direction):
    """The direction in whole units, so that the greatest is 2^20 of them, and its product with the operator."""
    unit = max(abs(direction)) / 2**20
    whole = numpy.rint(direction / unit).astype(int)
    lines = "\n".join([ARRAY, f"{whole.size} 1", *map(str, whole), ""])
    return whole * unit, values_of("--mode product --vector -", lines) * unit


rest = values_of("--matrix /dev/null --rhs -")
start, u, direction, count = rest @ rest, 0 * rest, rest, 0
while rest @ rest > 1e-20 * start and count < 200:
    direction, image = product(direction)
    step = (rest @ direction) / (direction @ image)
    u, before, rest, count = u + step * direction, rest, rest - step * image, count + 1
    direction = rest + (rest @ (rest - before)) / (before @ before) * direction
print(f"{count} products, temperatures from {min(u):.2f} to {max(u):.2f} degrees")
