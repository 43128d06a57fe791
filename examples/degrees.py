#!/usr/bin/env python3
"""The wall by functions of degree 1 and of degree 2, on its mesh and on finer ones, with every cell divided once more.

    examples/degrees.py [PROGRAM]        (./assemble where none is named; scipy is needed)

For each mesh and degree: the degrees of freedom, and the temperatures of the inside in its corner and at its ends.
"""
import subprocess
import sys
import tempfile
from pathlib import Path

from scipy.io import mmread
from scipy.sparse.linalg import spsolve

from draw import Mesh, words_of

TOP = Path(__file__).resolve().parent.parent
PROGRAM = sys.argv[1] if len(sys.argv) > 1 else TOP / "assemble"
WALL, PROBLEM = (TOP / "examples/wall.inp").read_text(), (TOP / "examples/wall.txt").read_text()
CORNER = (30 * 65536, 30 * 65536)  # the corner inside, in ticks


def solved(problem, degree, folder):
    """The solution of the system that the program writes, a value for each degree of freedom."""
    (folder / "problem.txt").write_text(problem)
    subprocess.run([PROGRAM, "--mesh", TOP / "examples/wall.inp", "--problem", folder / "problem.txt", "--degree", str(degree),
                    "--matrix", folder / "a.mtx", "--rhs", folder / "f.mtx"], check=True)
    return spsolve(mmread(folder / "a.mtx").tocsc(), mmread(folder / "f.mtx"))


def corner_row(mesh, degree):
    """The row of the corner inside: its place among the names of the degrees of freedom."""
    return next(row for row, name in enumerate(mesh.dofs(degree)) if mesh.points.get(name) == CORNER)


def main():
    mesh, problem = Mesh(WALL), PROBLEM
    for row in words_of(PROBLEM):
        if row[0] == "refine":
            mesh.refine([int(word) for word in row[1:]])
    with tempfile.TemporaryDirectory() as name:
        for _ in range(4):
            for degree in (1, 2):
                u = solved(problem, degree, Path(name))
                print(f"{len(mesh.cells)} cells, degree {degree}: {len(u)} dofs, {u[corner_row(mesh, degree)]:.3f} in the corner, "
                      f"{max(u):.4f} at the ends", flush=True)
            numbers = range(len(mesh.cells))
            problem += "refine " + " ".join(map(str, numbers)) + "\n"
            mesh.refine(numbers)


if __name__ == "__main__":
    main()
