#!/usr/bin/env python3
"""Solves a problem, lets the program mark the cells with the greatest indicators, refines them, and so on.

    examples/adapt.py --mesh examples/elbow.inp --problem examples/elbow.txt > refined.txt
    examples/draw.py mesh --mesh examples/elbow.inp --problem refined.txt > refined.svg

Each round writes the solution as a vector, asks for the marked cells (mode marks) and for the system on the mesh with these
refined (mode adapt), and adds their `refine` line to the problem, which is written at the end. With --uniform all cells are
marked. A line for each mesh goes to standard error: its cells and dofs, the estimate of the error, which is the root of
the sum of all indicators, and the work of the load, which rises to that of the exact solution (scipy is needed).
"""
import argparse
import subprocess
import sys
import tempfile
from pathlib import Path

import numpy
from scipy.io import mmread
from scipy.sparse.linalg import spsolve

from draw import Mesh, words_of

PROGRAM = Path(__file__).resolve().parent.parent / "assemble"
UNIT = 2.0 ** -16  # of a value in a vector


def with_hanging(mesh, u):
    """The values at all dofs: one that hangs has the mean of the ends of its face."""
    names, hanging = mesh.dofs(), mesh.hanging()
    values = dict(zip(names, u))

    def value_at(name):
        return sum(value_at(end) for end in name) / 2 if name in hanging else values[name]

    return numpy.array([value_at(name) for name in names])


class Rounds:
    """A mesh text, a problem text that grows by steps, and the runs of the program over them in a folder."""

    def __init__(self, program, mesh, problem, folder):
        self.program, self.folder, self.problem = program, folder, problem
        self.mesh = Mesh(mesh)
        for row in words_of(problem):
            if row[0] == "refine":
                self.mesh.refine([int(word) for word in row[1:]])
        (folder / "mesh.inp").write_text(mesh)

    def run(self, words):
        """One run over the mesh and the problem as it stands: what it writes on standard output."""
        (self.folder / "problem.txt").write_text(self.problem)
        command = [self.program, "--mesh", "mesh.inp", "--problem", "problem.txt", *words.split()]
        return subprocess.run(command, cwd=self.folder, stdout=subprocess.PIPE, text=True, check=True).stdout

    def solve(self):
        """The solution of the system that was written last, and the work of the load."""
        matrix, load = mmread(self.folder / "a.mtx").tocsc() / 2**32, mmread(self.folder / "f.mtx").ravel() / 2**32
        u = spsolve(matrix, load)
        return with_hanging(self.mesh, u), u @ load

    def marks(self, u, count):
        """The cells that the program marks for a solution, with their indicators."""
        whole = numpy.rint(u / UNIT).astype(int)
        lines = ["%%MatrixMarket matrix array integer general", f"{whole.size} 1", *map(str, whole), ""]
        (self.folder / "u.mtx").write_text("\n".join(lines))
        rows = self.run(f"--mode marks --vector u.mtx --mark {count}").splitlines()[1:]
        return [[int(word) for word in row.split()] for row in rows]


def main():
    parser = argparse.ArgumentParser(description=__doc__, formatter_class=argparse.RawDescriptionHelpFormatter)
    parser.add_argument("--program", default=str(PROGRAM), help="the program (default: ./assemble of the repository)")
    parser.add_argument("--mesh", required=True)
    parser.add_argument("--problem", required=True)
    parser.add_argument("--rounds", type=int, default=5)
    parser.add_argument("--share", type=float, default=0.25, help="the share of the cells that a round marks")
    parser.add_argument("--uniform", action="store_true", help="mark all cells")
    chosen = parser.parse_args()
    with tempfile.TemporaryDirectory() as folder:
        rounds = Rounds(chosen.program, Path(chosen.mesh).read_text(), Path(chosen.problem).read_text(), Path(folder))
        rounds.run("--matrix a.mtx --rhs f.mtx")
        for turn in range(chosen.rounds + 1):
            u, work = rounds.solve()
            cells = len(rounds.mesh.cells)
            rows = rounds.marks(u, cells)
            estimate = sum(eta for _, eta in rows) ** 0.5 * UNIT
            print(f"{cells:6} cells {u.size:6} dofs   estimate {estimate:12.4f}   work {work:.6f}", file=sys.stderr)
            if turn < chosen.rounds:
                count = cells if chosen.uniform else max(1, round(cells * chosen.share))
                rounds.run(f"--mode adapt --vector u.mtx --mark {count} --matrix a.mtx --rhs f.mtx")
                marked = [cell for cell, _ in rows[:count]]
                rounds.mesh.refine(marked)
                rounds.problem += f"refine {' '.join(map(str, marked))}\n"
    sys.stdout.write(rounds.problem)


if __name__ == "__main__":
    main()
