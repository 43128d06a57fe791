#!/usr/bin/env python3
"""Assembles a system by parts, one for each subdomain, adds the parts and compares them with the whole.

    examples/parts.py --mesh M --problem P [--faces once] [--workers N] ..

The subdomains are those of the lines `subdomain M S` of the problem, and 0. Each part is a run of its own with the words
given and `--subdomain S`, and with `--ghost` as `--faces` has it, so each part of an interior face is visited as in the whole.
With all digits kept the sums of whole numbers are the same, entry by entry. The status is 0 where they are.

With --add the texts of parts that stand already are added, in place of runs, and the sum is written:

    examples/parts.py --add PART.mtx ..  > whole.mtx
"""
import argparse
import subprocess
import sys
import tempfile
from pathlib import Path

PROGRAM = Path(__file__).resolve().parent.parent / "assemble"


def subdomains_of(problem):
    """The subdomains that the lines of a problem name, and 0, rising."""
    words = (line.split() for line in problem.splitlines() if not line.startswith("#"))
    return sorted({0} | {int(line[2]) for line in words if line[:1] == ["subdomain"]})


def numbers_of(text):
    """The size line of a text, and the value of each entry: by row and column, or of a right side by row."""
    lines = [line.split() for line in text.splitlines() if not line.startswith("%")]
    size, rows = lines[0], lines[1:]
    if len(size) == 2:
        return size, {(row,): int(value) for row, (value,) in enumerate(rows, 1)}
    return size[:2], {(int(row), int(column)): int(value) for row, column, value in rows}


def added(texts):
    """The sum of some texts of one size, entry by entry; an entry stands where one of them has it."""
    sizes, sums = set(), {}
    for text in texts:
        size, values = numbers_of(text)
        sizes.add(tuple(size))
        for place, value in values.items():
            sums[place] = sums.get(place, 0) + value
    if len(sizes) != 1:
        raise SystemExit("parts.py: the parts have several sizes")
    return sizes.pop(), sums


def market_text(size, sums):
    """A matrix as Matrix Market text, by rows and columns, or a right side."""
    values = sorted(sums.items())
    if size[1] == "1":
        lines = ["%%MatrixMarket matrix array integer general", "% unit 2^-32", " ".join(size)]
        lines += [str(value) for _, value in values]
    else:
        lines = ["%%MatrixMarket matrix coordinate integer general", "% unit 2^-32", f"{size[0]} {size[1]} {len(values)}"]
        lines += [f"{row} {column} {value}" for (row, column), value in values]
    return "\n".join(lines) + "\n"


def run(program, words, folder, name):
    """Runs the program: the texts of the matrix and of the right side."""
    matrix, rhs = folder / f"{name}.mtx", folder / f"{name}-rhs.mtx"
    done = subprocess.run([program, *words, "--matrix", matrix, "--rhs", rhs], check=False)
    if done.returncode:
        raise SystemExit(done.returncode)
    return matrix.read_text(), rhs.read_text()


def compare(program, words, problem, faces):
    """Runs all parts and the whole, and says whether the sums are the same."""
    with tempfile.TemporaryDirectory() as room:
        folder = Path(room)
        whole = run(program, words, folder, "whole")
        subdomains = subdomains_of(problem)
        parts = [run(program, [*words, "--subdomain", str(s), "--ghost", faces], folder, f"part-{s}") for s in subdomains]
    same = all(market_text(*added(texts)) == one for texts, one in zip(zip(*parts), whole))
    print(f"{len(subdomains)} parts of subdomains {' '.join(map(str, subdomains))}:",
          "their sum is the whole" if same else "THEIR SUM IS NOT THE WHOLE")
    return 0 if same else 1


def main():
    parser = argparse.ArgumentParser(description=__doc__, formatter_class=argparse.RawDescriptionHelpFormatter)
    parser.add_argument("--program", default=str(PROGRAM))
    parser.add_argument("--problem", metavar="P")
    parser.add_argument("--faces", default="none", choices=["none", "once", "both"])
    parser.add_argument("--add", nargs="+", metavar="PART.mtx")
    given, words = parser.parse_known_args()
    if given.add:
        sys.stdout.write(market_text(*added(Path(name).read_text() for name in given.add)))
        return 0
    if not given.problem:
        parser.error("--problem names the text with the lines of subdomains")
    words += ["--problem", given.problem, "--faces", given.faces]
    return compare(given.program, words, Path(given.problem).read_text(), given.faces)


if __name__ == "__main__":
    sys.exit(main())
