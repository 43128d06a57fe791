#!/usr/bin/env python3
"""Runs the program at its limits and just above them, and prints the time and the peak memory of each run.

    bench/limits.py                     all; with --peer PROGRAM the streams of both are compared too

The pattern at its limit has groups of four dofs with 16 masters each, so 64 masters and 4,096 pairs a group and 4 more.
"""
import argparse
import os
import subprocess
import tempfile
import time
from itertools import islice
from pathlib import Path

from grid import apart
from programs import add_program_options

SQUARE = ["4 1 0 0 0", "1 0 0 0", "2 1 0 0", "3 1 1 0", "4 0 1 0", "1 1 quad 1 2 3 4"]
SUMMARY = ["--mesh", "mesh.inp", "--problem", "problem.txt", "--summary"]
PATTERN = ["--mesh", "mesh.inp", "--problem", "problem.txt", "--mode", "pattern", "--matrix", "pattern.mtx"]


def text(lines):
    """The lines as bytes, some at a time, so that the script itself stays small: its peak is counted as its children's."""
    lines = iter(lines)
    while part := list(islice(lines, 10_000)):
        yield ("\n".join(part) + "\n").encode()


def blanks(count):
    """So many blanks."""
    while count:
        size = min(count, 1 << 20)
        yield b" " * size
        count -= size


def scattered(cells):
    """A mesh of unit cells that share no node, 512 in a row."""
    return apart(cells, 512)


def constrained_group(first):
    """The lines that tie the four nodes of a cell to the 64 nodes of the 16 cells behind it, 16 each."""
    for k in range(4):
        masters = " + ".join(f"0.0625*{first + 4 + 16 * k + m}" for m in range(16))
        yield f"constraint {first + k} = {masters}"


def groups(count, rest):
    """So many groups of 17 cells, and so many cells that stand alone: a mesh and a problem."""
    problem = (line for g in range(count) for line in constrained_group(1 + 68 * g))
    return {"mesh.inp": text(scattered(17 * count + rest)), "problem.txt": text(problem)}


def terms(count):
    """A dof with so many masters, of a mesh with enough nodes."""
    sum_of = " + ".join(f"0.0625*{2 + k}" for k in range(count))
    return {"mesh.inp": text(scattered(8)), "problem.txt": text([f"constraint 1 = {sum_of}"])}


def chain(count):
    """A dof whose closed line has so many masters: it is that of a dof with 15 masters and of others."""
    first = " + ".join(f"0.0625*{3 + k}" for k in range(15))
    second = " + ".join(f"0.0625*{18 + k}" for k in range(count - 15))
    return {"mesh.inp": text(scattered(16)), "problem.txt": text([f"constraint 1 = 1*2 + {second}", f"constraint 2 = {first}"])}


def square(problem):
    """The unit square with a problem."""
    return {"mesh.inp": text(SQUARE), "problem.txt": text(problem)}


def corner(x):
    """A mesh of one node and no cell."""
    return {"mesh.inp": text(["1 0 0 0 0", f"1 {x} 0 0"])}


def cases():
    """A name, texts of the folder, the words, the status and how the diagnostics or the summary begin."""
    mesh = ["--mesh", "mesh.inp"]
    yield "twelve steps", square(["refine 0"] * 12), SUMMARY, 0, b"cells 37\n"
    yield "thirteen steps", square(["refine 0"] * 13), SUMMARY, 9, b"assemble: 9 Limit Level\n"
    yield "thirty-three steps", square(["refine 0"] * 33), SUMMARY, 9, b"assemble: 9 Limit ProblemCount line 33\n"
    yield "a coordinate of 1024", corner("1024"), mesh, 0, b"%%MatrixMarket"
    yield "one that rounds to it", corner("1024.000001"), mesh, 0, b"%%MatrixMarket"
    yield "one tick above", corner("1024.0000152587890625"), mesh, 3, b"assemble: 3 MeshText line 2 Number\n"
    yield "a line of 16 terms", terms(16), SUMMARY, 0, b"cells 8\n"
    yield "a line of 17 terms", terms(17), SUMMARY, 9, b"assemble: 9 Limit ProblemCount line 1\n"
    yield "a closed line of 16 terms", chain(16), SUMMARY, 0, b"cells 16\n"
    yield "a closed line of 17 terms", chain(17), SUMMARY, 6, b"assemble: 6 Constraint Terms 0\n"
    yield "a text of 268,435,456 blanks", {"mesh.inp": blanks(268_435_456)}, mesh, 3, b"assemble: 3 MeshText"
    yield "a text of one blank more", {"mesh.inp": blanks(268_435_457)}, mesh, 9, b"assemble: 9 Limit MeshSize\n"
    yield "a problem of one blank more", {"mesh.inp": text(SQUARE), "problem.txt": blanks(268_435_457)}, SUMMARY, 9, b"assemble: 9 Limit ProblemSize\n"
    vector = [*mesh, "--mode", "product", "--vector", "x.mtx"]
    yield "a vector of 268,435,456 blanks", {"mesh.inp": text(SQUARE), "x.mtx": blanks(268_435_456)}, vector, 14, b"assemble: 14 VectorText line 1 Banner\n"
    yield "a vector of one blank more", {"mesh.inp": text(SQUARE), "x.mtx": blanks(268_435_457)}, vector, 9, b"assemble: 9 Limit VectorSize\n"
    batch, job = ["--batch", "batch.txt"], "--mesh mesh.inp"
    yield "65,536 jobs", {"mesh.inp": text(SQUARE), "batch.txt": text([job] * 65_536)}, batch, 0, b"job 0 status 0\n"
    yield "one job more", {"mesh.inp": text(SQUARE), "batch.txt": text([job] * 65_537)}, batch, 9, b"assemble: 9 Limit BatchCount line 65537\n"
    yield "a batch of 268,435,456 blanks", {"batch.txt": blanks(268_435_456)}, batch, 0, b""
    yield "a batch of one blank more", {"batch.txt": blanks(268_435_457)}, batch, 9, b"assemble: 9 Limit BatchSize\n"
    yield "a batch and a mesh of one byte more", {"mesh.inp": blanks(268_435_441), "batch.txt": text([job])}, batch, 9, b"assemble: 9 Limit BatchSize\n"
    yield "a batch and a mesh of so many bytes", {"mesh.inp": blanks(268_435_440), "batch.txt": text([job])}, batch, 0, b"job 0 status 3\n"
    yield "1,048,576 nodes", {"mesh.inp": text(scattered(262_144))}, [*mesh, "--summary"], 0, b"cells 262144\n"
    yield "1,048,577 nodes", {"mesh.inp": text(["1048577 0 0 0 0"])}, mesh, 9, b"assemble: 9 Limit MeshCount line 1\n"
    yield "33,554,432 pairs", groups(8184, 2), PATTERN, 0, b""
    yield "16 pairs more", groups(8184, 3), PATTERN, 9, b"assemble: 9 Limit Entries\n"
    grid = ["--generate", "512", "--seed", "7", "--summary"]
    yield "the largest grid, faces from both sides", {}, [*grid, "--faces", "both"], 0, b"cells 262150\n"
    for plan in (["--workers", "64", "--queue", "1", "--scratch", "1", "--chunk", "1"], ["--workers", "64", "--queue", "256", "--chunk", "64"]):
        yield f"ordered {' '.join(plan)}", {}, ["--generate", "64", "--seed", "7", "--summary", "--mode", "ordered", *plan], 0, b"cells 4102\n"
    yield "1,048,576 cells", million(), [*SUMMARY, "--faces", "both"], 0, b"cells 1048576\n"
    yield "three cells more", million(1), SUMMARY, 9, b"assemble: 9 Limit Cells\n"


def million(more=0):
    """262,144 cells, each divided once, and so many of the small ones once more."""
    steps = ["refine " + " ".join(map(str, range(262_144)))] + [f"refine {k}" for k in range(more)]
    return {"mesh.inp": text(scattered(262_144)), "problem.txt": text(steps)}


def run(program, words, folder):
    """Status, streams, seconds and peak memory in bytes of one run."""
    with tempfile.TemporaryFile() as out, tempfile.TemporaryFile() as err:
        start = time.perf_counter()
        child = subprocess.Popen([program, *words], stdin=subprocess.DEVNULL, stdout=out, stderr=err, cwd=folder)
        _, code, usage = os.wait4(child.pid, 0)
        seconds = time.perf_counter() - start
        child.returncode = os.waitstatus_to_exitcode(code)
        out.seek(0)
        err.seek(0)
        return child.returncode, out.read(), err.read(), seconds, usage.ru_maxrss * 1024


def main():
    parser = argparse.ArgumentParser(description=__doc__, formatter_class=argparse.RawDescriptionHelpFormatter)
    add_program_options(parser, "optional")
    parser.add_argument("--only", metavar="WORDS", help="the cases whose name has these words")
    chosen = parser.parse_args()
    faults = 0
    for name, texts, words, status, begins in cases():
        if chosen.only and chosen.only not in name:
            continue
        with tempfile.TemporaryDirectory() as folder:
            for file, parts in texts.items():
                with open(Path(folder, file), "wb") as written:
                    written.writelines(parts)
            came = run(chosen.program, words, folder)
            well = came[0] == status and (came[1] or came[2]).startswith(begins)
            beside = run(chosen.peer, words, folder) if chosen.peer else came
            same = came[:3] == beside[:3]
        faults += not (well and same)
        print(f"{'' if well else 'WRONG '}{'' if same else 'DIFFERS '}{name}: status {came[0]}, {came[3]:.2f} s, "
              f"{came[4] / 1e6:.0f} MB" + (f" (peer {beside[3]:.2f} s, {beside[4] / 1e6:.0f} MB)" if chosen.peer else ""), flush=True)
    raise SystemExit(1 if faults else 0)


if __name__ == "__main__":
    main()
