#!/usr/bin/env python3
"""Refuses memory to the program, one request after another, and looks at what each run leaves.

    bench/refused_memory.py             every request of each case, alone and with all that follow it

Each run is to end within its limit, with status 0 and what a run with ample memory leaves, or with status 12. Then
nothing is written, or where the second of two texts goes to a name the first one alone, and the diagnostics have their one
line, or nothing where memory ran out before the words were read. `bench/refuse_memory.c` is compiled by `cc`.
"""
import argparse
import os
import subprocess
import tempfile
from collections import Counter
from concurrent.futures import ThreadPoolExecutor
from dataclasses import dataclass
from pathlib import Path

from grid import grid
from programs import TOP, add_program_options, held_in, placed, told

STRIP = b"""6 2 0 0 0
1 0 0 0
2 1 0 0
3 2 0 0
4 0 1 0
5 1 1 0
6 2 1 0
1 1 quad 1 2 5 4
2 1 quad 2 3 6 5
"""
TIED = b"refine 1\nconstraint 2 = 3\nconstraint 5 = 0.5*1 + 1\nsource 1 1\n"
UNEVEN = b"diffusion 1 0.00048828125\ndiffusion 2 16384\nsource 1 1\n"
BOTH = ["--mesh", "mesh.inp", "--problem", "problem.txt"]
ANGLE = TOP / "examples" / "angle.msh"
LINE = b"assemble: 12 NoMemory\n"


@dataclass(frozen=True)
class Left:
    """What a run left: its status, None where it passed its limit; its streams; and the files that it wrote."""
    status: int | None
    out: bytes
    err: bytes
    files: dict


def uneven_grid():
    """A grid of 4 by 4 cells, of which the sixth has material 2."""
    return ("\n".join(grid(4)) + "\n").replace("\n6 1 quad", "\n6 2 quad").encode()


def cases():
    """A name, the texts of the folder and the words of each case."""
    strip = {"mesh.inp": STRIP, "problem.txt": TIED}
    uneven = {"mesh.inp": uneven_grid(), "problem.txt": UNEVEN}
    yield "hanging nodes", strip, [*BOTH, "--rhs", "-"]
    yield "hanging nodes, named texts", strip, [*BOTH, "--matrix", "m.mtx", "--rhs", "r.mtx", "--faces", "both"]
    yield "hanging nodes, a right side for a name", strip, [*BOTH, "--rhs", "r.mtx"]
    yield "ordered, digits", uneven, [*BOTH, "--digits", "24", "--mode", "ordered", "--workers", "3", "--queue", "1", "--chunk", "1"]
    yield "colored, digits", uneven, [*BOTH, "--digits", "24", "--mode", "colored", "--workers", "3"]
    yield "pattern", strip, [*BOTH, "--mode", "pattern"]
    yield "colors", uneven, [*BOTH, "--mode", "colors"]
    yield "the mesh itself", uneven, [*BOTH, "--mode", "mesh"]
    yield "a mesh in MSH", {"mesh.msh": ANGLE.read_bytes()}, ["--mesh", "mesh.msh", "--format", "msh"]
    yield "a generated grid", {}, ["--generate", "4", "--summary"]


def run_of(chosen, shim, texts, words, refused):
    """One run in a folder of its own with these variables, and how many requests it made."""
    with tempfile.TemporaryDirectory() as folder, tempfile.TemporaryDirectory() as beside:
        placed(texts, folder)
        count = Path(beside, "count")
        variables = {**os.environ, "LD_PRELOAD": shim, "REFUSE_COUNT": str(count), **refused}
        try:
            done = subprocess.run([chosen.program, *words], capture_output=True, cwd=folder, timeout=chosen.limit,
                                  env=variables, stdin=subprocess.DEVNULL)
            status, out, err = done.returncode, done.stdout, done.stderr
        except subprocess.TimeoutExpired as ended:
            status, out, err = None, ended.stdout or b"", ended.stderr or b""
        written = {name: text for name, text in held_in(folder).items() if name not in texts}
        requests = int.from_bytes(count.read_bytes(), "little")
        return Left(status, out, err, written), requests


def is_well(left, whole, words):
    """Whether a run left all, or ran out of memory and left no part of a text."""
    if left.status == 0:
        return left == whole
    if left.status != 12 or left.err not in (LINE, b""):
        return False
    if not left.out and not left.files:
        return True
    second_is_named = "--rhs" in words and words[words.index("--rhs") + 1] != "-"
    first = {name: text for name, text in whole.files.items() if name != "r.mtx"}
    return second_is_named and left.out == whole.out and left.files == first


def try_case(chosen, shim, name, texts, words):
    """Each request of a case refused, alone and with all behind it; how many runs there were, and the faulty ones."""
    whole, requests = run_of(chosen, shim, texts, words, {})
    if whole.status != 0:
        raise SystemExit(f"{name}: status {whole.status} with ample memory")
    tries = [(kind, number) for kind in ("REFUSE_AT", "REFUSE_FROM") for number in range(1, requests + 3)]
    with ThreadPoolExecutor(chosen.jobs) as pool:
        runs = list(pool.map(lambda one: run_of(chosen, shim, texts, words, {one[0]: str(one[1])})[0], tries))
    faults = [(one, left) for one, left in zip(tries, runs) if not is_well(left, whole, words)]
    ends = Counter(left.status for left in runs)
    print(f"{name}: {requests} requests, {len(runs)} runs, {ends[0]} with status 0, {ends[12]} with status 12", flush=True)
    for (kind, number), left in faults[:5]:
        print(f"  {kind}={number}: status {left.status}, {len(left.out)} bytes, {left.err!r}, files {sorted(left.files)}")
    return len(runs), len(faults)


def main():
    parser = argparse.ArgumentParser(description=__doc__, formatter_class=argparse.RawDescriptionHelpFormatter)
    add_program_options(parser, "none")
    parser.add_argument("--limit", type=float, default=20.0, help="seconds for a run (default 20)")
    parser.add_argument("--jobs", type=int, default=2, help="runs at a time")
    chosen = parser.parse_args()
    with tempfile.TemporaryDirectory() as folder:
        shim = str(Path(folder, "refuse_memory.so"))
        subprocess.run(["cc", "-O1", "-shared", "-fPIC", "-o", shim, str(TOP / "bench" / "refuse_memory.c")], check=True)
        results = [try_case(chosen, shim, *case) for case in cases()]
    told(Counter({"runs": sum(r[0] for r in results), "faults": sum(r[1] for r in results)}))
    raise SystemExit(1 if any(r[1] for r in results) else 0)


if __name__ == "__main__":
    main()
