#!/usr/bin/env python3
"""Runs the program and a peer on random meshes, problems and words, and compares all that they do.

    bench/compare.py --peer PROGRAM --count 1000 --seed 1

Compared are the bytes of standard output, the diagnostic, the files written, and the status. Each difference is printed
with the words that repeat it; `--only K --keep FOLDER` writes the texts of case K of the seed to a folder and prints its
words. At the end stands how often each status and each kind of refusal came: so it is seen what was reached.
"""
import argparse
import random
import re
import shlex
import tempfile
from collections import Counter
from dataclasses import dataclass

from batch_cases import random_batch
from mesh_cases import random_mesh, random_mesh_text
from msh_cases import BARE as BARE_MSH, random_msh_text
from problem_cases import random_problem_text
from programs import add_case_options, add_program_options, in_turn, kept, placed, run_in, told
from vector_cases import random_vector_text
from word_cases import random_words


# Mesh texts of one line at most: empty ones, one without nodes, and counts at their limits and beyond.
BARE = [b"", b"\n\n", b"0 0 0 0 0\n", b"0 0 0 0 0", b"# only\n", b"\xff\x00\n", b"1048577 0 0 0 0\n",
        b"0 2097153 0 0 0", b"1048576 2097152 0 0 0\n"]


@dataclass(frozen=True)
class Case:
    """Words, the texts of the folder by name, and the name of the text that standard input gives or None."""
    words: list
    texts: dict
    given: str | None

    def input(self):
        return self.texts[self.given] if self.given else b""


def case_of(seed, number, chosen):
    """Case `number` of a seed, which no other case has a part in; how likely it is a batch, its mesh text is in MSH, and its mode one
    that takes a vector, is chosen by `--batches`, `--msh` and `--vectors`."""
    rng = random.Random(f"{seed}/{number}")
    if rng.random() < chosen.batches:
        return Case(*random_batch(rng))
    where = rng.choices(["none", "mesh", "problem", "words"], [10, 4, 4, 3])[0]
    faults = {name: rng.choice([1, 1, 2]) if name == where else 0 for name in ("mesh", "problem", "words")}
    mesh = random_mesh(rng)
    texts = {"mesh.inp": random_mesh_text(rng, mesh, faults["mesh"]),
             "mesh.msh": random_msh_text(rng, mesh, faults["mesh"]),
             "problem.txt": random_problem_text(rng, mesh, faults["problem"])}
    if rng.random() < 0.01:
        texts["mesh.inp"], texts["mesh.msh"] = rng.choice(BARE), rng.choice(BARE_MSH)
    words, given = random_words(rng, faults["words"], chosen.msh, chosen.vectors)
    case = Case(words, texts, given)
    if given == "vector.mtx" or any("vector" in word for word in words):
        limit = 2 ** 20 if "product" in " ".join(words) else 2 ** 31
        texts["vector.mtx"] = random_vector_text(rng, size_of(case, chosen), limit)
    return case


def value_of(words, option):
    """The value of an option that stands among the words, or None."""
    for word, behind in zip(words, words[1:] + [None]):
        if word == option:
            return behind
        if word.startswith(option + "="):
            return word[len(option) + 1:]
    return None


def size_of(case, chosen):
    """How many degrees of freedom the system of a case has, as the peer says it; 6 where there is none."""
    words = ["--mode", "pattern"]
    for option in ("--mesh", "--format", "--problem", "--degree"):
        value = value_of(case.words, option)
        words += [option, value] if value is not None else []
    given = case.given if "-" in words and case.given in case.texts else None
    lines = run_case(Case(words, case.texts, given), chosen.peer, chosen.limit).out.split(b"\n")
    return int(lines[1].split()[0]) if len(lines) > 1 else 6


def run_case(case, program, limit):
    with tempfile.TemporaryDirectory() as folder:
        placed(case.texts, folder)
        return run_in(folder, program, case.words, case.input(), limit)


def differences(ours, peers):
    """The names of the parts in which two runs differ."""
    parts = [name for name in ("status", "out", "err") if getattr(ours, name) != getattr(peers, name)]
    files = sorted(name for name in ours.files.keys() | peers.files.keys()
                   if ours.files.get(name) != peers.files.get(name))
    return parts + [f"file {name}" for name in files]


def kind_of(run):
    """A status with the words of its diagnostic, without its numbers."""
    if run.status is None:
        return "past the limit of time"
    line = run.err.decode(errors="replace").removeprefix("assemble: ").strip()
    return "0" if run.status == 0 else re.sub(r"\b(?<!^)\d+\b", "N", line) or str(run.status)


def both(number, chosen):
    """Runs both programs on one case."""
    case = case_of(chosen.seed, number, chosen)
    return number, case, [run_case(case, program, chosen.limit) for program in (chosen.program, chosen.peer)]


def report(number, case, ours, peers, chosen):
    """Prints a difference, and the words that repeat it."""
    print(f"case {number} differs in {', '.join(differences(ours, peers))}")
    print(f"  words: {shlex.join(case.words)}")
    for name, run in (("ours", ours), ("peer", peers)):
        print(f"  {name}: status {run.status}, {len(run.out)} bytes, {run.err.decode(errors='replace').strip()!r}")
    for k, (a, b) in enumerate(zip(ours.out.split(b"\n"), peers.out.split(b"\n")), start=1):
        if a != b:
            print(f"  output line {k}: {a[:80]!r} and {b[:80]!r}")
            break
    print(f"  repeat: bench/compare.py --program {chosen.program} --peer {chosen.peer} --seed {chosen.seed} "
          f"--msh {chosen.msh} --vectors {chosen.vectors} --batches {chosen.batches} --only {number} --keep FOLDER", flush=True)


def main():
    parser = argparse.ArgumentParser(description=__doc__, formatter_class=argparse.RawDescriptionHelpFormatter)
    add_program_options(parser, "required")
    add_case_options(parser, count=1000, limit=60.0)
    parser.add_argument("--vectors", type=float, default=0.3, help="how likely a mode takes a vector (default 0.3)")
    parser.add_argument("--batches", type=float, default=0.1, help="how likely a case is a batch (default 0.1)")
    parser.add_argument("--msh", type=float, default=0.3, help="how likely a mesh text is in MSH (default 0.3)")
    chosen = parser.parse_args()
    if chosen.only is not None and chosen.keep:
        case = case_of(chosen.seed, chosen.only, chosen)
        kept(chosen.keep, case.texts, case.words, case.given)
    kinds, wrong = Counter(), 0
    for number, case, (ours, peers) in in_turn(chosen, lambda number: both(number, chosen)):
        kinds[kind_of(peers)] += 1
        if differences(ours, peers) or ours.status is None:
            wrong += 1
            report(number, case, ours, peers, chosen)
    told(kinds)
    print(f"{kinds.total()} cases, {wrong} differ")
    raise SystemExit(1 if wrong else 0)


if __name__ == "__main__":
    main()
