#!/usr/bin/env python3
"""Runs the modes with threads again and again, with random plans, against the serial mode, with a time limit for each run.

    bench/soak.py --count 200 --seed 1

For each random mesh and problem the bytes are to be these, whatever the workers, queue, chunk and scratch objects are:

- `ordered` gives what `serial` gives, with any digits, its diagnostic too;
- `colored` gives what it gives with one worker, with any digits;
- `colored` with digits 0 gives what `serial` gives where that has a sum, and fails where a local form of it fails;
- a batch gives what it gives with one worker.

A run that passes its limit hangs, and is told like a difference.
"""
import argparse
import random
import shlex
import tempfile
from collections import Counter

from batch_cases import random_batch_text, random_texts
from compare import differences, kind_of, Case
from mesh_cases import random_mesh, random_mesh_text
from problem_cases import random_problem_text
from programs import add_case_options, add_program_options, in_turn, kept, placed, run_in, told

SMALL = [1, 1, 2, 3, 4, 8]


def case_of(seed, number):
    """A mesh, a problem and the words that all runs of the case share."""
    rng = random.Random(f"soak {seed}/{number}")
    shared = ["--faces", rng.choice(["none", "once", "both"]), "--digits", rng.choice(["0", "0", "0", "5", "24", "64"]),
              "--degree", rng.choice(["1", "2"])]
    if rng.random() < 0.2:
        return rng, Case(shared + ["--generate", str(rng.randint(1, 12)), "--seed", str(number)], {}, None)
    mesh = random_mesh(rng)
    texts = {"mesh.inp": random_mesh_text(rng, mesh, 0), "problem.txt": random_problem_text(rng, mesh, 0)}
    return rng, Case(shared + ["--mesh", "mesh.inp", "--problem", "problem.txt"], texts, None)


def batch_of(seed, number):
    """A batch of up to twenty jobs, and its words but for the number of workers."""
    rng = random.Random(f"soak batch {seed}/{number}")
    count = rng.choice([1, 2, 3])
    texts = random_texts(rng, count, lambda: 1 if rng.random() < 0.1 else 0)
    texts["batch.txt"] = b"\n".join(random_batch_text(rng, count, 0) for _ in range(rng.choice([1, 1, 2])))
    return rng, Case(["--batch", "batch.txt"], texts, None)


def random_plan(rng):
    """Workers, queue, chunk and scratch objects: small ones mostly, and now and then the largest."""
    most = {"--workers": 64, "--queue": 256, "--chunk": 64, "--scratch": 64}
    words = []
    for option, limit in most.items():
        if rng.random() < 0.8:
            words += [option, str(rng.choice(SMALL + [rng.randint(1, limit), limit]))]
    return words


def expected_of(run, case):
    """What each threaded mode is to give, by the serial run and a coloured one with one worker."""
    serial = run(["--mode", "serial"])
    colored = run(["--mode", "colored", "--workers", "1", "--scratch", "1"])
    faults = []
    if "0" == case.words[case.words.index("--digits") + 1]:
        if serial.status in (0, 2, 3, 4, 5, 6, 9) and differences(serial, colored):
            faults.append(("--mode colored --workers 1", serial, colored))
        if serial.status == 7 and colored.status not in (7, 8):
            faults.append(("--mode colored --workers 1", serial, colored))
    return serial, {"ordered": serial, "colored": colored}, faults


def soak_case(number, chosen):
    """Runs one case; the differences as words, the run that was expected and the one that came."""
    rng, case = case_of(chosen.seed, number)
    with tempfile.TemporaryDirectory() as folder:
        placed(case.texts, folder)

        def run(words):
            return run_in(folder, chosen.program, words + case.words + ["--rhs", "-"], limit=chosen.limit)

        serial, expected, faults = expected_of(run, case)
        for _ in range(chosen.plans):
            mode = rng.choice(["ordered", "colored"])
            words = ["--mode", mode, *random_plan(rng)]
            came = run(words)
            if differences(expected[mode], came) or came.status is None:
                faults.append((shlex.join(words), expected[mode], came))
    return number, case, serial, faults


def soak_batch(number, chosen):
    """Runs one batch; the differences as words, the run that was expected and the one that came."""
    rng, case = batch_of(chosen.seed, number)
    with tempfile.TemporaryDirectory() as folder:
        placed(case.texts, folder)

        def run(workers):
            return run_in(folder, chosen.program, [*case.words, "--workers", str(workers)], limit=chosen.limit)

        expected, faults = run(1), []
        for _ in range(chosen.plans):
            workers = rng.choice([2, 3, 4, 8, rng.randint(1, 64), 64])
            came = run(workers)
            if differences(expected, came) or came.status is None:
                faults.append((f"--workers {workers}", expected, came))
    return number, case, expected, faults


def main():
    parser = argparse.ArgumentParser(description=__doc__, formatter_class=argparse.RawDescriptionHelpFormatter)
    add_program_options(parser, "none")
    add_case_options(parser, count=100, limit=20.0)
    parser.add_argument("--batches", action="store_true", help="batches alone")
    parser.add_argument("--plans", type=int, default=10, help="runs with random plans for each mesh (default 10)")
    chosen = parser.parse_args()
    made, soaked, rest = (batch_of, soak_batch, []) if chosen.batches else (case_of, soak_case, ["--rhs", "-"])
    if chosen.only is not None and chosen.keep:
        _, case = made(chosen.seed, chosen.only)
        kept(chosen.keep, case.texts, case.words + rest)
    kinds, wrong = Counter(), 0
    for number, case, serial, faults in in_turn(chosen, lambda number: soaked(number, chosen)):
        kinds[kind_of(serial)] += 1
        wrong += len(faults)
        for words, expected, came in faults:
            print(f"case {number}, {words}: status {came.status} in place of {expected.status}, "
                  f"differs in {', '.join(differences(expected, came)) or 'time'}")
            print(f"  repeat: bench/soak.py --program {chosen.program} --seed {chosen.seed} --only {number} "
                  f"--keep FOLDER{' --batches' if chosen.batches else ''}", flush=True)
    told(kinds)
    print(f"{kinds.total()} {'batches' if chosen.batches else 'meshes'}, {kinds.total() * chosen.plans} runs with threads, {wrong} differ")
    raise SystemExit(1 if wrong else 0)


if __name__ == "__main__":
    main()
