#!/usr/bin/env python3
"""Times the program on generated grids, alone or beside another program with the same words.

    bench/run.py                        sizes 64 to 512, then the modes with 1, 2 and 4 workers
    bench/run.py --peer PROGRAM         both programs in turn in each round, and their ratio

Medians and least values of several rounds stand side by side, since other work on a machine only adds time. A ratio is
the median over the rounds of ours by the peer's, of the processor time in the first part and of the wall time in the
second; so above 1 the peer is faster. A peak that isn't above the least one that the system counts is printed as below it.
"""
import argparse
import tempfile
from pathlib import Path
from statistics import median

from programs import add_program_options, cost_of, least_peak

SEED = ["--seed", "7"]


def grid(size):
    """The words of a grid of size by size coarse cells."""
    return ["--generate", str(size), *SEED]


def active_cells(size):
    """The cells of a generated grid: two of its corner cells are refined, where it has two."""
    return size * size + (6 if size > 1 else 3)


def rounds_of(programs, words, rounds):
    """For each program its costs, one a round. The order of the programs turns from round to round."""
    costs = [[] for _ in programs]
    places = list(range(len(programs)))
    for turn in range(rounds):
        for place in places if turn % 2 == 0 else reversed(places):
            costs[place].append(cost_of(programs[place], words))
    return costs


def ratio(ours, peers, part):
    """The median over the rounds of ours by the peer's."""
    return median(part(a) / max(part(b), 1e-6) for a, b in zip(ours, peers))


def row(cells):
    """Prints the texts of a row, each to the right of its width."""
    print("  ".join(f"{text:>{width}}" for text, width in cells), flush=True)


def time_sizes(programs, sizes, rounds, target):
    """Time, memory and growth by the size of the grid, to a summary and to a file."""
    for title, words in (("--summary", ["--summary"]), ("--matrix FILE", ["--matrix", target])):
        print(f"\n{title}")
        row([("N", 5), ("cells", 8), ("program", 8), ("median s", 9), ("least s", 8), ("cpu s", 8), ("cells/s", 9),
             ("peak MB", 8), ("bytes/cell", 10), ("growth", 7), ("ratio", 6)])
        before = {}
        for size in sizes:
            costs = rounds_of(programs, grid(size) + words, rounds)
            for place, mine in enumerate(costs):
                before[place] = size_row(size, place, mine, costs, before.get(place))


def peak_cells(peak, cells):
    """The peak and what it is for a cell, or only that it is below what is counted for nearly no memory."""
    floor = least_peak()
    if peak < 1.1 * floor:
        return [(f"<{1.1 * floor / 1e6:.0f}", 8), ("", 10)]
    return [(f"{peak / 1e6:.1f}", 8), (f"{peak / cells:.0f}", 10)]


def size_row(size, place, mine, costs, before):
    """One row, and the time for a cell that the next size is compared with."""
    cells = active_cells(size)
    processor = median(cost.processor for cost in mine)
    seconds = median(cost.seconds for cost in mine)
    peak = max(cost.peak for cost in mine)
    for_a_cell = processor / cells
    growth = f"{for_a_cell / before:.2f}" if before else ""
    beside = f"{ratio(costs[0], costs[1], lambda cost: cost.processor):.2f}" if len(costs) > 1 and place == 0 else ""
    row([(size if place == 0 else "", 5), (cells if place == 0 else "", 8), (("ours", "peer")[place], 8),
         (f"{seconds:.3f}", 9), (f"{min(cost.seconds for cost in mine):.3f}", 8), (f"{processor:.3f}", 8),
         (f"{cells / seconds:.0f}", 9), *peak_cells(peak, cells), (growth, 7), (beside, 6)])
    return for_a_cell


def beyond(mine, base):
    """The median over the rounds of the wall time beyond that of the mode pattern."""
    return median(a.seconds - b.seconds for a, b in zip(mine, base))


def time_modes(programs, size, workers, rounds, target):
    """The modes with several workers, and the whole run less the run that ends with the pattern."""
    print(f"\nModes at N = {size}; `less pattern` is the whole run less that of the mode pattern in the same round")
    row([("mode", 8), ("workers", 7), ("program", 8), ("median s", 9), ("least s", 8), ("ratio", 6),
         ("less pattern s", 14), ("ratio", 6)])
    base = None
    for mode, counts in (("pattern", [1]), ("serial", [1]), ("colors", [1]), ("colored", workers),
                         ("ordered", workers)):
        for count in counts:
            words = grid(size) + ["--mode", mode, "--workers", str(count), "--matrix", target]
            costs = rounds_of(programs, words, rounds)
            base = base or costs
            mode_rows(mode, count, costs, [beyond(mine, other) for mine, other in zip(costs, base)])


def mode_rows(mode, count, costs, phases):
    """The rows of a mode with a number of workers, one a program."""
    for place, mine in enumerate(costs):
        first = place == 0
        compared = first and len(costs) > 1
        whole = f"{ratio(costs[0], costs[1], lambda cost: cost.seconds):.2f}" if compared else ""
        part = f"{phases[0] / phases[1]:.2f}" if compared and phases[1] > 0 else ""
        row([(mode if first else "", 8), (count if first else "", 7), (("ours", "peer")[place], 8),
             (f"{median(cost.seconds for cost in mine):.3f}", 9), (f"{min(cost.seconds for cost in mine):.3f}", 8),
             (whole, 6), (f"{phases[place]:.3f}" if mode != "pattern" else "", 14), (part, 6)])


def main():
    parser = argparse.ArgumentParser(description=__doc__, formatter_class=argparse.RawDescriptionHelpFormatter)
    add_program_options(parser, "optional")
    parser.add_argument("--sizes", type=int, nargs="+", default=[64, 128, 256, 512], metavar="N")
    parser.add_argument("--workers", type=int, nargs="+", default=[1, 2, 4], metavar="W")
    parser.add_argument("--rounds", type=int, default=5)
    parser.add_argument("--part", choices=["sizes", "modes", "all"], default="all")
    chosen = parser.parse_args()
    programs = [chosen.program] + ([chosen.peer] if chosen.peer else [])
    print(f"{chosen.rounds} rounds; a peak of {least_peak() / 1e6:.1f} MB is counted for nearly no memory")
    with tempfile.TemporaryDirectory() as folder:
        target = str(Path(folder) / "matrix.mtx")
        if chosen.part != "modes":
            time_sizes(programs, chosen.sizes, chosen.rounds, target)
        if chosen.part != "sizes":
            time_modes(programs, chosen.sizes[-1], chosen.workers, chosen.rounds, target)


if __name__ == "__main__":
    main()
