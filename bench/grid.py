#!/usr/bin/env python3
"""Writes the mesh text of a grid of N by N unit cells: grid.py N
   with the materials 1 to 4 by quarters, from the left and from the bottom on: grid.py --quarters N
   or of C unit cells that share no node, on 4 C nodes: grid.py --apart C"""
import sys


def one_material(i, j, n):
    return 1


def by_quarters(i, j, n):
    return 1 + (2 * i >= n) + 2 * (2 * j >= n)


def grid(n, material=one_material):
    yield f"{(n + 1) ** 2} {n * n} 0 0 0"
    for j in range(n + 1):
        for i in range(n + 1):
            yield f"{1 + i + (n + 1) * j} {i} {j} 0"
    for j in range(n):
        for i in range(n):
            a = 1 + i + (n + 1) * j
            yield f"{1 + i + n * j} {material(i, j, n)} quad {a} {a + 1} {a + n + 2} {a + n + 1}"


def apart(cells, columns=32):
    yield f"{4 * cells} {cells} 0 0 0"
    for c in range(cells):
        x, y = 2 * (c % columns), 2 * (c // columns)
        for k, (i, j) in enumerate([(0, 0), (1, 0), (1, 1), (0, 1)]):
            yield f"{4 * c + k + 1} {x + i} {y + j} 0"
    for c in range(cells):
        yield f"{c + 1} 1 quad {4 * c + 1} {4 * c + 2} {4 * c + 3} {4 * c + 4}"


if __name__ == "__main__":
    match sys.argv[1:]:
        case ["--apart", cells]:
            lines = apart(int(cells))
        case ["--quarters", n]:
            lines = grid(int(n), by_quarters)
        case [n]:
            lines = grid(int(n))
        case _:
            sys.exit(__doc__)
    print("\n".join(lines))
