#!/usr/bin/env python3
"""Draws what the program makes of a mesh, as SVG.

    examples/draw.py mesh    --mesh M --problem P > mesh.svg       active cells, hanging nodes, boundary ids
    examples/draw.py colors  --mesh M --problem P > colors.svg     the cells in the colours of the mode colors
    examples/draw.py pattern --mesh M --problem P > pattern.svg    the entries of the mode pattern

Cells are refined here by the definition in docs/formats.md, with names of corners and nothing else, so the picture of
the colours is a check too: the program has to name as many cells as stand here.
"""
import argparse
import subprocess
import sys
from fractions import Fraction
from html import escape
from pathlib import Path

PROGRAM = Path(__file__).resolve().parent.parent / "assemble"
FACES = [(0, 2), (1, 3), (0, 1), (2, 3)]
AROUND = [0, 1, 3, 2]
FILLS = ["#8ecae6", "#ffb703", "#b7e4c7", "#e5989b", "#cdb4db", "#f4f1bb", "#90a8c3", "#f4a261", "#a3b18a", "#d9d9d9"]
EDGES = {"dirichlet": "#c1121f", "robin": "#1d3557", "": "#777777"}


def words_of(text):
    """The words of the lines that have any."""
    return [line.split() for line in text.splitlines() if line.split()]


def ticks(word):
    """A number in ticks of 2^-16, the nearest one, the even one of two."""
    return round(Fraction(word) * 65536)


class Mesh:
    """A coarse mesh and its active cells: each has a level, a material and four corners by name.

    A corner's name is a whole number for a node, the pair of the ends for the middle of a face, and a tuple for a centre.
    """

    def __init__(self, text):
        rows = words_of(text)
        while rows[0][0].startswith("#"):
            del rows[0]
        nodes, elements = int(rows[0][0]), int(rows[0][1])
        places = {int(row[0]): at for at, row in enumerate(rows[1:1 + nodes])}
        self.points = {places[int(row[0])]: (ticks(row[1]), ticks(row[2])) for row in rows[1:1 + nodes]}
        self.cells, self.ids = {}, {}
        for row in rows[1 + nodes:1 + nodes + elements]:
            corners = [places[int(word)] for word in row[3:]]
            if row[2] == "quad":
                self.cells[(len(self.cells), ())] = (int(row[1]), self.lexicographic(corners))
            else:
                self.ids.setdefault(frozenset(corners), int(row[1]))

    def lexicographic(self, around):
        """The corners of a cell, which stand round it, in lexicographic places."""
        (ax, ay), (bx, by), (cx, cy), (dx, dy) = (self.points[name] for name in around)
        turned = (cx - ax) * (dy - by) - (cy - ay) * (dx - bx) < 0
        first, second, third, fourth = around
        return [first, fourth, second, third] if turned else [first, second, fourth, third]

    def faces(self):
        """The active cells at each face, a face being the pair of its ends."""
        found = {}
        for key, (_, corners) in self.cells.items():
            for a, b in FACES:
                found.setdefault(frozenset((corners[a], corners[b])), []).append(key)
        return found

    def middle(self, a, b):
        """The name of the middle of two corners, whose point is kept."""
        name = frozenset((a, b))
        self.points[name] = mean([self.points[a], self.points[b]])
        return name

    def refine(self, asked):
        """One step: the cells with these numbers, and with each the coarser ones that meet it."""
        keys, faces = sorted(self.cells), self.faces()
        left, chosen = [keys[number] for number in asked], set()
        while left:
            key = left.pop()
            if key in chosen:
                continue
            chosen.add(key)
            corners = self.cells[key][1]
            for a, b in FACES:
                for end, other in ((corners[a], corners[b]), (corners[b], corners[a])):
                    if isinstance(other, frozenset) and end in other:
                        left += [met for met in faces.get(other, []) if len(met[1]) == len(key[1]) - 1]
        for key in chosen:
            self.divide(key)

    def divide(self, key):
        """Puts the four children of a cell in its place; child k has the cell's vertex k."""
        material, corners = self.cells.pop(key)
        coarse, path = key
        left, right, low, high = (self.middle(corners[a], corners[b]) for a, b in FACES)
        self.points[key] = mean([self.points[name] for name in corners])
        names = [corners[0], low, corners[1], left, key, right, corners[2], high, corners[3]]
        for child, start in enumerate((0, 1, 3, 4)):
            self.cells[coarse, path + (child,)] = (material, [names[start + by] for by in (0, 1, 3, 4)])
        for a, b in FACES:
            edge = frozenset((corners[a], corners[b]))
            for end in edge if edge in self.ids else ():
                self.ids[frozenset((end, edge))] = self.ids[edge]

    def active(self):
        """The materials and corners of the active cells in their order."""
        return [self.cells[key] for key in sorted(self.cells)]

    def dofs(self, degree=1):
        """The degrees of freedom by name in the order of their numbers, each at its first occurrence: the corners of each cell, and
        with degree 2 the middles of its faces and its centre."""
        return list(dict.fromkeys(name for key in sorted(self.cells) for name in self.names(key, degree)))

    def names(self, key, degree):
        """The names that a cell gives."""
        corners = self.cells[key][1]
        return corners + [frozenset((corners[a], corners[b])) for a, b in FACES] + [key] if degree == 2 else corners

    def hanging(self):
        """The corners that are the middle of an active cell's face."""
        faces = self.faces()
        return {name for name in self.dofs() if isinstance(name, frozenset) and name in faces}

    def boundary(self):
        """The boundary faces of active cells, with their ids."""
        faces, hanging = self.faces(), self.hanging()
        for face, keys in faces.items():
            half = any(isinstance(end, frozenset) and other in end and end in hanging
                       for end in face for other in face)
            if len(keys) == 1 and face not in hanging and not half:
                yield tuple(face), self.ids.get(face, 0)


def mean(points):
    """The nearest whole place to the mean, the even one of two."""
    return tuple(round(Fraction(sum(values), len(points))) for values in zip(*points))


class Picture:
    """An SVG of a part of the plane, some hundred points wide, with the second coordinate upward."""

    def __init__(self, points, width=360, margin=14):
        xs, ys = zip(*points)
        self.left, self.top = min(xs), max(ys)
        self.scale = width / max(max(xs) - self.left, self.top - min(ys), 1)
        self.margin = margin
        self.size = [(max(xs) - self.left) * self.scale + 2 * margin, (self.top - min(ys)) * self.scale + 2 * margin]
        self.rows = []

    def place(self, point):
        x, y = (point[0] - self.left) * self.scale, (self.top - point[1]) * self.scale
        return f"{x + self.margin:.1f}".removesuffix(".0"), f"{y + self.margin:.1f}".removesuffix(".0")

    def polygon(self, points, fill):
        around = " ".join(",".join(self.place(point)) for point in points)
        self.rows.append(f'<polygon points="{around}" fill="{fill}" stroke="#444" stroke-width="0.8"/>')

    def line(self, a, b, stroke):
        (x, y), (z, w) = self.place(a), self.place(b)
        self.rows.append(f'<path d="M{x} {y}L{z} {w}" stroke="{stroke}" stroke-width="3" stroke-linecap="round"/>')

    def circle(self, point, fill, radius):
        x, y = self.place(point)
        self.rows.append(f'<circle cx="{x}" cy="{y}" r="{radius}" fill="{fill}" stroke="#222" stroke-width="0.8"/>')

    def label(self, point, text, size):
        x, y = self.place(point)
        self.rows.append(f'<text x="{x}" y="{y}" font-size="{size}" text-anchor="middle" dominant-baseline="central">'
                         f"{escape(str(text))}</text>")

    def text(self):
        width, height = (f"{length:.0f}" for length in self.size)
        return "\n".join([f'<svg xmlns="http://www.w3.org/2000/svg" width="{width}" height="{height}" '
                          f'font-family="sans-serif">', '<rect width="100%" height="100%" fill="white"/>',
                          *self.rows, "</svg>", ""])


def centre(mesh, corners):
    return mean([mesh.points[name] for name in corners])


def label_cell(picture, mesh, corners, number):
    """Puts a number into a cell, where there are so few cells that it can be read."""
    if len(mesh.cells) < 150:
        picture.label(centre(mesh, corners), number, 8 if len(mesh.cells) < 100 else 4)


def draw_mesh(mesh, problem):
    """Cells by material with their numbers, boundary faces by what the problem says of their id, hanging nodes."""
    kinds = {int(row[1]): row[0] for row in problem if row[0] in ("robin", "dirichlet")}
    picture = Picture(mesh.points.values())
    materials = sorted({material for material, _ in mesh.active()})
    for number, (material, corners) in enumerate(mesh.active()):
        fill = FILLS[materials.index(material) % len(FILLS)]
        picture.polygon([mesh.points[corners[k]] for k in AROUND], fill)
        label_cell(picture, mesh, corners, number)
    for (a, b), number in mesh.boundary():
        picture.line(mesh.points[a], mesh.points[b], EDGES[kinds.get(number, "")])
    for name in mesh.dofs():
        if name in mesh.hanging():
            picture.circle(mesh.points[name], "white", 4)
    return picture.text()


def draw_colors(mesh, output):
    """Cells in the colours that the program gave them, with the number of the colour."""
    rows = [[int(word) for word in row] for row in words_of(output)[1:]]
    if len(rows) != len(mesh.cells):
        raise SystemExit(f"the program names {len(rows)} cells, and {len(mesh.cells)} stand here")
    picture = Picture(mesh.points.values())
    for (_, corners), (_, _, color) in zip(mesh.active(), rows):
        picture.polygon([mesh.points[corners[k]] for k in AROUND], FILLS[color % len(FILLS)])
        label_cell(picture, mesh, corners, color)
    return picture.text()


def draw_pattern(output):
    """A square for each entry, the first row at the top."""
    rows = [row for row in words_of(output) if not row[0].startswith("%")]
    size = int(rows[0][0])
    picture = Picture([(0, 0), (size, size)])
    side = f"{picture.scale:.2f}"
    squares = []
    for i, j in ((int(row[0]), int(row[1])) for row in rows[1:]):
        x, y = picture.place((j - 1, size - i + 1))
        squares.append(f"M{x} {y}h{side}v{side}h-{side}z")
    length = f"{size * picture.scale:.0f}"
    picture.rows.append(f'<path d="{"".join(squares)}" fill="#1d3557"/>')
    picture.rows.append(f'<rect x="{picture.margin}" y="{picture.margin}" width="{length}" height="{length}" '
                        f'fill="none" stroke="#444"/>')
    return picture.text()


def output_of(chosen, mode):
    """What the program writes in a mode."""
    words = [chosen.program, "--mode", mode, "--mesh", chosen.mesh]
    words += ["--problem", chosen.problem] if chosen.problem else []
    done = subprocess.run(words, capture_output=True, text=True)
    if done.returncode != 0:
        raise SystemExit(done.stderr.strip() or f"status {done.returncode}")
    return done.stdout


def main():
    parser = argparse.ArgumentParser(description=__doc__, formatter_class=argparse.RawDescriptionHelpFormatter)
    parser.add_argument("what", choices=["mesh", "colors", "pattern"])
    parser.add_argument("--mesh", required=True)
    parser.add_argument("--problem")
    parser.add_argument("--program", default=str(PROGRAM), help="the program (default: ./assemble of the repository)")
    chosen = parser.parse_args()
    if chosen.what == "pattern":
        sys.stdout.write(draw_pattern(output_of(chosen, "pattern")))
        return
    mesh = Mesh(Path(chosen.mesh).read_text())
    problem = words_of(Path(chosen.problem).read_text()) if chosen.problem else []
    for row in problem:
        if row[0] == "refine":
            mesh.refine([int(word) for word in row[1:]])
    sys.stdout.write(draw_mesh(mesh, problem) if chosen.what == "mesh" else
                     draw_colors(mesh, output_of(chosen, "colors")))


if __name__ == "__main__":
    main()
