"""Random meshes of a few cells, as texts in the many spellings that the grammar allows, and with faults of each kind."""
from dataclasses import dataclass
from decimal import Decimal
from math import cos, pi, sin

TICK = Decimal(1) / 65536


@dataclass
class Mesh:
    """Places of nodes, cells as four positions of nodes with a material, lines as two positions with a boundary id."""
    places: list
    cells: list
    lines: list
    ids: list
    extreme: bool  # whether its cells are so long and flat that entries and sums may pass their limits


def grid(rng):
    """A grid of a few cells, some left out, with inner nodes moved."""
    columns, rows = rng.choice([(1, 1), (2, 1), (2, 2), (3, 2), (1, 3), (4, 3), (5, 4)])
    step = Decimal(rng.choice(["1", "2", "0.5", "0.25", "17", "200", "0.001"]))
    moved = rng.random() < 0.5
    places = []
    for j in range(rows + 1):
        for i in range(columns + 1):
            inner = moved and 0 < i < columns and 0 < j < rows
            by = [Decimal(rng.randint(-2, 2)) / 8 if inner else 0 for _ in range(2)]
            places.append(((i + by[0]) * step, (j + by[1]) * step))
    wide = columns + 1
    corners = [(i + wide * j, i + 1 + wide * j, i + 1 + wide * (j + 1), i + wide * (j + 1))
               for j in range(rows) for i in range(columns)]
    if rng.random() < 0.3:
        corners = [four for four in corners if rng.random() < 0.8] or corners
    return places, corners


def fan(rng):
    """Cells round one node, so that their faces meet turned against each other."""
    count = rng.randint(3, 6)
    radius = rng.choice([1, 3, 100])
    around = []
    for k in range(2 * count):
        size = radius * (1.0 if k % 2 == 0 else rng.uniform(1.05, 1.25))
        angle = pi * k / count
        around.append((Decimal(f"{size * cos(angle):.5f}"), Decimal(f"{size * sin(angle):.5f}")))
    places = [(Decimal(0), Decimal(0)), *around]
    return places, [(0, 1 + 2 * k, 2 + 2 * k, 1 + (2 * k + 2) % (2 * count)) for k in range(count)]


def apart(rng):
    """Cells that share no node, some of them triangles of a few ticks, which the local form of a cell may refuse."""
    places, corners = [], []
    for c in range(rng.randint(1, 6)):
        tiny = rng.random() < 0.3
        side = TICK * rng.choice([1, 1, 2, 3]) if tiny else Decimal(1)
        left = Decimal(10 * c)
        places += [(left, Decimal(0)), (left + side, Decimal(0)), (left if tiny else left + side, side), (left, side)]
        corners.append((4 * c, 4 * c + 1, 4 * c + 2, 4 * c + 3))
    return places, corners


def flat(rng):
    """One or two cells that are long and a tick high: local entries and sums get large."""
    long = Decimal(rng.choice([512, 1024, 1024]))
    left = rng.choice([Decimal(0), Decimal(0), -long])
    places, corners = [], []
    for c in range(rng.randint(1, 2)):
        places += [(left, Decimal(0)), (long, Decimal(0)), (long, TICK), (left, TICK)]
        corners.append((4 * c, 4 * c + 1, 4 * c + 2, 4 * c + 3))
    return places, corners


def doubled(rng):
    """Two cells or more on the same nodes, or cells that share an edge three times."""
    places = [(Decimal(x), Decimal(y)) for x, y in [(0, 0), (1, 0), (1, 1), (0, 1), (2, 0), (2, 1)]]
    corners = [(0, 1, 2, 3)] * rng.randint(2, 3)
    return places, corners + ([(1, 4, 5, 2)] if rng.random() < 0.5 else [])


def odd(rng):
    """A grid with a fault of the coarse mesh: a corner twice, no area, or a dent."""
    places, corners = grid(rng)
    at = rng.randrange(len(corners))
    four = list(corners[at])
    kind = rng.randrange(3)
    if kind == 0:
        four[rng.randrange(4)] = four[rng.randrange(4)]
    elif kind == 1:
        four[1], four[2] = four[2], four[1]
    else:
        a, b, c = (places[four[k]] for k in range(3))
        places[four[3]] = ((a[0] + c[0] + 2 * b[0]) / 4, (a[1] + c[1] + 2 * b[1]) / 4)
    corners[at] = tuple(four)
    return places, corners


SHAPES = [(grid, 12), (fan, 4), (apart, 2), (flat, 1), (doubled, 0.6), (odd, 0.6)]


def turned(rng, four):
    """The same cell from another corner on, or the other way round."""
    start = rng.randrange(4)
    around = list(four[start:]) + list(four[:start])
    return tuple(reversed(around)) if rng.random() < 0.3 else tuple(around)


def boundary_edges(cells):
    """The edges of one cell, and those of several."""
    seen = {}
    for four, _ in cells:
        for k in range(4):
            edge = frozenset((four[k], four[(k + 1) % 4]))
            seen[edge] = seen.get(edge, 0) + 1
    whole = sorted(tuple(sorted(edge)) for edge in seen if len(edge) == 2)
    return [e for e in whole if seen[frozenset(e)] == 1], [e for e in whole if seen[frozenset(e)] > 1]


def some_lines(rng, cells, nodes):
    """Lines on the boundary, some twice, on inner edges, and now and then with a fault."""
    outer, inner = boundary_edges(cells)
    lines = [(edge, rng.choice([0, 1, 2, 7, 4294967295])) for edge in outer if rng.random() < 0.5]
    if lines and rng.random() < 0.2:
        lines.append(rng.choice(lines))
    if lines and rng.random() < 0.03:
        edge, number = rng.choice(lines)
        lines.append((edge, (number + 1) % 4294967296))
    lines += [(edge, 3) for edge in inner if rng.random() < 0.1]
    if rng.random() < 0.03:
        lines.append(((rng.randrange(nodes), rng.randrange(nodes)), 1))
    rng.shuffle(lines)
    return [(ends if rng.random() < 0.5 else ends[::-1], number) for ends, number in lines]


def random_mesh(rng):
    shapes, weights = zip(*SHAPES)
    shape = rng.choices(shapes, weights)[0]
    places, corners = shape(rng)
    cells = [(turned(rng, four), rng.choice([0, 1, 1, 1, 2, 3])) for four in corners]
    if rng.random() < 0.3:
        rng.shuffle(cells)
    ids = list(range(1, len(places) + 1))
    if rng.random() < 0.5:
        ids = rng.sample(range(5 * len(ids)), len(ids))
        ids[0] = rng.choice([ids[0], 4294967295])
    return Mesh(places, cells, some_lines(rng, cells, len(places)), ids, shape is flat)


def spelled(rng, value):
    """A number in one of its spellings, with the same value."""
    plain = f"{value:f}"
    if "." in plain:
        plain = plain.rstrip("0").rstrip(".")
    plain = "0" if plain in ("", "-0") else plain
    sign, size = ("-", plain[1:]) if plain[0] == "-" else (rng.choice(["", "", "", "+"]), plain)
    kind = rng.randrange(8)
    if kind == 0 and "." not in size:
        size += rng.choice([".", ".0", ".000"])
    elif kind == 1 and size.startswith("0."):
        size = size[1:]
    elif kind == 2:
        size += rng.choice(["e0", "E+0", "e-00"])
    elif kind == 3:
        whole, _, part = size.partition(".")
        size = f"{whole}{part}{rng.choice('eE')}-{len(part)}"
    elif kind == 4:
        size = "0" + size
    return sign + size


def mesh_lines(rng, mesh):
    """The lines of the text, the header first."""
    free = rng.random() < 0.5
    number = (lambda value: spelled(rng, value)) if free else (lambda value: f"{value:f}")
    rows = [f"{i} {number(x)} {number(y)} {number(Decimal(0))}" for i, (x, y) in zip(mesh.ids, mesh.places)]
    elements = [f"{material} quad {' '.join(str(mesh.ids[k]) for k in four)}" for four, material in mesh.cells]
    for ends, at in mesh.lines:
        place = rng.randint(0, len(elements)) if free else len(elements)
        elements.insert(place, f"{at} line {mesh.ids[ends[0]]} {mesh.ids[ends[1]]}")
    header = f"{len(rows)} {len(elements)} {rng.choice(['0 0 0', '1 0 0', '0 2 3'])}"
    return [header] + rows + [f"{1 + k} {element}" for k, element in enumerate(elements)]


BAD_WORDS = ["x", "-1", "+1", "1.5", "", "4294967296", "99999999999", "nan", "1e", "e1", ".", "--1", "1e400", "1e99999",
             "12345678901234567890123456", "0x1", "quad", "line", "tri", "pt", "1025", "-1024.00002", "1048577",
             "00000000001", "0000000001", "1e-9999", "1e-99999", "2097153", "=", "#"]


def with_fault(rng, lines):
    """The lines with one change, which is a fault mostly."""
    lines = list(lines)
    at = rng.randrange(len(lines)) if lines else 0
    kind = rng.randrange(9)
    if not lines or kind == 0:
        return lines[:at]
    words = lines[at].split(" ")
    if kind in (1, 2, 3):
        words[rng.randrange(len(words))] = rng.choice(BAD_WORDS)
    elif kind == 4:
        del words[rng.randrange(len(words))]
    elif kind == 5:
        words.insert(rng.randint(0, len(words)), rng.choice(BAD_WORDS + ["1", "2"]))
    elif kind == 6:
        words = rng.choice(lines).split(" ")
    elif kind == 7:
        return lines[:at] + lines[at + 1:]
    else:
        return lines[:at] + [rng.choice(lines)] + lines[at:]
    lines[at] = " ".join(words)
    return lines


def as_text(rng, lines, comments):
    """The bytes of the lines: with blank lines, tabs, both ends of lines, and with or without the last one."""
    if rng.random() < 0.5:
        return "".join(f"{line}\n" for line in lines).encode()
    end = rng.choice(["\n", "\r\n"])
    rows = []
    for line in lines:
        while rng.random() < 0.05:
            rows.append(rng.choice(["", "  ", "\t"]))
        if comments and rng.random() < 0.05:
            rows.append("# a comment")
        blank = rng.choice([" ", "  ", "\t", " \t "])
        rows.append(rng.choice(["", "", blank]) + line.replace(" ", blank) + rng.choice(["", "", blank]))
    text = end.join(rows) + rng.choice(["", end, end, end + end])
    return text.encode()


def random_mesh_text(rng, mesh, faults):
    """The text of a mesh, with some number of changes."""
    lines = mesh_lines(rng, mesh)
    for _ in range(faults):
        lines = with_fault(rng, lines)
    if rng.random() < 0.2:
        lines += rng.choice([["1 1", "height, none", "1 0.25"], ["x"], ["#"]])
    before = b"".join(rng.choice([b"# a mesh\n", b"#\n", b"\n", b"#\r\n"]) for _ in range(rng.choice([0, 0, 0, 1, 3])))
    return before + as_text(rng, lines, comments=False)
