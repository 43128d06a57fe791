"""Random mesh texts in MSH 2.2: sections that are read and others, in the many spellings, and with faults of each kind."""
from decimal import Decimal

from mesh_cases import as_text, spelled, with_fault

# Sections that are passed over, each with its lines.
OTHERS = [["$PhysicalNames", "1", '2 1 "body"', "$EndPhysicalNames"], ["$Comments", "made by a writer", "$Nodes", "$EndComments"],
          ["$Comments", "$EndComment", "$End", "$EndComments and more"], ["$", "x", "$End"], ["$x y", "$Endx"],
          ["$Periodic", "0", "$EndPeriodic"], ["$EndX", "$EndEndX"], ["$NodesAndMore", "$EndNodesAndMore"]]

# Texts that are short or large, for their ends and their counts.
BARE = [b"", b"\n", b"$MeshFormat\n", b"$MeshFormat\n2.2 0 8\n", b"$MeshFormat\n2.2 0 8\n$EndMeshFormat\n",
        b"$MeshFormat\n2.2 0 8\n$EndMeshFormat\n$Nodes\n0\n$EndNodes\n$Elements\n0\n$EndElements",
        b"$MeshFormat\n2.2 0 8\n$EndMeshFormat\n$Nodes\n1048577\n", b"$MeshFormat\n2.2 0 8\n$EndMeshFormat\n$Nodes\n1048576\n",
        b"$MeshFormat\n2.2 0 8\n$EndMeshFormat\n$Nodes\n0\n$EndNodes\n$Elements\n2097153\n",
        b"$MeshFormat\n2.2 0 8\n$EndMeshFormat\n$Nodes\n0\n$EndNodes\n$Elements\n2097152\n", b"$x\n", b"x\n", b"\xff$\n"]


def tags(rng, number, free):
    """How many tags, and the tags; the first is the number."""
    if not free:
        return f"2 {number} {number}"
    more = [str(rng.choice([0, 1, 2, 17, 4294967295])) for _ in range(rng.choice([0, 1, 1, 1, 2, 5]))]
    return " ".join([str(1 + len(more)), str(number), *more])


def element_lines(rng, mesh, free):
    """The lines of the elements without their numbers; points stand among them."""
    elements = []
    for four, material in mesh.cells:
        front = "0" if free and rng.random() < 0.05 else tags(rng, material, free)
        elements.append(f"3 {front} {' '.join(str(mesh.ids[k]) for k in four)}")
    for ends, at in mesh.lines:
        place = rng.randint(0, len(elements)) if free else 0
        elements.insert(place, f"1 {tags(rng, at, free)} {mesh.ids[ends[0]]} {mesh.ids[ends[1]]}")
    for _ in range(rng.choice([0, 0, 1, 3])):
        place = rng.randint(0, len(elements)) if free else 0
        elements.insert(place, f"15 {tags(rng, 3, free)} {rng.choice(mesh.ids)}")
    return elements


def sections(rng, mesh):
    """The three sections that are read, each as a list of lines."""
    free = rng.random() < 0.6
    number = (lambda value: spelled(rng, value)) if free else (lambda value: f"{value:f}")
    nodes = [f"{i} {number(x)} {number(y)} {number(Decimal(0))}" for i, (x, y) in zip(mesh.ids, mesh.places)]
    elements = [f"{1 + k} {element}" for k, element in enumerate(element_lines(rng, mesh, free))]
    return [["$MeshFormat", f"2.2 0 {rng.choice([8, 8, 8, 4])}", "$EndMeshFormat"],
            ["$Nodes", str(len(nodes)), *nodes, "$EndNodes"],
            ["$Elements", str(len(elements)), *elements, "$EndElements"]]


BAD_LINES = ["$Nodes", "$EndNodes", "$Elements", "$EndElements", "$MeshFormat", "$EndMeshFormat", "$End", "$", "$Other", "$EndOther",
             "2.2 0 8", "4.1 0 8", "2.2 1 8", "2.20 0 8", "2.2 0", "0", "1", "1 15 0 1", "1 2 2 1 1 1 2 3", "1 3 0 1 2 3 4",
             "1 1 -1 1 2", "1 1 2 -7 1 1 2", "01 01 01 1 1 2", "1 3", "1 16 0 1", "1 1 4294967296 1 2", "nodes", "# x", "4294967295"]


def with_section_fault(rng, parts):
    """The sections with one change to their order, their ends or their counts, which is a fault mostly."""
    parts = [list(part) for part in parts]
    at = rng.randrange(len(parts))
    kind = rng.randrange(7)
    if kind == 0:
        del parts[at]
    elif kind == 1:
        parts.insert(at, list(rng.choice(parts)))
    elif kind == 2:
        parts[at][0], parts[at][-1] = rng.choice(BAD_LINES), parts[at][-1]
    elif kind == 3:
        parts[at][-1] = rng.choice(BAD_LINES)
    elif kind == 4:
        parts[at][1:2] = [rng.choice(["0", "1", "3", "99999999999", "x", "-1", "4 4", "2.2 0 8", "1048577", "2097153"])]
    elif kind == 5:
        rng.shuffle(parts)
    else:
        parts[at].insert(rng.randint(0, len(parts[at])), rng.choice(BAD_LINES))
    return parts


def random_msh_text(rng, mesh, faults):
    """The text of a mesh in MSH, with some number of changes."""
    parts = sections(rng, mesh)
    changes = [rng.random() < 0.4 for _ in range(faults)]
    for _ in range(sum(changes)):
        parts = with_section_fault(rng, parts) if parts else parts
    lines = []
    for part in parts:
        while rng.random() < 0.15:
            lines += rng.choice(OTHERS)
        lines += part
    for _ in range(len(changes) - sum(changes)):
        lines = with_fault(rng, lines)
    if rng.random() < 0.2:
        lines += rng.choice([["$NodeData", "0", "$EndNodeData"], ["x"], ["$Nodes"], ["$Open"]])
    return as_text(rng, lines, comments=False)
