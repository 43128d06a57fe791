"""Random problem texts for a mesh: every word, in the many spellings, and with faults of each kind."""
from decimal import Decimal

from mesh_cases import as_text, spelled, with_fault

VALUES = ["1", "0.5", "3", "0.001", "0", "-1", "2", "16384", "32768", "-32768", "0.0000152587890625", "0.33333", "17.25"]
SUBDOMAINS = [0, 1, 2, 5, 4294967295]
WEIGHTS = ["1", "0.5", "-1", "0.25", "2", "16", "-16", "0.3333", "0", "0.00001", "3"]


def value(rng):
    return spelled(rng, Decimal(rng.choice(VALUES)))


def weight(rng):
    return spelled(rng, Decimal(rng.choice(WEIGHTS)))


def coefficient_lines(rng):
    lines = []
    for material in range(4):
        for word in ("diffusion", "source"):
            if rng.random() < 0.3:
                lines.append(f"{word} {material} {value(rng)}")
        if rng.random() < 0.4:
            lines.append(f"subdomain {material} {rng.choice(SUBDOMAINS)}")
    for boundary in (0, 1, 2, 7, 4294967295):
        if rng.random() < 0.25:
            lines.append(f"robin {boundary} {value(rng)} {value(rng)}")
        if rng.random() < 0.2:
            lines.append(f"dirichlet {boundary} {value(rng)}")
    if rng.random() < 0.4:
        lines.append(f"penalty {value(rng)}")
    return lines


def refine_lines(rng, cells):
    """Steps that ask for cells that stand by then, and now and then for one that doesn't."""
    if rng.random() < 0.04:
        return [f"refine {rng.choice([0, cells - 1])}"] * rng.choice([5, 13, 32, 33])
    lines = []
    for _ in range(rng.choice([0, 0, 1, 1, 2, 3, 4])):
        asked = [rng.randrange(max(1, cells)) for _ in range(rng.choice([1, 1, 2, 3]))]
        if rng.random() < 0.05:
            asked[rng.randrange(len(asked))] = 4 * cells + 100
        lines.append("refine " + " ".join(str(number) for number in asked))
        cells += 3
    return lines


def term(rng, ids):
    unknown = rng.random() < 0.02
    return f"{weight(rng)}*{4000000000 if unknown else rng.choice(ids)}"


def constraint_lines(rng, ids):
    """Lines for a few nodes: chains, cycles, long ones and constants alone."""
    lines = []
    for _ in range(rng.choice([0, 0, 0, 0, 0, 1, 1, 2, 3, 8])):
        count = rng.choice([0, 1, 1, 2, 2, 4]) if rng.random() < 0.95 else rng.choice([15, 16, 17])
        parts = [term(rng, ids) for _ in range(count)]
        if count == 0 or rng.random() < 0.3:
            parts.append(value(rng))
        lines.append(f"constraint {rng.choice(ids)} = {' + '.join(parts)}")
    return lines


def extreme_lines(rng, mesh):
    """Large coefficients and weights, whose local entries and sums pass the limits on long flat cells."""
    lines = [f"diffusion {material} {rng.choice(['32768', '32768', '16384'])}"
             for material in sorted({material for _, material in mesh.cells})]
    to = mesh.cells[0][0][0]
    for four, _ in mesh.cells:
        here = rng.choice([k for k in four if k != to])
        if rng.random() < 0.8:
            lines.append(f"constraint {mesh.ids[here]} = {rng.choice(['16', '16', '-16', '1'])}*{mesh.ids[to]}")
    return lines


def long_lines(rng, ids):
    """Lines that name each other, so that closed ones have many terms or large weights."""
    nodes = rng.sample(ids, min(len(ids), 24))
    first, masters, rest = nodes[0], nodes[1:4], nodes[4:]
    if not rest:
        return [f"constraint {first} = 16*{masters[0]}", f"constraint {masters[0]} = {weight(rng)}*{masters[1]}"]
    lines = [f"constraint {first} = " + " + ".join(f"{weight(rng)}*{node}" for node in masters)]
    for k, node in enumerate(masters):
        lines.append(f"constraint {node} = " + " + ".join(f"1*{other}" for other in rest[k::3]))
    return lines


def random_problem_text(rng, mesh, faults):
    """A problem for the mesh, with some number of changes."""
    steps = refine_lines(rng, len(mesh.cells))
    kind = rng.random()
    if kind < 0.05:
        lines, steps = long_lines(rng, mesh.ids), []
    elif kind < (0.9 if mesh.extreme else 0.06):
        lines, steps = extreme_lines(rng, mesh), []
    else:
        lines = coefficient_lines(rng) + constraint_lines(rng, mesh.ids)
    rng.shuffle(lines)
    lines = steps + lines if rng.random() < 0.5 else lines + steps
    for _ in range(faults):
        lines = with_fault(rng, lines)
    if faults and lines and rng.random() < 0.3:
        lines.append(rng.choice(["constraint 1 = 1*2 + 3 + 1*3", "constraint 1 = 1**2", "constraint 1 =", "refine",
                                 "constraint 1 = *2", "constraint 1 = 1*", "constraint 1 = 1*2 + +", "Penalty 1",
                                 "constraint 1 = 17*2", "penalty 32768.00001", "constraint 1 = 1*2 +",
                                 "subdomain 1", "subdomain 0 0.5", "subdomain 0 4294967296"]))
    return as_text(rng, lines, comments=True)
