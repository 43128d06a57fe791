"""Random texts of vectors, in the array format of Matrix Market, that fit a number of values or don't, and with faults of each kind."""

BANNER = "%%MatrixMarket matrix array integer general"

# Texts that are short or wrong at their front.
BARE = [b"", b"\n", b"%%MatrixMarket\n", BANNER.encode(), BANNER.encode() + b"\n", BANNER.encode() + b"\n% x\n0 1\n", b"\xff\n"]


def some_value(rng, limit):
    """A value, mostly small, at times at the limit or just above it in size."""
    kind = rng.random()
    if kind < 0.6:
        return rng.randint(-3, 3)
    if kind < 0.98:
        return rng.randint(-limit, limit)
    return rng.choice([limit, -limit]) if kind < 0.9995 else rng.choice([limit + 1, -limit - 1])


def linear(rng, size):
    """Values that rise by a step, so that a jump is small in most places."""
    start, step = rng.randint(-1000, 1000), rng.randint(-65536, 65536)
    return [start + step * k for k in range(size)]


def random_values(rng, size, limit):
    """As many values, or at times one more or fewer."""
    if rng.random() < 0.05:
        size = max(0, size + rng.choice([-1, 1, 5, -size]))
    if rng.random() < 0.2 and size < 1000:
        return linear(rng, size)
    return [some_value(rng, limit) for _ in range(size)]


def random_vector_text(rng, size, limit):
    """The text of random values, with blank lines and comments where they may stand, at times with a fault."""
    if rng.random() < 0.01:
        return rng.choice(BARE)
    values = random_values(rng, size, limit)
    lines = [BANNER] + ["% unit 2^-32"] * rng.choice([0, 1, 2]) + [f"{len(values)} 1"] + [str(value) for value in values]
    for _ in range(rng.choice([0, 0, 0, 1, 2])):
        lines.insert(rng.randint(1, len(lines)), rng.choice(["", "  ", "\t"]))
    if rng.random() < 0.04:
        place = rng.randint(0, len(lines) - 1)
        lines[place] = rng.choice(["x", "1 2", "+1", "1.0", "", "170141183460469231731687303715884105728", f"{len(values)} 2", "% late"])
    if rng.random() < 0.02:
        del lines[-1]
    if rng.random() < 0.02:
        lines.append(rng.choice(["0", "% end", "x"]))
    return ("\n".join(lines) + rng.choice(["\n", "", "\r\n"])).encode()
