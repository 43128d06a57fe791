"""Random words of the program: every option in both spellings, and with faults of each kind."""

SUBDOMAINS = ["0", "0", "1", "2", "5", "00", "0000000001", "7", "4294967295"]
MODES = ["serial", "serial", "serial", "pattern", "colors", "colored", "ordered", "mesh"]
VECTOR_MODES = ["product", "product", "marks", "adapt"]


def some_settings(rng, vectors):
    """Settings that are accepted, as pairs of an option and a value; None is no value."""
    mode = rng.choice(VECTOR_MODES if rng.random() < vectors else MODES)
    chosen = [("--mode", mode)] if mode != "serial" or rng.random() < 0.5 else []
    for option, most, usual in (("--workers", 64, 4), ("--queue", 256, 8), ("--chunk", 64, 4), ("--scratch", 64, 4)):
        if rng.random() < 0.3:
            chosen.append((option, str(rng.choice([1, 2, usual, rng.randint(1, usual), most]))))
    if rng.random() < 0.3:
        chosen.append(("--digits", rng.choice(["0", "1", "5", "24", "53", "64", "00024"])))
    if rng.random() < 0.5:
        chosen.append(("--faces", rng.choice(["none", "once", "both"])))
    if rng.random() < 0.35:
        chosen.append(("--degree", "1" if mode in ("marks", "adapt") else rng.choice(["1", "2", "2", "2", "02"])))
    if mode in VECTOR_MODES:
        chosen.append(("--vector", rng.choice(["vector.mtx"] * 20 + ["absent.mtx"])))
    if mode in ("marks", "adapt") and rng.random() < 0.7:
        chosen.append(("--mark", rng.choice(["1", "2", "3", "05", "1048576", str(rng.randint(1, 9))])))
    return chosen + some_parts(rng) + some_outputs(rng, mode)


def some_parts(rng):
    """The options that say of which subdomain a run is, and what it does at its border."""
    if rng.random() < 0.6:
        return []
    chosen = [("--subdomain", rng.choice(SUBDOMAINS))]
    if rng.random() < 0.8:
        chosen.append(("--ghost", rng.choice(["none", "once", "both"])))
    if rng.random() < 0.4:
        chosen.append(("--ghost-cells", None))
    return chosen


def some_outputs(rng, mode):
    """The options that say what is written and where."""
    sums = mode not in ("pattern", "colors", "mesh", "product", "marks")
    if sums and rng.random() < 0.2:
        return [("--summary", None)]
    outputs = []
    if rng.random() < 0.3:
        outputs.append(("--matrix", rng.choice(["-", "m.mtx", "m.mtx", "a=b", "mesh.inp", "none/m.mtx"])))
    if sums and rng.random() < 0.5:
        outputs.append(("--rhs", rng.choice(["-", "-", "-", "r.mtx", "r.mtx", "none/r.mtx"])))
    return outputs


def some_sources(rng, msh):
    """The options that say what is read, and the name that standard input stands for, if any."""
    kind = rng.random()
    if kind < 0.06:
        seed = [("--seed", rng.choice(["0", "7", "18446744073709551615", str(rng.getrandbits(64))]))]
        form = [("--format", rng.choice(["ucd", "ucd", "ucd", "msh"]))] if rng.random() < 0.2 else []
        return [("--generate", str(rng.randint(1, 6)))] + (seed if rng.random() < 0.8 else []) + form, None
    if kind < 0.08:
        name = rng.choice(["absent.inp", ".", "none/mesh.inp"])
        return [("--mesh", name)], None
    name, form = ("mesh.msh", "msh") if rng.random() < msh else ("mesh.inp", "ucd")
    mesh = rng.choice([name, name, name, "-"])
    chosen = [("--mesh", mesh)]
    if form == "msh" or rng.random() < 0.2:
        chosen.append(("--format", form))
    if rng.random() < 0.01:
        chosen = [("--mesh", mesh), ("--format", rng.choice(["ucd", "msh"]))]
    given = name if mesh == "-" else None
    if rng.random() < 0.85:
        names = ["problem.txt"] * 12 + ["absent.txt"] + (["-"] * 4 if mesh != "-" else [])
        problem = rng.choice(names)
        chosen.append(("--problem", problem))
        given = "problem.txt" if problem == "-" else given
    return chosen, given


EXTRA = [["--fast"], ["--help"], ["--version"], ["--"], ["-"], ["x"], [""], ["--mode"], ["--summary", "x"],
         ["--summary="], ["--summary=1"], ["--summ"], ["--mesh"], ["--mesh="], ["--mesh", ""], ["--mesh=-x"],
         ["--rhs=-r"], ["--matrix", "--rhs"], ["--mode=fast"], ["--mode", "Serial"], ["--faces=all"], ["--workers=0"],
         ["--workers=65"], ["--workers", "+1"], ["--workers", "1 "], ["--workers", ""], ["--queue=0"], ["--queue=257"],
         ["--chunk=0"], ["--chunk=65"], ["--scratch=0"], ["--scratch=65"], ["--digits=65"], ["--digits=-1"],
         ["--digits=000000000000000000001"], ["--digits=99999999999999999999"], ["--generate=0"], ["--generate=513"],
         ["--seed=18446744073709551616"], ["--seed=1"], ["--summary"], ["--rhs=-"], ["--matrix=-"], ["--mode=ordered"],
         ["--matrix=r.mtx"], ["--rhs=m.mtx"], ["--format=msh"], ["--format=ucd"], ["--format", "MSH"], ["--format=avs"], ["--format="],
         ["--subdomain=1"], ["--subdomain=4294967296"], ["--subdomain=00000000001"], ["--subdomain", "-1"], ["--subdomain="],
         ["--ghost=once"], ["--ghost=all"], ["--ghost=none"], ["--ghost-cells"], ["--ghost-cells", "x"], ["--ghost-cells="],
         ["--mode=mesh"], ["--mode=product"], ["--mode=marks"], ["--mode=adapt"], ["--vector=vector.mtx"], ["--vector=-"],
         ["--mark=1"], ["--mark=0"], ["--mark=1048577"], ["--degree=2"], ["--degree=1"], ["--degree=0"], ["--degree", "3"],
         ["--problem=-"], ["--mesh=-"], ["--workers=00000000000000000004"]]


def spelled_words(rng, settings):
    """The settings as words, each in one of its two spellings."""
    words = []
    for option, value in settings:
        if value is None:
            words.append(option)
        elif rng.random() < 0.5:
            words.append(f"{option}={value}")
        else:
            words += [option, value]
    return words


def random_words(rng, faults, msh=0.3, vectors=0.0):
    """Words, and the name of the text that standard input gives or None; `msh` is how likely the mesh is in MSH, and `vectors` how
    likely the mode is one that takes a vector."""
    sources, given = some_sources(rng, msh)
    settings = some_settings(rng, vectors) + sources
    if given is None and ("--vector", "vector.mtx") in settings and rng.random() < 0.15:
        settings[settings.index(("--vector", "vector.mtx"))], given = ("--vector", "-"), "vector.mtx"
    rng.shuffle(settings)
    words = spelled_words(rng, settings)
    for _ in range(faults):
        words = with_fault(rng, words)
    return words, given


def with_fault(rng, words):
    """The words with one change, which is a fault mostly."""
    at = rng.randint(0, len(words))
    kind = rng.randrange(5)
    if kind < 2 or not words:
        return words[:at] + rng.choice(EXTRA) + words[at:]
    at = rng.randrange(len(words))
    if kind == 2:
        return words[:at] + words[at + 1:]
    if kind == 3:
        return words[:at] + [rng.choice(words)] + words[at:]
    return [] if rng.random() < 0.1 else words[:at]
