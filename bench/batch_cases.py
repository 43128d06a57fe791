"""Random batches: the words, the text of a batch, and the texts of its jobs."""
from mesh_cases import random_mesh, random_mesh_text
from msh_cases import random_msh_text
from problem_cases import random_problem_text
from word_cases import spelled_words, with_fault

BATCH_WORDS = [["--mesh", "mesh0.inp"], ["--mode=serial"], ["--batch=batch.txt"], ["--summary"], ["--workers=65"], ["--workers=0"],
               ["--digits=1"], ["--rhs=r.mtx"], ["--scratch=1"], ["--generate=2"], ["--batch"], ["--batch="]]
LINES = [b"", b" ", b"\t", b"# a comment", b"# \xff", b"\xff\xfe", b" # no comment", b"--mesh", b"--mode ordered --mesh mesh0.inp",
         b"--mesh mesh0.inp --workers 2", b"--generate 3", b"--mesh -", b"--mesh=mesh0.inp --problem=-", b"--mesh mesh0.inp --batch b",
         b"--mode mesh --mesh mesh0.inp", b"--mesh mesh0.inp --subdomain 1", b"--mesh mesh0.inp --matrix m.mtx", b"--problem problem0.txt",
         b"--mesh mesh0.inp --mesh mesh0.inp", b"--summary --mode pattern --mesh mesh0.inp"]


def random_job(rng, count):
    """The settings of a job over some of `count` meshes and problems."""
    mode = rng.choice(["serial", "serial", "serial", "pattern", "colors"])
    chosen = [("--mode", mode)] if mode != "serial" or rng.random() < 0.5 else []
    number, form = rng.randrange(count), rng.choice(["ucd", "ucd", "msh"])
    names = [f"mesh{number}.{'msh' if form == 'msh' else 'inp'}"] * 60 + ["batch.txt", "absent.inp"]
    chosen.append(("--mesh", rng.choice(names)))
    if form == "msh" or rng.random() < 0.2:
        chosen.append(("--format", form))
    if rng.random() < 0.7:
        chosen.append(("--problem", rng.choice([f"problem{number}.txt"] * 60 + ["absent.txt", "batch.txt", "mesh0.inp"])))
    if rng.random() < 0.3:
        chosen.append(("--digits", rng.choice(["0", "1", "5", "24", "53"])))
    if rng.random() < 0.5:
        chosen.append(("--faces", rng.choice(["none", "once", "both"])))
    if rng.random() < 0.3:
        chosen.append(("--degree", rng.choice(["1", "2"])))
    if mode == "serial" and rng.random() < 0.3:
        chosen.append(("--summary", None))
    rng.shuffle(chosen)
    return chosen


def job_line(rng, count):
    """The line of a job; its words are parted by one blank or more."""
    words = [word.encode() for word in spelled_words(rng, random_job(rng, count))]
    line = rng.choice([b"", b"", b" ", b"\t"])
    for word in words:
        line += word + rng.choice([b" ", b" ", b"  ", b"\t", b" \t "])
    return line if rng.random() < 0.3 else line.rstrip()


def random_batch_text(rng, count, faults):
    """The text of a batch over `count` meshes and problems."""
    lines = [job_line(rng, count) for _ in range(rng.choice([0, 1, 1, 2, 3, 4, 6, 10]))]
    for _ in range(rng.choice([0, 0, 1, 2])):
        lines.insert(rng.randint(0, len(lines)), rng.choice(LINES[:5]))
    for _ in range(faults):
        lines.insert(rng.randint(0, len(lines)), rng.choice(LINES))
    end = rng.choice([b"\n", b"\n", b"\n", b"\r\n"])
    return end.join(lines) + rng.choice([end, b""])


def random_batch_words(rng, faults):
    """The words of a batch, and the name of the text that standard input gives or None."""
    name = rng.choice(["batch.txt"] * 12 + ["-"] * 4 + ["absent.txt", "."])
    chosen = [("--batch", name)]
    if rng.random() < 0.7:
        chosen.append(("--workers", rng.choice(["1", "2", "3", "8", "64"])))
    if rng.random() < 0.4:
        chosen.append(("--matrix", rng.choice(["-", "m.txt", "m.txt", "mesh0.inp", "none/m.txt"])))
    rng.shuffle(chosen)
    words = spelled_words(rng, chosen)
    for _ in range(faults):
        at = rng.randint(0, len(words))
        words = words[:at] + rng.choice(BATCH_WORDS) + words[at:] if rng.random() < 0.7 else with_fault(rng, words)
    return words, "batch.txt" if name == "-" else None


def random_texts(rng, count, faults):
    """So many meshes in two formats with a problem for each, by name; `faults` says how many faults the texts of the next one have."""
    texts = {}
    for number in range(count):
        fault, mesh = faults(), random_mesh(rng)
        texts[f"mesh{number}.inp"] = random_mesh_text(rng, mesh, fault)
        texts[f"mesh{number}.msh"] = random_msh_text(rng, mesh, fault)
        texts[f"problem{number}.txt"] = random_problem_text(rng, mesh, fault)
    return texts


def random_batch(rng):
    """Words, the texts of the folder by name, and the name of the text that standard input gives or None."""
    count = rng.choice([1, 2, 3])
    where = rng.choices(["none", "texts", "lines", "words"], [10, 4, 4, 2])[0]
    texts = random_texts(rng, count, lambda: 1 if where == "texts" and rng.random() < 0.5 else 0)
    texts["batch.txt"] = random_batch_text(rng, count, 1 if where == "lines" else 0)
    words, given = random_batch_words(rng, 1 if where == "words" else 0)
    return words, texts, given
