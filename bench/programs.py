"""Runs of the program: what one run wrote, its status, its time and its memory."""
import os
import shlex
import subprocess
import time
from concurrent.futures import ThreadPoolExecutor
from dataclasses import dataclass, field
from pathlib import Path

TOP = Path(__file__).resolve().parent.parent
BUILT = TOP / "crates" / "assemble_cli" / "out" / "assemble_cli"


@dataclass(frozen=True)
class Run:
    """What one run did: its status, its two streams, and the files of its folder by name after it."""
    status: int | None  # None where the run passed its limit and was ended
    out: bytes
    err: bytes
    files: dict = field(default_factory=dict)


@dataclass(frozen=True)
class Cost:
    """What one run took: wall time and processor time in seconds, peak memory in bytes."""
    seconds: float
    processor: float
    peak: int


def add_program_options(parser, peer):
    """The options that say which programs run; a peer is `required`, `optional` or `none`."""
    parser.add_argument("--program", default=str(BUILT), metavar="PROGRAM",
                        help="the program (default: the one that ./assemble builds)")
    if peer != "none":
        parser.add_argument("--peer", required=peer == "required", metavar="PROGRAM",
                            help="another program with the same words")


def add_case_options(parser, count, limit):
    """The options that say which random cases run, how many at a time, and how long one may take."""
    parser.add_argument("--count", type=int, default=count, help=f"cases (default {count})")
    parser.add_argument("--seed", type=int, default=1)
    parser.add_argument("--first", type=int, default=0, help="the first case's number")
    parser.add_argument("--only", type=int, metavar="K", help="case K alone")
    parser.add_argument("--keep", metavar="FOLDER", help="leave the texts of case K there")
    parser.add_argument("--limit", type=float, default=limit, help=f"seconds for a run (default {limit:g})")
    parser.add_argument("--jobs", type=int, default=1, help="cases at a time")


def in_turn(chosen, work):
    """What `work` gives for the number of each chosen case, in their order."""
    first, count = (chosen.first, chosen.count) if chosen.only is None else (chosen.only, 1)
    with ThreadPoolExecutor(chosen.jobs) as pool:
        yield from pool.map(work, range(first, first + count))


def told(kinds):
    """Prints how often each kind of end came."""
    for kind, times in sorted(kinds.items()):
        print(f"{times:7}  {kind}")


def kept(folder, texts, words, given=None):
    """Leaves texts by name in a folder, and prints how to run the words there."""
    Path(folder).mkdir(parents=True, exist_ok=True)
    placed(texts, folder)
    tail = f" < {given}" if given else ""
    print(f"cd {shlex.quote(str(folder))} && assemble {shlex.join(words)}{tail}")


def placed(texts, folder):
    """Writes texts by name to a folder."""
    for name, text in texts.items():
        Path(folder, name).write_bytes(text)


def run_in(folder, program, words, given=b"", limit=60.0):
    """One run in a folder that has the texts to read; the files of the run are all that stand there after it."""
    try:
        done = subprocess.run([program, *words], input=given, capture_output=True, cwd=folder, timeout=limit)
    except subprocess.TimeoutExpired as ended:
        return Run(None, ended.stdout or b"", ended.stderr or b"", held_in(folder))
    return Run(done.returncode, done.stdout, done.stderr, held_in(folder))


def held_in(folder):
    """The files of a folder by name."""
    return {entry.name: entry.read_bytes() for entry in sorted(Path(folder).iterdir()) if entry.is_file()}


def cost_of(program, words):
    """One run whose output is dropped, and what it took. A status other than 0 ends the script.

    The system counts the peak from the script's own memory on: see `least_peak`.
    """
    with open(os.devnull, "r+b") as nothing:
        start = time.perf_counter()
        child = subprocess.Popen([program, *words], stdin=nothing, stdout=nothing)
        _, code, usage = os.wait4(child.pid, 0)
        seconds = time.perf_counter() - start
    child.returncode = os.waitstatus_to_exitcode(code)
    if child.returncode != 0:
        raise SystemExit(f"status {child.returncode} of {program} {' '.join(words)}")
    return Cost(seconds, usage.ru_utime + usage.ru_stime, usage.ru_maxrss * 1024)


def least_peak():
    """The peak that the system counts for a program that takes nearly no memory."""
    return cost_of("true", []).peak
