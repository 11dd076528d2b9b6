#!/usr/bin/env python3
"""Runs `debug` on modules of which a reader could take the product of two counts, each at two sizes, and prints for both the processor seconds, by how
much these grow more than the bytes, and the memory for each byte of module and dump.

    costs.py PROGRAM [WORD ..]    all shapes, or those whose names have one of the words

A line has `<--` and what is wrong with it where the program is stopped or answers by another status than 0, where the seconds of the larger size are
more than LONGEST, where they grow more than RATIO times as fast as the bytes (below FLOOR they are not judged), and where the memory is more than
MOST bytes for a byte. It is stopped behind LIMIT seconds or where it asks for more than MEMORY GB of addresses. SMALL and LARGE in the environment
are the bytes of the two sizes, and MEMORY is there too, 0 for any; `time` of GNU measures the memory.
"""
import os
import resource
import subprocess
import sys
import tempfile

sys.path.insert(0, os.path.join(os.path.dirname(os.path.abspath(__file__)), "..", "samples"))
import debug_products

SIZES = [int(os.environ.get("SMALL", 1_000_000)), int(os.environ.get("LARGE", 4_000_000))]
MEMORY = int(os.environ.get("MEMORY", 4)) << 30
RATIO, FLOOR, LONGEST, LIMIT, MOST = 1.3, 0.2, 2, 20, 64
# A run that is shorter is made this often, and the least of its seconds counts.
SHORT, ROUNDS = 1, 3


class Stopped(Exception):
    """Why a run has no answer."""


def limited():
    resource.setrlimit(resource.RLIMIT_CPU, (LIMIT, LIMIT + 1))
    if MEMORY:
        resource.setrlimit(resource.RLIMIT_AS, (MEMORY, MEMORY))


def seconds_now():
    used = resource.getrusage(resource.RUSAGE_CHILDREN)
    return used.ru_utime + used.ru_stime


def one_run(program, words, folder):
    """The processor seconds of a run, its memory in bytes, and the bytes that it prints. The memory of a process that this one starts would count what
    this one has, so `time` stands between them."""
    told, printed = os.path.join(folder, "time"), os.path.join(folder, "printed")
    before = seconds_now()
    with open(printed, "wb") as out:
        run = subprocess.run(["/usr/bin/time", "-q", "-f", "%M", "-o", told, program, *words], cwd=folder, stdout=out, preexec_fn=limited, check=False)
    seconds = seconds_now() - before
    if seconds > LIMIT - 0.5:
        raise Stopped(f"more than {LIMIT} s")
    if run.returncode:
        raise Stopped("out of memory" if run.returncode == 15 else f"status {run.returncode}")
    with open(told, encoding="ascii") as lines:
        return seconds, int(lines.read()) * 1024, os.path.getsize(printed)


def measured(program, make, size):
    """The least seconds of some rounds, the memory for each byte of the files, and the bytes that are read and written."""
    with tempfile.TemporaryDirectory() as folder:
        contents, words = make(size)
        for title, held in contents.items():
            with open(os.path.join(folder, title), "wb") as out:
                out.write(held)
        files = sum(map(len, contents.values()))
        contents.clear()
        seconds, memory, printed = one_run(program, words, folder)
        for _ in range(1, ROUNDS if seconds < SHORT else 1):
            seconds = min(seconds, one_run(program, words, folder)[0])
        return seconds, memory / files, files + sum(map(len, words)) + printed


def faults(small, large):
    """What is wrong with what was measured at both sizes."""
    growth = large[0] / max(small[0], 0.001) / (large[2] / small[2])
    if large[0] > LONGEST:
        yield "time"
    if large[0] > FLOOR and growth > RATIO:
        yield "growth"
    if max(small[1], large[1]) > MOST:
        yield "memory"


def judged(program, title, make):
    """Prints a line, and says whether the shape passes."""
    runs, wrong = [], []
    try:
        for size in SIZES:
            runs.append(measured(program, make, size))
        wrong = list(faults(*runs))
    except Stopped as why:
        wrong = [str(why)]
    told = [f"{bytes_} bytes {seconds:.2f} s, {memory:.1f} bytes a byte" for seconds, memory, bytes_ in runs]
    if len(runs) == 2:
        told.append(f"grows by {runs[1][0] / max(runs[0][0], 0.001) / (runs[1][2] / runs[0][2]):.2f}")
    print(f"debug: {title}: {'; '.join(told) or 'stopped'}{'  <-- ' + ', '.join(wrong) if wrong else ''}", flush=True)
    return not wrong


def main():
    program, words = os.path.abspath(sys.argv[1]), sys.argv[2:]
    shapes = [shape for shape in debug_products.SHAPES if not words or any(word in shape[0] for word in words)]
    failed = [title for title, make in shapes if not judged(program, title, make)]
    print(f"{len(shapes)} shapes of `debug`, {len(failed)} of them marked")
    sys.exit(1 if failed else 0)


main()
