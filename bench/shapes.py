#!/usr/bin/env python3
"""Runs the program on inputs whose shape costs much, each at two sizes, and prints the seconds of both and their quotient beside that of the bytes which
are read and written.

    shapes.py PROGRAM [WORD ..]    all shapes, or those whose names have one of the words

It fails where the program is killed, takes more than LIMIT seconds, answers by a status that such an input can't have, or where the seconds grow
more than RATIO times as fast as the bytes. Seconds below FLOOR are not judged.
"""
import os
import resource
import subprocess
import sys
import tempfile

sys.path.insert(0, os.path.join(os.path.dirname(os.path.abspath(__file__)), "..", "samples"))
import debug_shapes
import module_shapes

RATIO = 2.0
FLOOR = 0.1
LIMIT = 120
ROUNDS = 3
MEMORY = 12 << 30
STATUSES = {"check": {0, 5, 13}, "run": {0, 1, 9}, "instrument": {0, 13}, "show": {0}, "debug": {0}}


def limited():
    resource.setrlimit(resource.RLIMIT_AS, (MEMORY, MEMORY))


def seconds_of(program, words, folder):
    """The processor seconds of one run, its status, and the bytes that it prints."""
    before = resource.getrusage(resource.RUSAGE_CHILDREN)
    run = subprocess.run([program, *words], cwd=folder, stdout=subprocess.PIPE, timeout=LIMIT, preexec_fn=limited)
    after = resource.getrusage(resource.RUSAGE_CHILDREN)
    return after.ru_utime + after.ru_stime - before.ru_utime - before.ru_stime, run.returncode, len(run.stdout)


def measured(program, make, size):
    """The least seconds of some rounds, the status, and the bytes that are read and written."""
    with tempfile.TemporaryDirectory() as folder:
        contents, words = make(size)
        for title, held in contents.items():
            with open(os.path.join(folder, title), "wb") as out:
                out.write(held)
        runs = [seconds_of(program, words, folder) for _ in range(ROUNDS)]
        read = sum(len(held) for held in contents.values()) + sum(map(len, words))
        written = sum(os.path.getsize(os.path.join(folder, title)) for title in os.listdir(folder) if title not in contents)
        return min(run[0] for run in runs), runs[0][1], read + written + runs[0][2]


def judged(program, shape):
    """Prints a line, and says whether the shape passes."""
    title, make, small, large = shape
    try:
        first, status, fewer = measured(program, make, small)
        last, other, more = measured(program, make, large)
    except subprocess.TimeoutExpired:
        print(f"{title}: more than {LIMIT} s", flush=True)
        return False
    times, grown = last / max(first, 0.001), more / fewer
    wanted = STATUSES[title.split(":")[0]]
    is_status = status in wanted and other in wanted
    passes = is_status and (last < FLOOR or times <= RATIO * grown)
    told = "" if is_status else f", status {status}, {other}"
    print(f"{title}: {first:.2f} s, {last:.2f} s, {times:.1f} times, bytes {more}, {grown:.1f} times{told}{'' if passes else '  <--'}", flush=True)
    return passes


def main():
    program, words = os.path.abspath(sys.argv[1]), sys.argv[2:]
    shapes = [s for s in module_shapes.SHAPES + debug_shapes.SHAPES if not words or any(word in s[0] for word in words)]
    wrong = [shape[0] for shape in shapes if not judged(program, shape)]
    print(f"{len(shapes)} shapes, {len(wrong)} of them do not pass")
    sys.exit(1 if wrong else 0)


main()
