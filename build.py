#!/usr/bin/env python3
"""build.py TO: proves the crates that the program stands on, builds it, and copies it to the file TO.

The gate does the work, side by side on all processors, in a copy that stands in the user's cache and has neither must-fail edits nor crates
of tests. It keeps what passed by checksums, so that later only what changed is proved again, and what stands on it.
"""
import fcntl
import hashlib
import os
import re
import shutil
import subprocess
import sys
import threading

TOP = os.path.dirname(os.path.abspath(__file__))
PROGRAM = "pm_main"
PROVED = re.compile(r"rt: (\w+) (?:proved$|is kept: .* proved )")
MINUTE = 60
# What the proofs take from nothing, in minutes: of one processor, and of the longest chain of crates.
PROCESSOR_MINUTES, CHAIN_MINUTES = 105, 25


def listed():
    """The line of each crate in crates.txt, by its name."""
    with open(f"{TOP}/crates.txt", encoding="utf-8") as lines:
        return {line.partition(":")[0].strip(): line for line in lines if ":" in line and not line.startswith("#")}


def below(name, lines):
    """The names of the crates that this one stands on, and its own."""
    found, left = set(), [name]
    while left:
        crate = left.pop()
        if crate in lines and crate not in found:
            found.add(crate)
            left += lines[crate].partition(":")[2].split()
    return found


def bring(copy, crates, lines):
    """Brings a copy to the state of the checkout."""
    shutil.rmtree(f"{copy}/crates", ignore_errors=True)
    for crate in crates:
        shutil.copytree(f"{TOP}/crates/{crate}", f"{copy}/crates/{crate}", ignore=shutil.ignore_patterns("out", "must-fail"))
    shutil.copy(f"{TOP}/HANDLES", copy)
    with open(f"{copy}/crates.txt", "w", encoding="utf-8") as kept:
        kept.writelines(line for crate, line in lines.items() if crate in crates)


def prove(copy, count):
    """Runs the gate of a copy, and tells each minute how far it is. Its status, and its last lines."""
    proved, ended, said = set(), threading.Event(), []

    def tell():
        while not ended.wait(MINUTE):
            print(f"pm: {len(proved)} crates are proved, {count - len(proved)} are left", file=sys.stderr, flush=True)

    threading.Thread(target=tell, daemon=True).start()
    with open(f"{copy}/log", "w", encoding="utf-8") as log:
        gate = subprocess.Popen(["rt", "ci"], cwd=copy, stdout=subprocess.PIPE, stderr=subprocess.STDOUT, text=True, errors="replace")
        for line in gate.stdout:
            log.write(line)
            said = [*said[-4:], line]
            if done := PROVED.match(line):
                proved.add(done[1])
    ended.set()
    return gate.wait(), said


def main():
    lines = listed()
    crates = below(PROGRAM, lines)
    cache = os.environ.get("XDG_CACHE_HOME") or os.path.expanduser("~/.cache")
    copy = f"{cache}/pm/{hashlib.sha256(TOP.encode()).hexdigest()[:16]}"
    os.makedirs(copy, exist_ok=True)
    with open(f"{copy}/lock", "w", encoding="utf-8") as lock:
        fcntl.flock(lock, fcntl.LOCK_EX)
        processors = len(os.sched_getaffinity(0))
        minutes = max(PROCESSOR_MINUTES // processors, CHAIN_MINUTES)
        print(f"pm: proving and building the program: some {minutes} minutes from nothing with {processors} processors", file=sys.stderr, flush=True)
        bring(copy, crates, lines)
        status, said = prove(copy, len(crates))
        if status:
            print(f"pm: the build stopped; its messages, in {copy}/log, end:\n{''.join(said)}", end="", file=sys.stderr)
            return 70
        os.makedirs(os.path.dirname(sys.argv[1]), exist_ok=True)
        shutil.copy(f"{copy}/crates/{PROGRAM}/out/{PROGRAM}", sys.argv[1])
    return 0


if __name__ == "__main__":
    sys.exit(main())
