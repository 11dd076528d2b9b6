#!/usr/bin/env python3
"""Runs the program on modules, dumps, replies and words that were damaged at random, from a seed.

    mutants.py PROGRAM FOLDER SEED COUNT SECONDS EVERY KEPT

FOLDER has modules NAME.wasm, beside each the words of its run in NAME.words, its dump in NAME.core where it traps, and its replies in NAME.replies
where it asks for some. COUNT mutants are made, fewer where SECONDS are over; of the runs each EVERY-th one is made once more under valgrind.
The files of each mutant that goes wrong are put into KEPT, under its number.

Of each run the status has to be one of the command, with a text of that status, and nothing on standard error, within LIMIT seconds. Then what
holds of several runs is looked at: a module is refused by each command as by `check`, which accepts those that wabt's `wasm-validate` and node's engine accept; each
dump that `run` writes is shown, and matches its module; a rewritten module is valid and hands over the dump that `run` writes of the original.
"""
import os
import random
import re
import resource
import shutil
import subprocess
import sys
import time

LIMIT = 20
MEMORY = 4 << 30
FUEL = "200000"
COMMANDS = ["bt", "vars", "globals", "locals", "operands", "frame 1", "vars", "locals", "print *x", "print v[1].a->b", "x 0 64", "x 1048570 4096"]

# The texts of each status, but for 0 and 1.
REFUSALS = {
    2: r"usage: check, run, instrument, show, debug, selftest, replay or cover",
    3: r'no file: ".*"',
    4: r'file fault: ".*"',
    5: r"malformed module at \d+",
    6: r"float at \d+|import \d+ is not a function",
    7: r"invalid: ((type|import|declaration|table|memory|global|export|element|data) \d+|start|function \d+ offset \d+)",
    8: r'not started: (export ".*"|arguments|(import|element|data) \d+)',
    11: r"bad dump: ((malformed|float value) at \d+|several (core|coremodules|coreinstances|corestack|memory))",
    12: r"mismatch ([12]|3 global \d+|[4-9] frame \d+)",
    13: r"limit: (module bytes|dump bytes|replies bytes|locals|nesting|table|memory|height|dump pages|dump frames|instrument (locals|parameters|height|nesting)|weight) \d+ over \d+",
    14: r"collision: (import|export) \d+",
    17: r"bad replies at line \d+",
}
FINISHED = r"finished( i(32|64):-?\d+)?\nhost calls \d+\n"
TRAPPED = r"trap [1-8] [a-z ]+\n(at function \d+ offset \d+|no dump collected)\nhost calls \d+\n"
INVOKED = f"(({FINISHED})|({TRAPPED}))*"
TEXTS = {number: re.compile(f"({text})\n") for number, text in REFUSALS.items()}
RUN_TEXTS = {
    0: re.compile(f"({FINISHED})+"),
    1: re.compile(INVOKED + r"(not invoked \d+\n)?"),
    9: re.compile(INVOKED + r'host stopped: (no reply for call \d+|reply \d+ does not fit|device ".*")\n'),
    10: re.compile(INVOKED + r"fuel spent\n"),
    16: re.compile(INVOKED + r"torn calls at \d+\n"),
}
DONE = {
    "check": re.compile(r"valid types \d+ imports \d+ functions \d+ exports \d+ custom \d+\n"),
    "instrument": re.compile(r"instrumented weight \d+\n"),
    "show": re.compile(r'dump ".*" frames \d+\n(#\d+ instance \d+ function \d+ offset \d+ locals .* operands .*\n)*(memory \d+\n)?(global \d+ .*\n)*'),
    "debug": re.compile(r"(?s).*\n"),
}
MODULE = {0, 5, 6, 7, 13}
STATUSES = {
    "check": MODULE,
    "run": MODULE | {1, 8, 9, 10, 16, 17},
    "instrument": MODULE | {14},
    "show": {0, 11, 13},
    "debug": MODULE | {11, 12},
}


class Wrong(Exception):
    """What should not have come."""


def limited():
    resource.setrlimit(resource.RLIMIT_AS, (MEMORY, MEMORY))


class Trial:
    """The program in a folder of its own."""

    def __init__(self, program, folder, every):
        self.program, self.folder, self.every = program, folder, every
        self.runs, self.looked, self.counts = 0, 0, {}
        self.has_wabt = subprocess.run(["which", "wasm-validate"], capture_output=True).returncode == 0

    def write(self, title, contents):
        with open(os.path.join(self.folder, title), "wb") as out:
            out.write(contents)

    def read(self, title):
        path = os.path.join(self.folder, title)
        if not os.path.exists(path):
            return None
        with open(path, "rb") as held:
            return held.read()

    def remove(self, *titles):
        for title in titles:
            path = os.path.join(self.folder, title)
            if os.path.exists(path):
                os.remove(path)

    def looked_at(self, words):
        """The same run under valgrind."""
        self.looked += 1
        tool = ["valgrind", "-q", "--error-exitcode=99", self.program]
        run = subprocess.run([*tool, *words], cwd=self.folder, capture_output=True, timeout=LIMIT * 20)
        if run.returncode == 99 or run.stderr:
            raise Wrong(f"valgrind: {run.stderr[-500:]!r}")

    def ends(self, *words, wider=frozenset()):
        """The status and the text of a run, which have to belong together. The status is one of the command, or of these."""
        self.runs += 1
        try:
            run = subprocess.run([self.program, *words], cwd=self.folder, capture_output=True, timeout=LIMIT, preexec_fn=limited)
        except subprocess.TimeoutExpired:
            raise Wrong(f"{words}: more than {LIMIT} s") from None
        status, text = run.returncode, run.stdout.decode("utf-8", "surrogateescape")
        self.counts[words[0], status] = self.counts.get((words[0], status), 0) + 1
        if run.stderr or status not in STATUSES[words[0]] | wider:
            raise Wrong(f"{words}: status {status}, {text[:200]!r}, {run.stderr[:200]!r}")
        own = RUN_TEXTS if words[0] == "run" else {0: DONE.get(words[0])}
        if not (own.get(status) or TEXTS[status]).fullmatch(text):
            raise Wrong(f"{words}: status {status}, {text[:400]!r}")
        if self.runs % self.every == 0:
            self.looked_at(words)
        return status, text


# Damage.


def sections(contents):
    """The sections of a module or a dump, each as its number and its contents; nothing where they can't be told."""
    found, at = [], 8
    while at < len(contents):
        number, size, shift = contents[at], 0, 0
        while True:
            at += 1
            if at >= len(contents) or shift > 28:
                return None
            size |= (contents[at] & 0x7F) << shift
            shift += 7
            if contents[at] < 0x80:
                break
        found.append((number, contents[at + 1 : at + 1 + size]))
        at += 1 + size
    return found


def leb(number):
    out = bytearray()
    while True:
        low, number = number & 0x7F, number >> 7
        out.append(low | (0x80 if number else 0))
        if not number:
            return bytes(out)


TELLING = [b"\0", b"\1", b"\x0b", b"\x40", b"\x7f", b"\x80", b"\xff", b"\xff\xff\xff\xff\x0f", b"\xff\xff\xff\xff", b"\xf0\xff\xff\xff", b"\x80\x80\x80\x80\x80\0", b"\0\0\0\0"]


def damaged(source, contents, others):
    """The bytes with one to six faults."""
    out = bytearray(contents)
    for _ in range(source.choice([1, 1, 1, 2, 3, 6])):
        at, size = source.randrange(len(out) + 1), source.choice([1, 1, 2, 4, 16, 100])
        kind = source.randrange(9)
        if kind < 2 and at < len(out):
            out[at] ^= 1 << source.randrange(8)
        elif kind == 2 and at < len(out):
            out[at] = source.randrange(256)
        elif kind == 3:
            told = source.choice(TELLING)
            out[at : at + len(told)] = told
        elif kind == 4:
            out[at:at] = source.choice(TELLING)
        elif kind == 5:
            del out[at : at + size]
        elif kind == 6:
            out[at:at] = out[source.randrange(len(out) + 1) :][:size]
        elif kind == 7:
            other = source.choice(others)
            out[at : at + size] = other[source.randrange(len(other) + 1) :][:size]
        elif source.random() < 0.3:
            del out[at:]
    return bytes(out)


def mutant(source, contents, others):
    """The whole is damaged, or one section of it, whose size is then made right."""
    parts = sections(contents)
    if not parts or source.random() < 0.3:
        return damaged(source, contents, others)
    index = source.randrange(len(parts))
    number, held = parts[index]
    # The names of custom sections are mostly left.
    front = 1 + held[0] if number == 0 and held and source.random() < 0.9 else 0
    parts[index] = (number, held[:front] + damaged(source, held[front:], others))
    return contents[:8] + b"".join(bytes([number]) + leb(len(held)) + held for number, held in parts)


# Trials.

OLDER = ["--disable-mutable-globals", "--disable-saturating-float-to-int", "--disable-simd", "--disable-multi-value", "--disable-bulk-memory", "--disable-reference-types"]


def is_accepted(trial, title, *options):
    run = subprocess.run(["wasm-validate", *options, title], cwd=trial.folder, capture_output=True)
    return run.returncode == 0


def without_customs(contents):
    """The module without its custom sections, of which wabt refuses some by their contents, although they say nothing of the module."""
    return contents[:8] + b"".join(bytes([number]) + leb(len(held)) + held for number, held in sections(contents) if number)


def is_accepted_by_engine(trial):
    """Whether node's engine accepts the module, where node is there. wabt alone passes over a constant expression without its `end` at the end of
    a section, and reads a value type that is spelled in more than one byte."""
    if not shutil.which("node"):
        return True
    run = subprocess.run(["node", "-e", "process.exit(WebAssembly.validate(require('fs').readFileSync('m')) ? 0 : 1)"], cwd=trial.folder)
    return run.returncode == 0


def agree_with_wabt(trial, status):
    """A valid module is valid for wabt, whatever its custom sections hold, and one of Core 1.0 with sign extensions that wabt and an engine accept
    is neither malformed nor invalid."""
    if not trial.has_wabt:
        return
    if status == 0:
        trial.write("w", without_customs(trial.read("m")))
        if not is_accepted(trial, "w"):
            raise Wrong("check accepts what wasm-validate refuses")
    if status in (5, 7) and is_accepted(trial, "m", *OLDER) and is_accepted_by_engine(trial):
        raise Wrong(f"check refuses, by status {status}, what wasm-validate and node accept")


def same(first, second, what):
    if first != second:
        raise Wrong(f"{what}: {first!r} and {second!r}")


def dumps(trial, title):
    """All dumps of a run."""
    found = [trial.read(title)]
    while trial.read(f"{title}.{len(found)}") is not None:
        found.append(trial.read(f"{title}.{len(found)}"))
    return found


def handed_over(trial, run, words):
    """The rewritten module of `m` runs as that does, whose run is told, and hands over the same dumps."""
    same(trial.ends("check", "i")[0], 0, "a rewritten module")
    again = trial.ends("run", "i", *words, "--collect", "--fuel", "1000000000", "--dump", "b")
    same(again, run, "a run of the rewritten module")
    same(dumps(trial, "b"), dumps(trial, "a"), "dumps of the rewritten module")


def try_accepted(trial, words):
    trial.remove("a", "a.1", "b", "b.1", "i")
    run = trial.ends("run", "m", *words, "--fuel", FUEL, "--dump", "a")
    if run[0] in MODULE - {0}:
        raise Wrong(f"a valid module is refused by run: {run}")
    for index, dump in enumerate(dumps(trial, "a")):
        if dump is not None:
            title = f"a.{index}" if index else "a"
            same(trial.ends("show", title)[0], 0, "show of a dump of run")
            same(trial.ends("debug", "m", title, *COMMANDS)[0], 0, "debug of a dump of run")
    if trial.ends("instrument", "m", "i")[0] == 0 and run[0] != 10 and "trap 8" not in run[1]:
        handed_over(trial, run, words)


def try_module(trial, words):
    checked = trial.ends("check", "m")
    agree_with_wabt(trial, checked[0])
    if checked[0] == 0:
        try_accepted(trial, words)
        return
    for others in (("run", "m", *words), ("instrument", "m", "i"), ("debug", "m", "d")):
        same(trial.ends(*others), checked, others)


def try_dump(trial):
    shown = trial.ends("show", "d")
    debugged = trial.ends("debug", "m", "d", *COMMANDS)
    if shown[0] != 0:
        same(debugged, shown, "a dump that is refused")
    elif debugged[0] not in (0, 12):
        raise Wrong(f"a dump that is shown: {debugged}")


def try_debugging(trial):
    """A module of which other sections than the custom ones are as they were."""
    same(trial.ends("debug", "m", "d", *COMMANDS)[0], 0, "debugging information")


class Source:
    """A module, the words of its run, its dump and its replies."""

    def __init__(self, folder, title):
        def held(kind):
            path = os.path.join(folder, f"{title}.{kind}")
            return open(path, "rb").read() if os.path.exists(path) else None

        self.title, self.module, self.dump, self.replies = title, held("wasm"), held("core"), held("replies")
        self.words = (held("words") or b"").decode().split()


WORDS = ["check", "run", "show", "debug", "instrument", "m", "d", "r", "f", "+", "-", "--", "--x", "", "i32:1", "i64:-1", "i32:x", "--fuel", "--fuel=9", "--depth=0", "--depth=7", "--dump=q", "--name=", "--collect", "--replies=r", "bt", "é"]


def try_words(trial, source, known):
    """Words at random, or those of a run with some of them exchanged."""
    words = ["run", "m", *known] if source.random() < 0.7 else []
    for _ in range(source.randrange(1, 6)):
        if words and source.random() < 0.5:
            del words[source.randrange(len(words))]
        words.insert(source.randrange(len(words) + 1), source.choice(WORDS))
    if not words or words[0] not in STATUSES:
        words.insert(0, source.choice(list(STATUSES)))
    trial.ends(*words, wider={2, 3, 4})


def try_source(trial, source, held, others):
    """One mutant."""
    trial.write("m", held.module)
    trial.write("d", held.dump or others[0])
    trial.write("r", held.replies or b"")
    kind = source.random()
    if kind < 0.55:
        trial.write("m", mutant(source, held.module, others))
        try_module(trial, held.words)
    elif kind < 0.8 and held.dump:
        trial.write("d", mutant(source, held.dump, others))
        try_dump(trial)
    elif kind < 0.9 and held.dump:
        trial.write("m", with_damaged_customs(source, held.module, others))
        try_debugging(trial)
    elif kind < 0.95 and held.replies:
        trial.write("r", damaged(source, held.replies, [b"i32:7 9=00\n", b"none\n", b"#\n", b" ", b"=", b"i64:"]))
        trial.ends("run", "m", *held.words)
    else:
        try_words(trial, source, held.words)


def with_damaged_customs(source, contents, others):
    """The module, in which the contents of a custom section are damaged, whose name stays."""
    parts = sections(contents)
    indices = [index for index, (number, held) in enumerate(parts) if number == 0]
    if not indices:
        return contents
    index = source.choice(indices)
    held = parts[index][1]
    parts[index] = (0, held[: 1 + held[0]] + damaged(source, held[1 + held[0] :], others))
    return contents[:8] + b"".join(bytes([number]) + leb(len(held)) + held for number, held in parts)


def main():
    program, folder, seed, count, seconds, every, kept = sys.argv[1:]
    work = os.path.join(folder, "work")
    os.makedirs(work, exist_ok=True)
    titles = sorted(title[:-5] for title in os.listdir(folder) if title.endswith(".wasm"))
    known = [Source(folder, title) for title in titles]
    others = [held.dump for held in known if held.dump] + [held.module for held in known]
    trial = Trial(os.path.abspath(program), work, int(every))
    end, made, wrong = time.time() + float(seconds), 0, 0
    while made < int(count) and time.time() < end and wrong < 10:
        source = random.Random(f"{seed} {made}")
        held = source.choice(known)
        try:
            try_source(trial, source, held, others)
        except Wrong as told:
            wrong += 1
            print(f"mutant {made} of {held.title}: {told}", flush=True)
            shutil.copytree(work, os.path.join(kept, str(made)), dirs_exist_ok=True)
        made += 1
    print(f"{made} mutants of {len(known)} modules, {trial.runs} runs, {trial.looked} of them under valgrind too; {wrong} wrong")
    for command in STATUSES:
        told = ", ".join(f"{number}: {times}" for (name, number), times in sorted(trial.counts.items()) if name == command)
        print(f"  {command} by status: {told}")
    sys.exit(1 if wrong else 0)


if __name__ == "__main__":
    main()
