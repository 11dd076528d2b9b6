#!/usr/bin/env python3
"""pm2lcov: what `pm cover` printed, of one or several runs of a module, as a tracefile of lcov on standard output.

    pm2lcov.py [--source DIR] MODULE COVERED .. > lcov.info

COVERED are files with the text of `pm cover`. The lines that no run reached are taken from MODULE by llvm-dwarfdump.
The count of a line is the number of steps that fell on it. README.md beside this file is the page of use.
"""

import argparse
import collections
import os
import re
import sys

# Nothing is written, not even what Python keeps of an imported file.
sys.dont_write_bytecode = True

try:
    from pmdb import CONTROL, Lines, Module, Refused, import_hints
except ImportError:
    sys.exit(f"{os.path.basename(__file__)}: pmdb.py has to stand beside it: what they share is there")


COUNT = re.compile(r"(.+):(\d+) (\d+)$")
SPENT = "fuel spent, so the run goes on behind these steps: `pm cover --fuel N` takes up to 1,000,000,000,000"


def counts_in(text, name, module):
    """File, line and count of each line that a text of `pm cover` counts."""
    lines = text.rstrip("\n").split("\n")
    counts = [(found[1], int(found[2]), int(found[3])) for found in map(COUNT.match, lines[1:-2]) if found]
    last = re.fullmatch(r"unplaced (\d+)\nsteps (\d+)", "\n".join(lines[-2:]))
    if not last or len(counts) != len(lines) - 3 or sum(count for _, _, count in counts) + int(last[1]) != int(last[2]):
        refusal = f"{name} is no text of `pm cover`, which ends with `steps N`; it begins"
        raise Refused("\n".join([refusal, *lines[:3], *import_hints(text.strip(), module)]))
    if lines[0] == "fuel spent":
        print(f"{name}: {SPENT}", file=sys.stderr)
    return counts


class Coverage:
    """The lines of a module's sources, with the steps that fell on them, and its functions."""

    def __init__(self, tables, source):
        self.tables, self.folders = tables, [source] if source else tables.folders()
        self.counts = collections.defaultdict(collections.Counter)
        for file, line, *_ in tables.table():
            self.counts[file][line] += 0

    def add(self, counts):
        """Adds the counts of a run. Line 0 is none: the compiler says so of code that it made by itself."""
        for file, line, count in counts:
            if line:
                self.counts[file][line] += count

    def path(self, file):
        """A source's whole name: in the first folder that has it, of those in which the module was compiled."""
        names = [os.path.normpath(os.path.join(folder, file)) for folder in self.folders or ["."]]
        return os.path.abspath(next(filter(os.path.exists, names), names[0]))

    def functions(self):
        """Of each file the functions that have code: the line on which each opens, with its name."""
        opens = {}
        for file, line, function, *_ in self.tables.table():
            opens.setdefault(function, (file, line))
        found = collections.defaultdict(list)
        for function, name in sorted(self.tables.module.names.items()):
            if function in opens:
                file, line = opens[function]
                found[file].append((line, name))
        return found

    def tracefile(self):
        """The lines of the tracefile."""
        functions = self.functions()
        yield "TN:"
        for file in sorted(self.counts):
            lines = self.counts[file]
            yield f"SF:{self.path(file)}"
            for line, name in functions[file]:
                yield f"FN:{line},{name}"
            for line, name in functions[file]:
                yield f"FNDA:{int(lines[line] > 0)},{name}"
            yield f"FNF:{len(functions[file])}"
            yield f"FNH:{sum(lines[line] > 0 for line, _ in functions[file])}"
            for line in sorted(lines):
                yield f"DA:{line},{lines[line]}"
            yield f"LF:{len(lines)}"
            yield f"LH:{sum(count > 0 for count in lines.values())}"
            yield "end_of_record"


def traced(words):
    """The tracefile's text."""
    module = Module(words.module)
    tables = Lines(module)
    if not module.data:
        raise Refused(f"no file or nothing in it: {words.module}")
    if not module.data.startswith(b"\0asm"):
        raise Refused(f"{words.module} is no module")
    if not tables.tool:
        raise Refused("llvm-dwarfdump is missing: it tells the lines that no run reached")
    coverage = Coverage(tables, words.source)
    if not coverage.counts:
        rewritten = module.is_rewritten()
        cause = "it is a rewritten module, its original tells them" if rewritten else "compile and link with -g"
        raise Refused(f"{words.module} tells no lines: {cause}")
    for name in words.covered:
        try:
            with open(name, encoding="utf-8", errors="replace") as file:
                coverage.add(counts_in(file.read().translate(CONTROL), name, module))
        except OSError as fault:
            raise Refused(f"{name}: {fault.strerror}") from fault
    return "\n".join(coverage.tracefile())


def main():
    """Prints the tracefile, or why there is none."""
    words = argparse.ArgumentParser(description=__doc__, formatter_class=argparse.RawDescriptionHelpFormatter)
    words.add_argument("--source", help="where names of sources begin; else where they were compiled")
    words.add_argument("module", metavar="MODULE")
    words.add_argument("covered", metavar="COVERED", nargs="+")
    try:
        print(traced(words.parse_args()))
    except Refused as refused:
        print(refused, file=sys.stderr)
        sys.exit(refused.status)
    except BrokenPipeError:
        os._exit(1)


if __name__ == "__main__":
    main()
