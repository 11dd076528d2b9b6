"""Helps cover.sh: what `pm cover` counts of a C program beside what gcov counts of a native build of it, line by line.

usage: compare_cover.py DISASSEMBLY ROWS COVERED COUNTS

DISASSEMBLY is `llvm-objdump -d` of the module and ROWS its `llvm-dwarfdump --debug-line`; both tell addresses in the code section. COVERED is
what `pm cover` printed, COUNTS the file that gcov wrote. gcov counts how often a line is run, `pm cover` steps. So on a line without branches,
blocks and ends the steps are its instructions times its runs; on every other line that both know there are steps exactly where there are runs.
The line on which a function opens is among the others, since gcc adds the loop to it with which a function begins.
"""

import re
import sys

CONTROL = {"block", "loop", "if", "else", "end", "br", "br_if", "br_table", "return", "unreachable",
           "end_block", "end_loop", "end_if", "end_function"}


def instructions(file):
    """Address and name of each instruction."""
    for line in open(file, encoding="utf-8", errors="replace"):
        found = re.match(r" *([0-9a-f]+): (?:[0-9a-f]{2} )+ *\t?([a-z0-9_.]+)", line)
        if found:
            yield int(found[1], 16), found[2]


def rows(file):
    """Address, line and whether a sequence ends, of each row of the line programs, sorted."""
    found = []
    for line in open(file, encoding="utf-8"):
        cells = line.split()
        if cells and re.fullmatch(r"0x[0-9a-f]{16}", cells[0]):
            found.append((int(cells[0], 16), int(cells[1]), "end_sequence" in cells))
    return sorted(found, key=lambda row: (row[0], not row[2]))


def openings(table):
    """The lines on which functions open: those of the first row of each sequence."""
    lines = set()
    first = True
    for _, line, ends in table:
        if first and not ends:
            lines.add(line)
        first = ends
    return lines


def by_line(disassembly, table):
    """The names of the instructions on each line."""
    names = {}
    at = 0
    line = 0
    for address, name in sorted(disassembly):
        while at < len(table) and table[at][0] <= address:
            line = 0 if table[at][2] else table[at][1]
            at += 1
        names.setdefault(line, []).append(name)
    return names


def covered(file):
    """The counts of the lines of one C file, and the numbers behind `unplaced` and `steps`."""
    counts = {}
    numbers = {}
    for text in open(file, encoding="utf-8").read().splitlines()[1:]:
        place, _, count = text.rpartition(" ")
        if place in ("unplaced", "steps"):
            numbers[place] = int(count)
        else:
            counts[int(place.rpartition(":")[2])] = int(count)
    return counts, numbers


def counted(file):
    """How often gcov says that each line was run."""
    counts = {}
    for text in open(file, encoding="utf-8"):
        count, line = text.split(":")[:2]
        count = count.strip().rstrip("*")
        if count == "-" or int(line) == 0:
            continue
        counts[int(line)] = 0 if count in ("#####", "=====") else int(count)
    return counts


def main():
    disassembly, table, cover, gcov = sys.argv[1:]
    table = rows(table)
    lines = by_line(list(instructions(disassembly)), table)
    others = openings(table)
    steps, numbers = covered(cover)
    runs = counted(gcov)
    if sum(steps.values()) + numbers["unplaced"] != numbers["steps"]:
        print("  the counts do not add up to the steps")
        return 1
    exact = alike = wrong = 0
    for line, names in sorted(lines.items()):
        if line == 0 or line not in runs:
            continue
        has = steps.get(line, 0)
        if line not in others and not CONTROL.intersection(names):
            exact += 1
            if has != len(names) * runs[line]:
                wrong += 1
                print("  line %d: %d steps, %d instructions run %d times" % (line, has, len(names), runs[line]))
        elif set(names) - CONTROL:
            alike += 1
            if (has > 0) != (runs[line] > 0):
                wrong += 1
                print("  line %d: %d steps, run %d times" % (line, has, runs[line]))
    print("  %d lines by their counts, %d more by whether they were run, %d wrong" % (exact, alike, wrong))
    return 1 if wrong or not exact else 0


if __name__ == "__main__":
    sys.exit(main())
