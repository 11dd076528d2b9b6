"""Helps debug.sh: faults in programs, addresses of frames, and what `pm debug` prints beside what others say.

usage: compare_debug.py plant PROGRAM OUT          writes a program with a fault in it, which traps
       compare_debug.py addresses MODULE SHOWN     the code address of each frame that `pm show` shows
       compare_debug.py frames PRINTED SYMBOLS     frames of `bt` beside those of llvm-symbolizer, by function, file and line
       compare_debug.py told PRINTED DUMP          printed variables beside the text that the program left in its memory
"""

import os
import re
import sys

# In each program one place, and what stands there with the fault: no line moves.
FAULTS = {
    "sort.c": (
        "    unsigned old = numbers[at];",
        "    if (at == 4097) *(volatile unsigned *)0xfffffff0 = child; unsigned old = numbers[at];",
    ),
    "compress.c": (
        "static unsigned last[4096];",
        "static unsigned last[4096]; static volatile unsigned none;",
        "  while (n < 255 && b + n < SIZE && text[a + n] == text[b + n]) n++;",
        "  while (n < 255 && b + n < SIZE && text[a + n] == text[b + n]) n++; if (b > 2000) n /= none;",
    ),
    "hash.c": (
        "static unsigned turn(unsigned x, unsigned n) {",
        "static unsigned turns; static unsigned turn(unsigned x, unsigned n) { if (++turns == 5000) __builtin_trap();",
    ),
    "bignum.c": (
        "    borrow = (wide)part + borrow > old;",
        "    borrow = (wide)part + borrow > old; if (at == 12) ((void (*volatile)(void))0x1234)();",
    ),
}
FAULT_IN_MADE = ("  return a % 7 ==", "  if (!--left) __builtin_trap(); return a % 7 ==")


def plant(program, out):
    text = open(program, encoding="ascii").read()
    places = FAULTS.get(os.path.basename(program), ())
    for old, new in zip(places[::2], places[1::2]):
        if text.count(old) != 1:
            sys.exit("%s has no one place for its fault" % program)
        text = text.replace(old, new)
    if os.path.basename(program) == "large.c":
        text = text.replace(*FAULT_IN_MADE)
        text = text.replace("static unsigned cells[SIZE];", "static unsigned cells[SIZE]; static unsigned left = 20000;")
        last = re.findall(r"^unsigned (f\d+)\(", text, re.M)[-1]
        text += "__attribute__((export_name(\"run\"))) unsigned run(unsigned a, unsigned b) { for (;; a++) b += %s(a, b); }\n" % last
    with open(out, "w", encoding="ascii") as file:
        file.write(text)
    return 0


# ---- modules

def leb(data, at):
    value = shift = 0
    while True:
        byte = data[at]
        at += 1
        value |= (byte & 127) << shift
        shift += 7
        if byte < 128:
            return value, at


def sections(data):
    at = 8
    while at < len(data):
        kind = data[at]
        size, at = leb(data, at + 1)
        yield kind, at, at + size
        at += size


def skip_limits(data, at):
    flags = data[at]
    _, at = leb(data, at + 1)
    return leb(data, at)[1] if flags & 1 else at


def imported_functions(data, at):
    """How many functions a section of imports has."""
    count, at = leb(data, at)
    functions = 0
    for _ in range(count):
        for _ in range(2):
            size, at = leb(data, at)
            at += size
        kind = data[at]
        functions += kind == 0
        at += 1
        at = leb(data, at)[1] if kind == 0 else skip_limits(data, at + 1) if kind == 1 else skip_limits(data, at) if kind == 2 else at + 2
    return functions


def body_starts(data):
    """Where each defined function's code entry begins behind its size, counted from the contents of the code section, and how many are imported."""
    imported, starts = 0, []
    for kind, at, _ in sections(data):
        if kind == 2:
            imported = imported_functions(data, at)
        if kind == 10:
            begin = at
            count, at = leb(data, at)
            for _ in range(count):
                size, at = leb(data, at)
                starts.append(at - begin)
                at += size
    return imported, starts


def addresses(module, shown):
    imported, starts = body_starts(open(module, "rb").read())
    for line in open(shown):
        found = re.match(r"#\d+ instance \d+ function (\d+) offset (\d+) ", line)
        if found:
            print("0x%x" % (starts[int(found[1]) - imported] + int(found[2])))
    return 0


# ---- frames

def printed_frames(path):
    """Of each frame its lines, innermost first: function, file and line, which are empty where nothing is said."""
    frames = []
    lines = []
    for line in open(path):
        found = re.match(r"#\d+ (inlined )?(\S+)(?: \(function \d+ offset \d+\))?(?: at (.*):(-?\d+))?$", line.rstrip("\n"))
        if not found:
            sys.exit("no frame: " + line)
        lines.append((found[2], os.path.basename(found[3] or ""), int(found[4] or 0)))
        if not found[1]:
            frames.append(lines)
            lines = []
    return frames


def symbolized_frames(path):
    frames = []
    for block in open(path).read().strip("\n").split("\n\n"):
        rows = block.split("\n")
        lines = []
        for name, place in zip(rows[::2], rows[1::2]):
            file, line, _ = place.rsplit(":", 2) if place.count(":") > 1 else (place, "0", "0")
            lines.append((name, "" if file.startswith("??") else os.path.basename(file), int(line)))
        frames.append(lines)
    return frames


def frames(printed, symbols):
    ours, theirs = printed_frames(printed), symbolized_frames(symbols)
    differences = 0
    for number, (mine, other) in enumerate(zip(ours, theirs)):
        if mine != other:
            differences += 1
            print("  frame %d: %s beside %s" % (number, mine, other))
    differences += abs(len(ours) - len(theirs))
    count = sum(len(lines) for lines in ours)
    print("  %d frames, %d of them inlined; %d differences" % (count, count - len(ours), differences))
    return 1 if differences else 0


# ---- variables

def told(printed, dump):
    # The marks are also among the constants of the program, each with a zero behind it.
    text = re.search(rb"<<([^\0]+)>>", open(dump, "rb").read())[1].decode("ascii").splitlines()
    # lines that show a frame tell no variable
    ours = [line for line in open(printed, encoding="ascii").read().splitlines() if not line.startswith("#")]
    differences = 0
    for mine, other in zip(ours, text):
        if mine != other:
            differences += 1
            print("  %s beside %s" % (mine, other))
    differences += abs(len(ours) - len(text))
    print("  %d lines of variables and paths; %d differences" % (len(ours), differences))
    return 1 if differences else 0


if __name__ == "__main__":
    sys.exit({"plant": plant, "addresses": addresses, "frames": frames, "told": told}[sys.argv[1]](*sys.argv[2:]))
