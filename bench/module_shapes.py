"""Modules, dumps, replies and words whose shape costs much, for shapes.py."""
from writer import HEADER, custom, dump, frame, i32, name, section, u32, vector

I32, NO_TYPE, END = b"\x7f", b"\x40", b"\x0b"
NOTHING = b"\x60\0\0"
TRAP = b"\0\0\x0b"
ORDER = ("types", 1), ("imports", 2), ("functions", 3), ("tables", 4), ("memories", 5), ("exports", 7), ("elements", 9), ("bodies", 10), ("data", 11)


def module(customs=(), **parts):
    """A module of these items. Where no functions are told, its bodies are of type 0, which takes and gives nothing."""
    parts.setdefault("types", [NOTHING])
    bodies = parts.get("bodies", [])
    parts.setdefault("functions", [b"\0"] * len(bodies))
    parts["bodies"] = [name(body) for body in bodies]
    return HEADER + b"".join(section(number, vector(parts[part])) for part, number in ORDER if parts.get(part)) + b"".join(customs)


def export(text, function=0):
    return name(text) + b"\0" + u32(function)


def body(code, groups=()):
    return vector(groups) + code + END


def functions(n):
    return module(bodies=[TRAP] * n, exports=[export(b"f%d" % i, i) for i in range(n)])


def long_exports(n):
    return module(bodies=[TRAP], exports=[export(b"x" * 200 + b"%08d" % i) for i in range(n)])


def types(n):
    """Types of 40 parameters, which differ in the last ones alone."""
    wide = [b"\x60" + vector([I32] * 20 + [b"\x7e" if i >> k & 1 else I32 for k in range(19, -1, -1)]) + b"\0" for i in range(n)]
    return module(types=[NOTHING] + wide, bodies=[TRAP], exports=[export(b"f")])


def imports(n):
    return module(imports=[name(b"env") + name(b"f%d" % i) + b"\0\0" for i in range(n)])


def sequence(n):
    return module(bodies=[body((b"\x02" + NO_TYPE + END) * n)])


def nesting(n):
    return module(bodies=[body((b"\x02" + NO_TYPE) * 1000 + END * 1000)] * n)


def wide_branch(n):
    labels = vector([bytes([i % 2]) for i in range(n)])
    return module(bodies=[body(b"\x02" + NO_TYPE + b"\x41\0\x0e" + labels + b"\0" + END)])


def deep_branches(n):
    """Branches out of 1,000 blocks, each with as many targets."""
    branch = b"\x41\0\x0e" + vector([u32(i) for i in range(999)]) + u32(999)
    return module(bodies=[body((b"\x02" + NO_TYPE) * 1000 + branch + END * 1000)] * n)


def no_locals(n):
    return module(bodies=[body(b"", [b"\0" + I32] * n)])


def high_stack(n):
    """Operators above 4,000 operands."""
    return module(bodies=[body(b"\x41\0" * 4000 + b"\x41\0\x6a" * n + b"\x1a" * 4000)])


def dead_code(n):
    return module(bodies=[body(b"\0" + b"\x6a" * n + b"\x1a")])


def padded(n):
    """Numbers of five bytes, where one is enough."""
    return module(bodies=[body(b"\x41\x80\x80\x80\x80\x00\x1a" * n)])


def elements(n):
    return module(tables=[b"\x70\0\x0a"], bodies=[TRAP], elements=[b"\0\x41\0\x0b\1\0"] * n, exports=[export(b"f")])


def segments(n):
    return module(memories=[b"\0\1"], data=[b"\0\x41\0\x0b\1\7"] * n, bodies=[TRAP], exports=[export(b"f")])


def customs(n):
    return module(customs=[custom(b"x", b"")] * n)


def counted(n):
    """A count of 2^32 - 1, of which so few types are there."""
    contents = b"\xff\xff\xff\xff\x0f" + NOTHING * n
    return HEADER + section(1, contents)


def indirect(n):
    """Calls through a table, of 100 types."""
    kinds = [b"\x60" + vector([I32] * k) + b"\0" for k in range(100)]
    calls = b"".join(b"\x41\0" * (i % 100 + 1) + b"\x11" + u32(i % 100) + b"\0" for i in range(n))
    return module(types=kinds, tables=[b"\x70\0\x64"], bodies=[body(calls)], exports=[export(b"f")])


def names(n):
    """Names of functions, of 100 bytes each."""
    entries = vector([u32(i) + name(b"n%099d" % i) for i in range(n)])
    return module(bodies=[TRAP], customs=[custom(b"name", section(1, entries))])


def frames(n):
    return dump(b"d", [], [], [frame(0, 1, [], [])] * n)


def values(n):
    return dump(b"d", [], [], [frame(0, 1, [i32(i) for i in range(n)], [i32(None)] * n)])


def instances(n):
    return HEADER + custom(b"core", b"\0" + name(b"d")) + custom(b"coreinstances", vector([b"\0\0\0\0"] * n))


def globals_of(n):
    return dump(b"d", [], range(n), []) + section(6, vector([b"\x7f\0\x41\0\x0b"] * n))


def overlaid(n):
    memory = section(5, vector([b"\0\1"]))
    return dump(b"d", [0], [], []) + memory + section(11, vector([b"\0\x41\0\x0b" + name(bytes(1000))] * n))


# `f` asks for 1,000 replies.
ASKING = module(
    types=[NOTHING, b"\x60\0\1\x7f"],
    imports=[name(b"env") + name(b"read") + b"\0\1"],
    memories=[b"\0\1"],
    bodies=[body(b"\x10\0\x1a" * 1000)],
    exports=[export(b"f", 1)],
)


def lines(n):
    return {"m": ASKING, "r": b"i32:7\n" * n}, ["run", "m", "f", "--replies", "r"]


def writes(n):
    return {"m": ASKING, "r": b"i32:7" + b" 16=01" * n + b"\ni32:7" * 999}, ["run", "m", "f", "--replies", "r"]


def invocations(n):
    return {"m": module(bodies=[body(b"")], exports=[export(b"f")])}, ["run", "m", "f", *["+", "f"] * n]


def over(make, *words):
    """The words over the file that is made."""
    return lambda n: ({"m": make(n)}, list(words))


CHECK, RUN, INSTRUMENT, SHOW = ("check", "m"), ("run", "m", "f0"), ("instrument", "m", "o"), ("show", "m")
SHAPES = [
    ("check: many functions and exports", over(functions, *CHECK), 50_000, 200_000),
    ("check: long names of exports", over(long_exports, *CHECK), 10_000, 40_000),
    ("check: wide types", over(types, *CHECK), 50_000, 200_000),
    ("check: many imports", over(imports, *CHECK), 50_000, 200_000),
    ("check: blocks in a row", over(sequence, *CHECK), 500_000, 2_000_000),
    ("check: 1,000 nested blocks", over(nesting, *CHECK), 500, 2_000),
    ("check: a wide table of branches", over(wide_branch, *CHECK), 1_000_000, 4_000_000),
    ("check: wide branches out of deep blocks", over(deep_branches, *CHECK), 500, 2_000),
    ("check: groups of no locals", over(no_locals, *CHECK), 1_000_000, 4_000_000),
    ("check: operators above many operands", over(high_stack, *CHECK), 500_000, 2_000_000),
    ("check: dead code", over(dead_code, *CHECK), 1_000_000, 4_000_000),
    ("check: long spellings", over(padded, *CHECK), 500_000, 2_000_000),
    ("check: many custom sections", over(customs, *CHECK), 200_000, 800_000),
    ("check: names of functions", over(names, *CHECK), 50_000, 200_000),
    ("check: a huge count", over(counted, *CHECK), 500_000, 2_000_000),
    ("check: calls of many types", over(indirect, *CHECK), 10_000, 40_000),
    ("run: many functions and exports", over(functions, *RUN), 50_000, 200_000),
    ("run: wide types", over(types, "run", "m", "f"), 20_000, 80_000),
    ("run: many segments of elements", over(elements, "run", "m", "f"), 100_000, 400_000),
    ("run: many segments of data", over(segments, "run", "m", "f"), 100_000, 400_000),
    ("run: many replies", lines, 200_000, 800_000),
    ("run: many writes of a reply", writes, 200_000, 800_000),
    ("run: many invocations", invocations, 5_000, 20_000),
    ("instrument: many functions and exports", over(functions, *INSTRUMENT), 10_000, 40_000),
    ("instrument: 1,000 nested blocks", over(nesting, *INSTRUMENT), 50, 200),
    ("instrument: a wide table of branches", over(wide_branch, *INSTRUMENT), 500_000, 2_000_000),
    ("instrument: wide branches out of deep blocks", over(deep_branches, *INSTRUMENT), 50, 200),
    ("instrument: calls of many types", over(indirect, *INSTRUMENT), 500, 2_000),
    ("instrument: dead code", over(dead_code, *INSTRUMENT), 100_000, 400_000),
    ("show: many frames", over(frames, *SHOW), 16_000, 64_000),
    ("show: many values", over(values, *SHOW), 200_000, 800_000),
    ("show: many instances", over(instances, *SHOW), 500_000, 2_000_000),
    ("show: many globals", over(globals_of, *SHOW), 100_000, 400_000),
    ("show: segments over each other", over(overlaid, *SHOW), 10_000, 40_000),
]
