"""Modules with debugging information whose shape costs much, and dumps of them, for shapes.py."""
import struct

from writer import HEADER, custom, dump, frame, name, section, u32, vector

# Function 0 calls itself at 7, and traps at 5.
CODE = b"\0\x41\0\x04\x40\0\x0b\x10\0\x0b"
# Addresses from 1 on: a function at 0 is one that the linker removed.
ALL = struct.pack("<II", 1, 0x7FFFFFFE)
NONE = struct.pack("<II", 0x7FFFFFF0, 1)
# What stands in front of the directories of a line program.
PARAMETERS = bytes([1, 1, 1, 0xFB, 14, 13]) + bytes([0, 1, 1, 1, 1, 0, 0, 0, 1, 0, 0, 1])

# Attributes and forms of DWARF 4, by their names there.
NAME, SIZE, STATEMENTS, LOW, HIGH, VALUE = 0x03, 0x0B, 0x10, 0x11, 0x12, 0x1C
COUNT, MEMBER_AT, ENCODING, SPECIFICATION, TYPE, RANGES = 0x37, 0x38, 0x3E, 0x47, 0x49, 0x55
CALL_FILE, CALL_LINE, LOCATION = 0x58, 0x59, 0x02
ADDR, DATA4, STRING, DATA8, DATA1, STRP, REF4, OFFSET, EXPRESSION = 0x01, 0x06, 0x08, 0x07, 0x0B, 0x0E, 0x13, 0x17, 0x18
LINE_STRP = 0x1F

# Each kind of entry: its tag, whether it has children, and its attributes with their forms.
KINDS = {
    "unit": (0x11, 1, [(LOW, ADDR), (HIGH, DATA4)]),
    "unit with lines": (0x11, 1, [(LOW, ADDR), (HIGH, DATA4), (STATEMENTS, OFFSET)]),
    "function": (0x2E, 1, [(NAME, STRING), (LOW, ADDR), (HIGH, DATA4)]),
    "variable": (0x34, 0, [(NAME, STRING), (TYPE, REF4), (LOCATION, EXPRESSION)]),
    "variable in a list": (0x34, 0, [(NAME, STRING), (TYPE, REF4), (LOCATION, OFFSET)]),
    "variable of .debug_str": (0x34, 0, [(NAME, STRP), (TYPE, REF4), (LOCATION, EXPRESSION)]),
    "specified variable": (0x34, 0, [(SPECIFICATION, REF4), (LOCATION, EXPRESSION)]),
    "array": (0x01, 1, [(TYPE, REF4)]),
    "subrange": (0x21, 0, [(COUNT, DATA8)]),
    "base": (0x24, 0, [(NAME, STRING), (ENCODING, DATA1), (SIZE, DATA1)]),
    "typedef": (0x16, 0, [(NAME, STRING), (TYPE, REF4)]),
    "structure": (0x13, 1, [(NAME, STRING), (SIZE, DATA4)]),
    "member": (0x0D, 0, [(NAME, STRING), (TYPE, REF4), (MEMBER_AT, DATA4)]),
    "enumeration": (0x04, 1, [(NAME, STRING), (SIZE, DATA1)]),
    "enumerator": (0x28, 0, [(NAME, STRING), (VALUE, DATA4)]),
    "block": (0x0B, 1, [(LOW, ADDR), (HIGH, DATA4)]),
    "block of ranges": (0x0B, 1, [(RANGES, OFFSET)]),
    "inlined": (0x1D, 1, [(NAME, STRING), (LOW, ADDR), (HIGH, DATA4), (CALL_FILE, DATA1), (CALL_LINE, DATA1)]),
    "unit of lines alone": (0x11, 0, [(STATEMENTS, OFFSET)]),
    "bounded function": (0x2E, 0, [(LOW, ADDR), (HIGH, DATA4)]),
    "listed function": (0x2E, 0, [(RANGES, OFFSET)]),
    "bounded block": (0x0B, 0, [(LOW, ADDR), (HIGH, DATA4)]),
    "listed block": (0x0B, 0, [(RANGES, OFFSET)]),
    "short subrange": (0x21, 0, [(COUNT, DATA1)]),
    "bounded inlined": (0x1D, 0, [(LOW, ADDR), (HIGH, DATA4)]),
}
CODES = {kind: u32(code) for code, kind in enumerate(KINDS, 1)}


def row(code, tag, children, slots):
    """A row of a table of abbreviations; `slots` are its attributes with their forms, as they are spelled."""
    return code + u32(tag) + bytes([children]) + slots + b"\0\0"


def declaration(code, kind):
    tag, children, pairs = KINDS[kind]
    return row(code, tag, children, b"".join(u32(a) + u32(f) for a, f in pairs))


ABBREVIATIONS = b"".join(declaration(CODES[kind], kind) for kind in KINDS) + b"\0"


def unit(entries, abbreviations=0, version=4):
    if version == 5:
        return struct.pack("<IHBBI", len(entries) + 8, 5, 1, 4, abbreviations) + entries
    return struct.pack("<IHIB", len(entries) + 7, 4, abbreviations, 4) + entries


class Entries:
    """The entries of one unit, byte by byte; `at` is where the next one stands in it. The first one is the root."""

    def __init__(self, lines=False, version=4, root=b""):
        self.version = version
        self.bytes = bytearray(root)
        if not root:
            self.add("unit with lines" if lines else "unit", ALL + (b"\0\0\0\0" if lines else b""))

    def at(self):
        return (12 if self.version == 5 else 11) + len(self.bytes)

    def add(self, kind, contents):
        place = self.at()
        self.bytes += CODES[kind] + contents
        return place

    def close(self):
        self.bytes += b"\0"

    def base(self):
        return self.add("base", b"char\0\x08\1")

    def function(self):
        self.add("function", b"f\0" + ALL)

    def variable(self, of, title=b"v"):
        """At address 16 of the memory."""
        self.add("variable", title + b"\0" + struct.pack("<I", of) + b"\x05\x03" + struct.pack("<I", 16))

    def done(self):
        """Closes a function and the unit."""
        return unit(bytes(self.bytes) + b"\0\0", version=self.version)


def program(info, sections=(), abbreviations=ABBREVIATIONS, customs=(), code=CODE):
    """The module with these sections of debugging information."""
    plain = [(1, [b"\x60\0\0"]), (3, [b"\0"]), (5, [b"\0\1"]), (7, [name(b"f") + b"\0\0"]), (10, [name(code)])]
    told = [(b".debug_abbrev", abbreviations), (b".debug_info", info), *sections]
    parts = [section(number, vector(items)) for number, items in plain]
    return HEADER + b"".join(parts + [custom(title, contents) for title, contents in told] + list(customs))


def stopped(calls, trap=5, values=()):
    """A dump of the trap under frames that call at these offsets; these locals are recorded of each frame."""
    memory = section(5, vector([b"\0\1"]))
    return dump(b"d", [0], [], [frame(0, at, values, []) for at in [trap, *calls]]) + memory


def debugged(info, *commands, count=1, calls=None, **rest):
    return {"m": program(info, **rest), "d": stopped(calls or [7] * (count - 1))}, ["debug", "m", "d", *commands]


def typed(make):
    """A variable of the type that is made."""

    def made(n):
        entries = Entries()
        kind = make(entries, entries.base(), n)
        entries.function()
        entries.variable(kind)
        return debugged(entries.done(), "vars")

    return made


def cycle(entries, _base, n):
    start = entries.at()
    for i in range(n):
        entries.add("typedef", b"t\0" + struct.pack("<I", start + 7 * ((i + 1) % n)))
    return start


def subranges(entries, base, n):
    start = entries.add("array", struct.pack("<I", base))
    for i in range(n):
        entries.add("subrange", struct.pack("<Q", 1 if i % 2 else 1 << 40))
    entries.close()
    return start


def members(entries, base, n):
    start = entries.add("structure", b"s\0" + struct.pack("<I", n))
    for i in range(n):
        entries.add("member", b"m\0" + struct.pack("<II", base, i % 60000))
    entries.close()
    return start


def doubled(entries, base, n):
    """Each structure has the one before it twice."""
    for _ in range(n):
        inner = base
        base = entries.add("structure", b"s\0" + struct.pack("<I", 1))
        for title in (b"m\0", b"k\0"):
            entries.add("member", title + struct.pack("<II", inner, 0))
        entries.close()
    return base


def enumerators(entries, _base, n):
    """An enumeration, of which the value 0 is the last one."""
    start = entries.add("enumeration", b"e\0\4")
    for i in range(n):
        entries.add("enumerator", b"e\0" + struct.pack("<I", n - 1 - i))
    entries.close()
    return start


def variables(n):
    entries = Entries()
    base = entries.base()
    entries.function()
    for i in range(n):
        entries.variable(base, b"v%d" % i)
    return debugged(entries.done(), "vars", "print v0")


def blocks(n):
    entries = Entries()
    base = entries.base()
    entries.function()
    for i in range(n):
        entries.add("block", ALL)
        entries.variable(base, b"v%d" % i)
    for _ in range(n):
        entries.close()
    return debugged(entries.done(), "vars")


def inlined(n):
    entries = Entries()
    entries.function()
    for i in range(n):
        entries.add("inlined", b"g%d\0" % i + ALL + b"\1\1")
    for _ in range(n):
        entries.close()
    return debugged(entries.done(), "bt")


def units(n):
    """Units without anything, of one large table of abbreviations."""
    table = b"".join(u32(code) + u32(0x34) + b"\0\0\0" for code in range(100, n + 100)) + ABBREVIATIONS
    return debugged(unit(CODES["unit"] + ALL + b"\0") * n, "bt", abbreviations=table)


def units_in_turn(n):
    """Units of two large tables of abbreviations, each of the other one than the unit before it."""
    table = b"".join(u32(code) + u32(0x34) + b"\0\0\0" for code in range(100, n + 100)) + ABBREVIATIONS
    pair = [unit(CODES["unit"] + ALL + b"\0", at) for at in (0, len(table))]
    return debugged(b"".join(pair) * (n // 2), "bt", abbreviations=table + table)


def functions(n, **rest):
    """Functions in front of the one that holds the addresses of the frames."""
    entries = Entries()
    for i in range(n):
        entries.add("function", b"f%d\0" % i + NONE)
        entries.close()
    entries.function()
    return debugged(entries.done(), "bt", **rest)


def functions_and_frames(n):
    return functions(n, count=n)


def many_calls(n):
    """The offsets of calls, and the code that makes them."""
    return {"calls": [7 + 2 * i for i in range(n)], "code": CODE[:-3] + b"\x10\0" * n + b"\x0b"}


def functions_and_addresses(n):
    """Frames of as many calls as there are functions."""
    return functions(n, **many_calls(n))


def strings(n):
    """Names of variables which all stand at the start of one long string."""
    entries = Entries()
    base = entries.base()
    for _ in range(n):
        entries.add("variable of .debug_str", struct.pack("<II", 0, base) + b"\x05\x03" + struct.pack("<I", 16))
    entries.function()
    return debugged(entries.done(), "bt", sections=[(b".debug_str", b"x" * (10 * n) + b"\0")])


def listed(n):
    """A variable whose place is told in the last entry of a list."""
    entries = Entries()
    base = entries.base()
    entries.function()
    entries.add("variable in a list", b"v\0" + struct.pack("<II", base, 0))
    none = NONE[:4] + struct.pack("<I", 0x7FFFFFF8) + b"\1\0\x30"
    last = struct.pack("<II", 1, 0x7FFFFFF0) + b"\2\0\x30\x9f" + bytes(8)
    return debugged(entries.done(), "vars", sections=[(b".debug_loc", none * n + last)])


def ranged(n):
    """Blocks of one list of ranges, as many as it has entries, of which none holds the address."""
    entries = Entries()
    base = entries.base()
    entries.function()
    for _ in range(n):
        entries.add("block of ranges", struct.pack("<I", 0))
        entries.close()
    entries.variable(base)
    ranges = struct.pack("<II", 0x7FFFFFF0, 0x7FFFFFF8) * n + bytes(8)
    return debugged(entries.done(), "vars", sections=[(b".debug_ranges", ranges)])


def specified(n):
    """Variables of which each is specified by the next one, and the last by the first."""
    entries = Entries()
    entries.function()
    start = entries.at()
    for i in range(n):
        entries.add("specified variable", struct.pack("<I", start + 7 * ((i + 1) % n)) + b"\1\x30")
    return debugged(entries.done(), "vars")


def line_program(files, code):
    head = PARAMETERS + b"\0" + b"".join(files) + b"\0"
    rest = struct.pack("<HI", 4, len(head)) + head + code
    return struct.pack("<I", len(rest)) + rest


def line_program_5(offsets, code):
    """The names of files stand at these offsets of .debug_line_str."""
    table = b"\1\1" + u32(LINE_STRP)
    head = PARAMETERS + table + u32(1) + bytes(4) + table + u32(len(offsets)) + struct.pack("<%dI" % len(offsets), *offsets)
    rest = struct.pack("<HBBI", 5, 4, 0, len(head)) + head + code
    return struct.pack("<I", len(rest)) + rest


def with_lines(lines, *commands, sections=()):
    entries = Entries(lines=True)
    entries.function()
    return debugged(entries.done(), *commands, sections=[(b".debug_line", lines), *sections])


def rows(n):
    return with_lines(line_program([b"a.c\0\0\0\0"], b"\x01\x3d" * n + b"\0\1\1"), "bt")


def sequences(n):
    one = b"\0\5\2" + struct.pack("<I", 1) + b"\1\x02\x08\0\1\1"
    return with_lines(line_program([b"a.c\0\0\0\0"], one * n), "bt")


def files(n):
    return with_lines(line_program([b"f%d.c\0\0\0\0" % i for i in range(n)], b"\1\x02\xff\x7f\0\1\1"), "bt")


def files_of_one_string(n):
    """Files whose names all stand at the start of one long string."""
    lines = line_program_5([0] * n, b"\0\5\2" + struct.pack("<I", 1) + b"\1\x02\xff\x7f\0\1\1")
    return with_lines(lines, "bt", sections=[(b".debug_line_str", b"x" * (10 * n) + b"\0")])


def shared_lines(n):
    """Units of one long line program."""
    entries = Entries(lines=True)
    lines = line_program([b"a.c\0\0\0\0"], b"\x01\x3d" * n + b"\0\1\1")
    one = unit(CODES["unit with lines"] + ALL + bytes(4) + b"\0")
    entries.function()
    return debugged(one * n + entries.done(), "bt", sections=[(b".debug_line", lines)])


def programs_and_addresses(n):
    """Units of which each has a line program that holds the address of one frame."""
    made = many_calls(n)
    start = 1 + len(u32(len(made["code"])))
    units, lines = bytearray(), bytearray()
    for offset in made["calls"]:
        units += unit(CODES["unit with lines"] + ALL + struct.pack("<I", len(lines)) + b"\0")
        lines += line_program([b"a.c\0\0\0\0"], b"\0\5\2" + struct.pack("<I", start + offset) + b"\1\x02\x02\0\1\1")
    entries = Entries()
    entries.function()
    return debugged(bytes(units) + entries.done(), "bt", sections=[(b".debug_line", bytes(lines))], **made)


def function_names(n):
    entries = vector([u32(i) + name(b"n%099d" % i) for i in range(n)])
    return debugged(b"", "bt", customs=[custom(b"name", section(1, entries))])


def deep_frames(n):
    return debugged(b"", "bt", count=n)


def commands(n):
    return debugged(b"", *["x 0 1"] * n)


SHAPES = [
    ("debug: a cycle of typedefs", typed(cycle), 200_000, 800_000),
    ("debug: an array of many subranges", typed(subranges), 200_000, 800_000),
    ("debug: a structure of many members", typed(members), 100_000, 400_000),
    ("debug: structures of structures", typed(doubled), 11, 13),
    ("debug: an enumeration of many values", typed(enumerators), 200_000, 800_000),
    ("debug: many variables", variables, 50_000, 200_000),
    ("debug: nested blocks", blocks, 5_000, 20_000),
    ("debug: nested inlined subroutines", inlined, 20_000, 80_000),
    ("debug: many units of one table of abbreviations", units, 20_000, 80_000),
    ("debug: units of two tables of abbreviations in turn", units_in_turn, 1_000, 4_000),
    ("debug: many functions", functions, 100_000, 400_000),
    ("debug: many frames over many functions", functions_and_frames, 2_000, 8_000),
    ("debug: many addresses over many functions", functions_and_addresses, 2_000, 8_000),
    ("debug: many addresses over many line programs", programs_and_addresses, 2_000, 8_000),
    ("debug: many names in one string", strings, 2_000, 8_000),
    ("debug: a long location list", listed, 100_000, 400_000),
    ("debug: many blocks of one list of ranges", ranged, 2_000, 8_000),
    ("debug: a cycle of specifications", specified, 10_000, 40_000),
    ("debug: many rows", rows, 200_000, 800_000),
    ("debug: many sequences", sequences, 50_000, 200_000),
    ("debug: many files", files, 100_000, 400_000),
    ("debug: many files in one string", files_of_one_string, 2_000, 8_000),
    ("debug: many units of one line program", shared_lines, 10_000, 40_000),
    ("debug: long names of functions", function_names, 50_000, 200_000),
    ("debug: many frames", deep_frames, 16_000, 64_000),
    ("debug: many commands", commands, 10_000, 40_000),
]
