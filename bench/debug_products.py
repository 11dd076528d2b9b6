"""Modules with debugging information, of which a reader could take the product of two counts that both grow with the bytes, and dumps of them, for
costs.py. Each is made for a number of bytes, of which each of the two takes about a half.
"""
import itertools
import struct

from debug_shapes import (
    ABBREVIATIONS,
    CODES,
    LOW,
    NONE,
    VALUE,
    Entries,
    debugged,
    enumerators,
    line_program,
    many_calls,
    program,
    row,
    stopped,
    unit,
)
from writer import custom, i32, section, u32, vector

# Attributes and forms of DWARF 4 and 5 that debug_shapes does not use.
TYPE, DECLARED_LINE, DECLARATION, EXTERNAL = 0x49, 0x3B, 0x3C, 0x3F
ADDR, DATA1, REF4, PRESENT, IMPLICIT = 0x01, 0x0B, 0x13, 0x19, 0x21
# The code of a row of a table that a shape adds.
OWN = u32(100)
NOTHING_THERE = struct.pack("<I", 0)
# An operator that does nothing, and the value 0.
NOP, ZERO = b"\x96", b"\x30\x9f"


def with_row(tag, children, slots):
    """The table of abbreviations with one row more, of the code OWN."""
    return ABBREVIATIONS[:-1] + row(OWN, tag, children, slots) + b"\0"


def slot(attribute, form):
    return u32(attribute) + u32(form)


def in_function(entries, base, count, **rest):
    """`vars` on so many variables of a type."""
    entries.function()
    for _ in range(count):
        entries.variable(base)
    return debugged(entries.done(), "vars", **rest)


# ---- tables of abbreviations

UNIT_ROW, OTHER_ROW = (row(code, 0x11, 0, b"") for code in (b"\1", b"\2"))


def units_of_rows(size, version=4):
    """Units of one byte of entries, each with the table that begins with another row of one table."""
    n = size // (17 if version == 4 else 18)
    info = b"".join(unit(b"\1", len(UNIT_ROW) * i, version) for i in range(n))
    return debugged(info, "bt", abbreviations=UNIT_ROW * n + b"\0")


def units_of_last_row(size):
    """The same, where the code that they use is that of the last row alone."""
    n = size // 17
    info = b"".join(unit(b"\1", len(UNIT_ROW) * i) for i in range(n))
    return debugged(info, "bt", abbreviations=OTHER_ROW * (n - 1) + UNIT_ROW + b"\0")


def units_of_inner_rows(size):
    """Units of one entry of version 5, each of a row that stands inside the one of the unit before it: code, tag and the byte on children are there an
    attribute, its form, and its value, which takes no bytes of the entry.
    """
    code = u32(EXTERNAL)
    head = code + u32(IMPLICIT) + b"\0"
    info = b"".join(unit(code, len(head) * i, 5) for i in range(size // 26))
    return debugged(info, "bt", abbreviations=head * (size // 6) + bytes(3))


# ---- attributes

def short_entries(size):
    """Entries of one byte, without attributes."""
    entries = Entries()
    entries.bytes += OWN * size
    return debugged(entries.done(), "bt", abbreviations=with_row(0x34, 0, b""))


def entries_of_flags(size):
    """Entries of one byte, with attributes without bytes that nothing looks at."""
    entries = Entries()
    entries.bytes += OWN * (size // 2)
    return debugged(entries.done(), "bt", abbreviations=with_row(0x34, 0, slot(EXTERNAL, PRESENT) * (size // 4)))


def entries_of_two_flags(size):
    """The same with two attributes in turn."""
    entries = Entries()
    entries.bytes += OWN * (size // 2)
    pair = slot(EXTERNAL, PRESENT) + slot(DECLARATION, PRESENT)
    return debugged(entries.done(), "bt", abbreviations=with_row(0x34, 0, pair * (size // 8)))


def pairs_alone(size):
    """One entry, of an abbreviation that is nearly all of the module."""
    entries = Entries()
    entries.bytes += OWN
    pair = slot(0x7F, PRESENT) + slot(0x7E, PRESENT)
    return debugged(entries.done(), "bt", abbreviations=with_row(0x34, 0, pair * (size // 4)))


def entries_beside_a_lost_reference(size):
    """Entries of one byte, in a unit with a reference that meets none."""
    entries = Entries()
    entries.bytes += OWN * size
    entries.function()
    entries.variable(0x7FFFFFFF)
    return debugged(entries.done(), "bt", abbreviations=with_row(0x34, 0, b""))


def entries_of_constants(size):
    """Entries of one byte of version 5, with one attribute over and over, whose value stands in the abbreviation."""
    entries = Entries(version=5)
    entries.bytes += OWN * (size // 2)
    return debugged(entries.done(), "bt", abbreviations=with_row(0x34, 0, (slot(VALUE, IMPLICIT) + b"\1") * (size // 6)))


def variables_of_long_typedef(size):
    """Variables of a type whose entry says what it stands for behind other attributes."""
    m = size // 6
    entries = Entries()
    base = entries.base()
    kind = entries.at()
    entries.bytes += OWN + bytes(m) + struct.pack("<I", base)
    table = with_row(0x16, 0, slot(DECLARED_LINE, DATA1) * m + slot(TYPE, REF4))
    return in_function(entries, kind, size // 26, abbreviations=table)


def variables_of_long_root(size):
    """Variables with a location list each, which counts from an address that the root says behind other attributes."""
    m = size // 6
    entries = Entries(root=OWN + bytes(m) + struct.pack("<I", 1))
    base = entries.base()
    entries.function()
    for _ in range(size // 22):
        entries.add("variable in a list", b"v\0" + struct.pack("<II", base, 0))
    table = with_row(0x11, 1, slot(DECLARED_LINE, DATA1) * m + slot(LOW, ADDR))
    return debugged(entries.done(), "vars", abbreviations=table, sections=[(b".debug_loc", bytes(8))])


# ---- lists; a step is how many entries a list begins behind the one before it

def offsets(count, step, length, width):
    """Where so many lists begin among so many entries of a width."""
    return (struct.pack("<I", i * step % length * width) for i in range(count))


def functions_of_lists(size, step, version=4):
    n = size // 10
    title, one = (b".debug_ranges", NONE) if version == 4 else (b".debug_rnglists", b"\4\0\0")
    m = size // 2 // len(one)
    entries = Entries(version=version)
    for offset in offsets(n, step, m, len(one)):
        entries.add("listed function", offset)
    entries.function()
    return debugged(entries.done(), "bt", "vars", sections=[(title, one * m + bytes(8))])


def blocks_of_lists(size):
    m = size // 16
    entries = Entries()
    entries.function()
    for offset in offsets(size // 10, 1, m, 8):
        entries.add("listed block", offset)
    return debugged(entries.done(), "bt", "vars", sections=[(b".debug_ranges", NONE * m + bytes(8))])


def variables_of_lists(size, step, version=4):
    long_entry = NONE[:4] + struct.pack("<I", 0x7FFFFFF8) + b"\1\0\x30"
    title, one = (b".debug_loc", long_entry) if version == 4 else (b".debug_loclists", b"\4\0\0\0")
    m = size // 2 // len(one)
    entries = Entries(version=version)
    base = entries.base()
    entries.function()
    for offset in offsets(size // 22, step, m, len(one)):
        entries.add("variable in a list", b"v\0" + struct.pack("<I", base) + offset)
    return debugged(entries.done(), "vars", sections=[(title, one * m + bytes(8))])


def units_of_bases(size):
    """Units with a subprogram each, of one list that counts from another address in each of them."""
    listed = CODES["listed function"] + NOTHING_THERE + b"\0"
    info = b"".join(unit(CODES["unit"] + struct.pack("<II", i + 1, 0) + listed) for i in range(size // 52))
    entries = Entries()
    entries.function()
    return debugged(info + entries.done(), "bt", "vars", sections=[(b".debug_ranges", NONE * (size // 16) + bytes(8))])


def frames_of_lists(size):
    """Frames at addresses of their own, over subprograms with a short list."""
    calls = size // 66
    entries = Entries()
    entries.bytes += (CODES["listed function"] + NOTHING_THERE) * ((size - 10 * calls) // 5)
    entries.function()
    return debugged(entries.done(), "bt", sections=[(b".debug_ranges", NONE + bytes(8))], **many_calls(calls))


# ---- variables and their types

def variables_of_expression(size, version=4):
    """Variables of one list, of which one entry has a long expression: in version 4 of at most 65,535 bytes."""
    length = min(size // 2, 0xFFFF) if version == 4 else size // 2
    code = NOP * (length - len(ZERO)) + ZERO
    if version == 4:
        held = (b".debug_loc", struct.pack("<IIH", 1, 0x7FFFFFF0, length) + code + bytes(8))
    else:
        held = (b".debug_loclists", b"\5" + u32(length) + code + b"\0")
    entries = Entries(version=version)
    base = entries.base()
    entries.function()
    for _ in range((size - length) // 11):
        entries.add("variable in a list", b"v\0" + struct.pack("<I", base) + NOTHING_THERE)
    return debugged(entries.done(), "vars", sections=[held])


def variables_of_enumeration(size):
    """Variables of an enumeration, whose value is the last of its enumerators."""
    entries = Entries()
    return in_function(entries, enumerators(entries, 0, size // 14), size // 26)


def variables_of_array(size):
    """Variables of an array without elements of many subranges."""
    entries = Entries()
    start = entries.add("array", struct.pack("<I", entries.base()))
    entries.bytes += (CODES["short subrange"] + b"\0") * (size // 4)
    entries.close()
    return in_function(entries, start, size // 26)


def variables_of_structure(size):
    """Variables of a structure with many entries in it, of which none is a member."""
    entries = Entries()
    start = entries.add("structure", b"s\0" + struct.pack("<I", 4))
    entries.bytes += (CODES["short subrange"] + b"\0") * (size // 4)
    entries.close()
    return in_function(entries, start, size // 26)


# ---- paths and names

def indices(size):
    """A path of many indices into as many subranges, and more."""
    entries = Entries()
    start = entries.add("array", struct.pack("<I", entries.base()))
    entries.bytes += (CODES["short subrange"] + b"\1") * (size // 2)
    entries.close()
    entries.function()
    entries.variable(start)
    return debugged(entries.done(), "print v" + "[0]" * (size // 100))


def member_steps(size):
    """A path of many steps to the last one of many members, which has the type of the structure that it is in."""
    entries = Entries()
    base = entries.base()
    start = entries.add("structure", b"s\0" + struct.pack("<I", 4))
    entries.bytes += (CODES["member"] + b"k\0" + struct.pack("<II", base, 0)) * (size // 11)
    entries.add("member", b"m\0" + struct.pack("<II", start, 0))
    entries.close()
    entries.function()
    entries.variable(start)
    return debugged(entries.done(), "print v" + ".m" * (size // 100) + ".k")


def long_names(size):
    """A long name, and variables of a name that differs from it in the last byte."""
    length = size // 40
    entries = Entries()
    base = entries.base()
    entries.function()
    for _ in range(size // 15):
        entries.add("variable of .debug_str", struct.pack("<II", 0, base) + b"\x05\x03" + struct.pack("<I", 16))
    texts = [(b".debug_str", b"x" * (length - 1) + b"y\0")]
    return debugged(entries.done(), "print " + "x" * length, sections=texts)


# ---- commands

def frame_commands(size):
    """Commands on a frame, and subprograms in front of the one where it stands."""
    entries = Entries()
    entries.bytes += (CODES["bounded function"] + NONE) * (size // 10)
    entries.function()
    return debugged(entries.done(), *["frame 0"] * (size // 80))


def variable_commands(size):
    """Commands that print variables, of which there are none, behind many subprograms."""
    entries = Entries()
    entries.bytes += (CODES["bounded function"] + NONE) * (size // 10)
    entries.function()
    return debugged(entries.done(), *["vars"] * (size // 80))


def print_commands(size):
    """Commands that print a variable of another name than those that are there."""
    entries = Entries()
    base = entries.base()
    entries.function()
    for _ in range(size // 15):
        entries.variable(base)
    return debugged(entries.done(), *["print w"] * (size // 80))


def found_commands(size):
    """Commands that print the first and the last of many variables in turn."""
    n = size // 20
    entries = Entries()
    base = entries.base()
    entries.function()
    for i in range(n):
        entries.variable(base, b"v%d" % i)
    return debugged(entries.done(), *["print v0", f"print v{n - 1}"] * (size // 160))


def empty_structure(entries):
    start = entries.add("structure", b"s\0" + struct.pack("<I", 4))
    entries.close()
    return start


def commands_on_type(size, make):
    """Commands that print one variable of a type, beside many entries that no command asks for."""
    entries = Entries()
    entries.bytes += (CODES["bounded function"] + NONE) * (size // 10)
    kind = make(entries)
    entries.function()
    entries.variable(kind)
    return debugged(entries.done(), *["vars", "print v"] * (size // 160))


# ---- frames

def frames_of_scopes(size, kind="bounded block", bounds=lambda number: NONE):
    """Frames at addresses of their own in a subprogram with many entries of this kind, which hold none of them."""
    calls = size // 66
    entries = Entries()
    entries.function()
    entries.bytes += b"".join(CODES[kind] + bounds(number) for number in range((size - 10 * calls) // 9))
    return debugged(entries.done(), "bt", **many_calls(calls))


def far_bounds(number):
    """The bounds of an entry that stand apart from those of all others."""
    return struct.pack("<II", 0x40000000 + 4 * number, 2)


def frames_of_lines(size, code):
    """Frames at addresses of their own, over one line program; `code` are its opcodes for so many bytes."""
    calls = size // 66
    entries = Entries(lines=True)
    entries.function()
    lines = line_program([b"a.c\0\0\0\0"], code(size - 10 * calls))
    return debugged(entries.done(), "bt", sections=[(b".debug_line", lines)], **many_calls(calls))


def at_address(address):
    """Opcodes that append a row at an address."""
    return b"\0\5\2" + struct.pack("<I", address) + b"\1"


# Behind this many bytes more the sequence ends.
END = b"\x02\xff\xff\x7f\0\1\1"


def overlapping_sequences(size):
    """Sequences that hold the same addresses, none of which has a frame, and behind them the one of all frames."""
    far = at_address(0x40000000) + b"\x02\x08\0\1\1"
    return far * (size // len(far)) + at_address(1) + END


def falling_rows(size):
    """A sequence of many rows, of which one goes back to a lower address."""
    return at_address(1) + at_address(0x40000000) + at_address(1) + b"\1" * size + END


def frames_of_groups(size):
    """Frames with one recorded local each, of a function with many groups of no locals."""
    calls = size // 66
    groups = vector([b"\1\x7f"] + [b"\0\x7f"] * ((size - 11 * calls) // 2))
    made = many_calls(calls)
    behind = len(groups) - 1
    calls = [at + behind for at in made["calls"]]
    module = program(b"", code=groups + made["code"][1:])
    return {"m": module, "d": stopped(calls, 5 + behind, [i32(7)])}, ["debug", "m", "d", "bt"]


# ---- line programs

def tail_of_rows(size):
    """The opcodes of one sequence of as many rows as bytes."""
    return b"\1" * size + b"\0\1\1"


def tail_of_sequences(size):
    """The opcodes of sequences that hold addresses."""
    one = at_address(0x40000000) + b"\xff\0\1\1"
    return one * (size // len(one))


def programs_of_one_tail(size, tail):
    """Line programs of which each has the next ones in it, in an opcode that is passed over, and `tail` for so many bytes at the end. Their opcodes but 0 are all special."""
    n, end = size // 72, tail(size // 2)
    parameters = bytes([1, 1, 0xFB, 14, 1])
    wrap = b"\0" + u32(18) + b"\x80"
    length = 20 * n - len(wrap) + len(end)
    heads = (struct.pack("<IHI", length - 20 * i - 4, 3, 7) + parameters + b"\0\0" for i in range(n))
    lines = wrap.join(heads) + end
    info = b"".join(unit(CODES["unit of lines alone"] + struct.pack("<I", 20 * i)) for i in range(n))
    entries = Entries()
    entries.function()
    return debugged(info + entries.done(), "bt", sections=[(b".debug_line", lines)])


def hash_of(key):
    """What the library's hash table makes of a key of four bytes: the halves of products, joined by exclusive or."""
    number = (0x243F6A8885A308D3 ^ (key | key << 32)) * (0x9E3779B97F4A7C15 ^ 8)
    folded = number & (1 << 64) - 1 ^ number >> 64
    return (folded ^ folded >> 32) & 0xFFFFFFFF


def crowded(count):
    """So many keys that are all looked for from the first sixteenth of a table on, which has a group for each nine keys at most."""
    groups = 1
    while 9 * groups < count:
        groups *= 2
    return itertools.islice((key for key in range(1, 1 << 32) if (hash_of(key) & groups - 1) * 16 < groups), count)


def colliding_programs(size):
    """Units that name line programs at offsets which collide, where nothing stands."""
    head = CODES["unit of lines alone"]
    info = b"".join(unit(head + struct.pack("<I", key)) for key in crowded(size // 16))
    return debugged(info, "bt")


def colliding_names(size):
    """Empty names of functions whose numbers collide."""
    entries = vector([u32(key) + b"\0" for key in crowded(size // 6)])
    return debugged(b"", "bt", customs=[custom(b"name", section(1, entries))])


SHAPES = [
    ("short entries", short_entries),
    ("units of all rows of a table of abbreviations", units_of_rows),
    ("units of all rows of a table of abbreviations, version 5", lambda size: units_of_rows(size, version=5)),
    ("units of all rows, whose code is that of the last one", units_of_last_row),
    ("units of rows inside one row, version 5", units_of_inner_rows),
    ("short entries beside a reference that meets none", entries_beside_a_lost_reference),
    ("entries of flags without bytes", entries_of_flags),
    ("entries of two flags in turn", entries_of_two_flags),
    ("an abbreviation of pairs alone", pairs_alone),
    ("entries of constants without bytes, version 5", entries_of_constants),
    ("a type behind many attributes", variables_of_long_typedef),
    ("the base of lists behind many attributes", variables_of_long_root),
    ("subprograms of one list", lambda size: functions_of_lists(size, 0)),
    ("subprograms of overlapping lists", lambda size: functions_of_lists(size, 1)),
    ("subprograms of overlapping lists, version 5", lambda size: functions_of_lists(size, 1, version=5)),
    ("subprograms of one list with another base each", units_of_bases),
    ("blocks of overlapping lists", blocks_of_lists),
    ("variables of one list", lambda size: variables_of_lists(size, 0)),
    ("variables of overlapping lists", lambda size: variables_of_lists(size, 1)),
    ("variables of overlapping lists, version 5", lambda size: variables_of_lists(size, 1, version=5)),
    ("variables of one long expression", variables_of_expression),
    ("variables of one long expression, version 5", lambda size: variables_of_expression(size, version=5)),
    ("variables of one enumeration", variables_of_enumeration),
    ("variables of one array of many subranges", variables_of_array),
    ("variables of one structure with other entries in it", variables_of_structure),
    ("a path of many indices", indices),
    ("a path of many members", member_steps),
    ("a long name", long_names),
    ("commands `frame` over many subprograms", frame_commands),
    ("commands `vars` over many subprograms", variable_commands),
    ("commands `print` over many variables", print_commands),
    ("commands `print` of the first and the last variable", found_commands),
    ("commands on a structure beside many entries", lambda size: commands_on_type(size, empty_structure)),
    ("commands on an enumeration beside many entries", lambda size: commands_on_type(size, lambda entries: enumerators(entries, 0, 20))),
    ("frames over many blocks", frames_of_scopes),
    ("frames over many inlined subroutines", lambda size: frames_of_scopes(size, "bounded inlined")),
    ("frames over inlined subroutines that stand apart", lambda size: frames_of_scopes(size, "bounded inlined", far_bounds)),
    ("frames over subprograms with lists", frames_of_lists),
    ("frames over overlapping sequences", lambda size: frames_of_lines(size, overlapping_sequences)),
    ("frames over rows that do not ascend", lambda size: frames_of_lines(size, falling_rows)),
    ("frames over groups of no locals", frames_of_groups),
    ("line programs of one tail", lambda size: programs_of_one_tail(size, tail_of_rows)),
    ("line programs of one tail of sequences", lambda size: programs_of_one_tail(size, tail_of_sequences)),
    ("line programs whose offsets collide", colliding_programs),
    ("names of functions whose numbers collide", colliding_names),
]
