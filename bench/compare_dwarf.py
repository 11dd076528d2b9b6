"""Helps bench/dwarf.sh with DWARF in modules.

    compare_dwarf.py sections MODULE FOLDER       writes each section of debugging information to a file of its name
    compare_dwarf.py compare TEXT INFO LINE       compares what the readers print with what llvm-dwarfdump prints of units (verbosely),
                                                  with the lists that they refer to, and of line programs
    compare_dwarf.py repeat FOLDER BYTES OUT      the sections of FOLDER with the units repeated up to so many bytes, and a module of them
    compare_dwarf.py lines FOLDER BYTES OUT       one unit whose line program has the sequences of the first program of FOLDER, one behind
                                                  the other, up to so many bytes; a module of it, and addresses in it
    compare_dwarf.py looked-up TEXT SYMBOLS       compares the lines of addresses with those that llvm-symbolizer gives

What llvm-dwarfdump shows as a name alone (a source file, some encodings) and operators that the table below has not are
counted and not compared.
"""

import os
import re
import sys

SECTIONS = "info abbrev line str loc ranges line_str str_offsets addr loclists rnglists".split()

# DWARF 5 sections 7.5.3 and 7.5.4: what C compilers write.
TAGS = dict(
    array_type=0x01, class_type=0x02, enumeration_type=0x04, formal_parameter=0x05, label=0x0A, lexical_block=0x0B, member=0x0D,
    pointer_type=0x0F, compile_unit=0x11, structure_type=0x13, subroutine_type=0x15, typedef=0x16, union_type=0x17,
    unspecified_parameters=0x18, inlined_subroutine=0x1D, subrange_type=0x21, base_type=0x24, const_type=0x26, enumerator=0x28,
    subprogram=0x2E, variable=0x34, volatile_type=0x35, restrict_type=0x37, call_site=0x48, call_site_parameter=0x49,
    GNU_call_site=0x4109, GNU_call_site_parameter=0x410A,
)
NAMES = dict(
    location=0x02, name=0x03, byte_size=0x0B, bit_offset=0x0C, bit_size=0x0D, stmt_list=0x10, low_pc=0x11, high_pc=0x12, language=0x13, comp_dir=0x1B,
    const_value=0x1C, inline=0x20, producer=0x25, prototyped=0x27, upper_bound=0x2F, abstract_origin=0x31, artificial=0x34, count=0x37,
    data_member_location=0x38, decl_column=0x39, decl_file=0x3A, decl_line=0x3B, declaration=0x3C, encoding=0x3E, external=0x3F,
    frame_base=0x40, specification=0x47, type=0x49, ranges=0x55, call_column=0x57, call_file=0x58, call_line=0x59, data_bit_offset=0x6B,
    str_offsets_base=0x72, addr_base=0x73, rnglists_base=0x74, call_all_calls=0x7A, call_return_pc=0x7D, call_value=0x7E,
    call_origin=0x7F, call_pc=0x81, call_tail_call=0x82, call_target=0x83, noreturn=0x87, alignment=0x88, loclists_base=0x8C,
    GNU_all_call_sites=0x2117,
)
SYMBOLS = dict(
    DW_ATE_boolean=2, DW_ATE_signed=5, DW_ATE_signed_char=6, DW_ATE_unsigned=7, DW_ATE_unsigned_char=8, DW_LANG_C99=0x0C, DW_LANG_C11=0x1D,
    DW_INL_inlined=1,
)


def form_class(form):
    if re.fullmatch(r"addrx?\d?", form):
        return "address"
    if form in ("data1", "data2", "data4", "data8", "udata"):
        return "constant"
    if form in ("sdata", "implicit_const"):
        return "signed"
    if form.startswith("block") or form == "exprloc":
        return "block"
    if re.fullmatch(r"string|strp|line_strp|strx\d?", form):
        return "text"
    if form.startswith("flag"):
        return "flag"
    if form in ("sec_offset", "loclistx", "rnglistx"):
        return "offset"
    if form.startswith("ref") and form != "ref_sig8":
        return "reference"
    return "other"


def leb(data, at, signed=False):
    value, shift = 0, 0
    while True:
        byte = data[at]
        at += 1
        value |= (byte & 0x7F) << shift
        shift += 7
        if byte < 0x80:
            break
    if signed and byte & 0x40:
        value -= 1 << shift
    return value, at


OPERATORS = {0x06: "deref", 0x12: "dup", 0x13: "drop", 0x1A: "and", 0x1B: "div", 0x1C: "minus", 0x1D: "mod", 0x1E: "mul", 0x1F: "neg",
             0x20: "not", 0x21: "or", 0x22: "plus", 0x24: "shl", 0x25: "shr", 0x26: "shra", 0x27: "xor", 0x96: "nop", 0x9F: "stack_value"}
UNSIGNED = {0x10: "constu", 0x23: "plus_uconst", 0x93: "piece", 0xA1: "addrx", 0xA8: "convert"}
SIGNED = {0x11: "consts", 0x91: "fbreg"}


def expression(data):
    """As llvm-dwarfdump prints it, or None."""
    shown, at = [], 0
    while at < len(data):
        op = data[at]
        at += 1
        if 0x30 <= op <= 0x4F:
            shown.append("lit%d" % (op - 0x30))
        elif op in OPERATORS:
            shown.append(OPERATORS[op])
        elif op in UNSIGNED:
            value, at = leb(data, at)
            shown.append("%s 0x%x" % (UNSIGNED[op], value))
        elif op in SIGNED:
            value, at = leb(data, at, True)
            shown.append("%s %+d" % (SIGNED[op], value))
        elif op == 0x03:
            shown.append("addr 0x%x" % int.from_bytes(data[at:at + 4], "little"))
            at += 4
        elif op == 0xED:
            kind = data[at]
            if kind == 3:
                index, at = int.from_bytes(data[at + 1:at + 5], "little"), at + 5
            else:
                index, at = leb(data, at + 1)
            shown.append("WASM_location 0x%x 0x%x" % (kind, index))
        else:
            return None
    return ", ".join("DW_OP_" + one for one in shown)


def number(shown):
    for pattern, base in ((r"\(0x([0-9a-f]+)", 16), (r"\((-?\d+)\)", 10)):
        found = re.match(pattern, shown)
        if found:
            return int(found.group(1), base)
    found = re.match(r"\((DW_\w+)\)", shown)
    return SYMBOLS.get(found.group(1)) if found else None


def converted(shown):
    """With the offset of the type of a conversion alone, without its name."""
    return re.sub(r'convert \((0x[0-9a-f]+) -> 0x[0-9a-f]+\) "\w+"', lambda found: "convert %#x" % int(found.group(1), 16), shown)


def wanted(kind, form, shown):
    """What llvm-dwarfdump shows of a value; None where that is not comparable."""
    if kind == "address":
        found = re.search(r"address = 0x([0-9a-f]+)", shown)
        return int(found.group(1), 16) if found else number(shown)
    if kind in ("constant", "signed"):
        return number(shown)
    if kind == "text":
        return re.search(r'"(.*)"\)?$', shown).group(1).encode().hex()
    if kind == "flag":
        return "false" if shown.startswith("(0x00") or shown.startswith("(false") else "true"
    if kind == "reference":
        return int(re.search(r"\{0x([0-9a-f]+)\}", shown).group(1), 16)
    if kind == "offset":
        found = re.search(r"(?:loclist|rangelist) = 0x([0-9a-f]+)", shown)
        return int(found.group(1), 16) if found else number(shown)
    if kind == "block":
        return converted(shown.strip()[1:-1]) if form == "exprloc" else None
    return None


def dumped_units(path):
    """Units of llvm-dwarfdump: (offset, version, entries), an entry (offset, depth, tag, attributes), an attribute (name, class, value, list)."""
    units, entry = [], None
    for line in open(path, encoding="latin-1"):
        line = line.rstrip("\n")
        head = re.match(r"(0x[0-9a-f]+): Compile Unit: .*version = (0x[0-9a-f]+)", line)
        at = re.match(r"(0x[0-9a-f]+):( +)(DW_TAG_(\w+)|NULL)", line)
        found = re.match(r" +DW_AT_(\w+) \[DW_FORM_(\w+)\]\t(.*)", line)
        listed = re.match(r" +\[(0x[0-9a-f]+), (0x[0-9a-f]+)\)(?:: (.*?))?\)?$", line)
        if head:
            units.append((int(head.group(1), 16), int(head.group(2), 16), []))
        elif at:
            entry = None
            if at.group(4):
                entry = (int(at.group(1), 16), (len(at.group(2)) - 1) // 2, TAGS.get(at.group(4), at.group(4)), [])
                units[-1][2].append(entry)
        elif found and entry:
            name, form, shown = found.groups()
            kind = form_class(form)
            entry[3].append((NAMES.get(name, name), kind, wanted(kind, form, shown), []))
        elif listed and entry and entry[3]:
            entry[3][-1][3].append((int(listed.group(1), 16), int(listed.group(2), 16), converted(listed.group(3) or "")))
    return units


def runs_of(entries):
    """From which addresses on which expression counts, where the first entry that holds an address counts."""
    bounds = sorted({bound for entry in entries for bound in entry[:2]})
    runs, before = [], None
    for address in bounds:
        here = next((number for number, entry in enumerate(entries) if entry[0] <= address < entry[1]), None)
        if here is not None and before is not None and not entries[here][2]:
            continue
        if here != before:
            runs.append((address, entries[here][2] if here is not None else None))
        before = here
    return runs


def dumped_lines(path):
    """Line programs of llvm-dwarfdump: offset to (directories, files, sequences of rows and end)."""
    programs, names = {}, None
    for line in open(path, encoding="latin-1"):
        head = re.match(r"debug_line\[(0x[0-9a-f]+)\]", line)
        directory = re.match(r'include_directories\[ *\d+\] = .*"(.*)"', line)
        name = re.match(r' +name: .*"(.*)"', line)
        index = re.match(r" +dir_index: (\d+)", line)
        row = re.match(r"0x([0-9a-f]+) +(\d+) +(\d+) +(\d+) ", line)
        if head:
            names = ([], [], [[]])
            programs[int(head.group(1), 16)] = names
        elif directory:
            names[0].append(directory.group(1).encode().hex())
        elif name:
            file = name.group(1).encode().hex()
        elif index:
            names[1].append((file, int(index.group(1))))
        elif row:
            numbers = (int(row.group(1), 16),) + tuple(int(n) for n in row.groups()[1:])
            if "end_sequence" in line:
                names[2][-1].append(("end", numbers[0]))
                names[2].append([])
            else:
                names[2][-1].append(numbers)
    for names in programs.values():
        names[2].pop()
    return programs


def read_text(path):
    """The same of what the readers print."""
    units, programs, program = [], {}, None
    for line in open(path):
        words = line.split()
        kind, rest = words[0], words[1:]
        if kind == "unit":
            units.append((int(rest[0]), int(rest[1]), []))
        elif kind == "entry":
            units[-1][2].append((int(rest[0]), int(rest[1]), int(rest[2]), []))
        elif kind == "attribute":
            value = rest[2] if len(rest) > 2 else ""
            if rest[1] in ("address", "constant", "signed", "reference", "offset"):
                value = int(value)
            units[-1][2][-1][3].append((int(rest[0]), rest[1], value, []))
        elif kind == "from":
            held = None if rest[1] == "nothing" else rest[2] if len(rest) > 2 else ""
            units[-1][2][-1][3][-1][3].append((int(rest[0]), held))
        elif kind == "list":
            pass
        elif kind == "lines":
            program = ([], [], [[]])
            programs[int(rest[0])] = program
        elif kind == "directory":
            program[0].append(rest[0] if rest else "")
        elif kind == "file":
            program[1].append((rest[2] if len(rest) > 2 else "", int(rest[0])))
        elif kind == "row":
            program[2][-1].append(tuple(int(n) for n in rest))
        elif kind == "end":
            program[2][-1].append(("end", int(rest[0])))
            program[2].append([])
        else:
            units.append((line.strip(), None, []))
    for program in programs.values():
        program[2].pop()
    return units, programs


class Counts:
    def __init__(self):
        self.entries = self.values = self.unseen = self.lists = self.changes = self.rows = self.differences = 0

    def same(self, ours, theirs, where):
        if ours != theirs:
            self.differences += 1
            print("  differs at %s: %s, llvm-dwarfdump %s" % (where, ours, theirs))

    def attribute(self, ours, theirs, where):
        self.same(ours[:2], theirs[:2], where)
        value = ours[2]
        if ours[1] == "block" and theirs[2] is not None:
            value = expression(bytes.fromhex(value))
        if theirs[2] is None or value is None:
            self.unseen += 1
        else:
            self.values += 1
            self.same(value, theirs[2], where)
        self.list(ours[3], runs_of(theirs[3]), "the list of " + where)

    def list(self, ours, theirs, where):
        """From which addresses on which expression counts. An expression with an operator that is not compared counts as seen by class."""
        if ours or theirs:
            self.lists += 1
        self.same([run[0] for run in ours], [run[0] for run in theirs], where)
        for run, other in zip(ours, theirs):
            self.changes += 1
            value = run[1] and expression(bytes.fromhex(run[1]))
            if run[1] and value is None:
                self.unseen += 1
            else:
                self.same(value, other[1], where)

    def units(self, ours, theirs):
        self.same([unit[:2] for unit in ours], [unit[:2] for unit in theirs], "the units")
        for unit, other in zip(ours, theirs):
            self.same([entry[:3] for entry in unit[2]], [entry[:3] for entry in other[2]], "the entries of unit %s" % unit[0])
            for entry, dumped in zip(unit[2], other[2]):
                self.entries += 1
                self.same(len(entry[3]), len(dumped[3]), "the attributes of entry %d" % entry[0])
                for attribute, shown in zip(entry[3], dumped[3]):
                    self.attribute(attribute, shown, "entry %d, attribute 0x%x" % (entry[0], attribute[0]))

    def programs(self, ours, theirs):
        self.same(sorted(ours), sorted(theirs), "the line programs")
        for at in sorted(set(ours) & set(theirs)):
            for part, what in enumerate(("directories", "files", "rows")):
                self.same(ours[at][part], theirs[at][part], "%s of the line program at %d" % (what, at))
            self.rows += sum(len(rows) for rows in ours[at][2])


def compare(text, info, line):
    units, programs = read_text(text)
    counts = Counts()
    counts.units(units, dumped_units(info))
    counts.programs(programs, dumped_lines(line))
    print("  %d units, %d entries, %d values, %d lists with %d changes, %d rows; %d values seen by class alone; %d differences"
          % (len(units), counts.entries, counts.values, counts.lists, counts.changes, counts.rows, counts.unseen, counts.differences))
    return 1 if counts.differences else 0


def write_sections(found, folder):
    os.makedirs(folder, exist_ok=True)
    for name in SECTIONS:
        with open(os.path.join(folder, "debug_" + name), "wb") as file:
            file.write(found.get(".debug_" + name, b""))


def sections(module, folder):
    """The first custom section of each name counts."""
    data, at, found = open(module, "rb").read(), 8, {}
    while at < len(data):
        kind = data[at]
        length, at = leb(data, at + 1)
        end = at + length
        if kind == 0:
            size, begin = leb(data, at)
            found.setdefault(data[begin:begin + size].decode(), data[begin + size:end])
        at = end
    write_sections(found, folder)
    return 0


def spelled(value):
    out = b""
    while True:
        byte, value = value & 0x7F, value >> 7
        if not value:
            return out + bytes([byte])
        out += bytes([byte | 0x80])


def read_sections(folder):
    return {".debug_" + name: open(os.path.join(folder, "debug_" + name), "rb").read() for name in SECTIONS}


def write_module(found, out):
    write_sections(found, out)
    module = b"\0asm\1\0\0\0"
    for name, data in found.items():
        contents = spelled(len(name)) + name.encode() + data
        module += b"\0" + spelled(len(contents)) + contents
    with open(os.path.join(out, "module.wasm"), "wb") as file:
        file.write(module)


def repeat(folder, size, out):
    found = read_sections(folder)
    found[".debug_info"] *= 1 + int(size) // len(found[".debug_info"])
    write_module(found, out)
    print("  %d bytes of units, each with its line program of %d bytes" % (len(found[".debug_info"]), len(found[".debug_line"])))
    return 0


def sequences(program, at):
    """The sequences of a program whose opcodes begin at an offset: the bytes before and behind the opcode that sets its address."""
    found, begin = [], at
    while at < len(program):
        op, here = program[at], at
        at += 1
        if op == 0:
            length, at = leb(program, at)
            if program[at] == 2:
                before, behind = program[begin:here], at + length
            at += length
            if length == 1 and program[at - 1] == 1:
                found.append((before, program[behind:at]))
                begin = at
        elif op == 9:
            at += 2
        elif op in (2, 3, 4, 5, 12):
            at = leb(program, at)[1]
    return found


def lines(folder, size, out):
    """Each sequence gets 512 addresses of its own. The unit has the name, the directory, the addresses and the program alone."""
    program = read_sections(folder)[".debug_line"]
    version = program[4]
    at = 12 if version == 5 else 10
    begin = at + int.from_bytes(program[at - 4:at], "little")
    parts, address, count = [], 16, 0
    pieces = sequences(program, begin)
    while count < int(size):
        for before, behind in pieces:
            part = before + b"\0\5\2" + address.to_bytes(4, "little") + behind
            parts.append(part)
            count += len(part)
            address += 512
    contents = program[4:begin] + b"".join(parts)
    attributes = bytes.fromhex("03 08 10 17 11 01 12 06 00 00")
    root = b"\1t.c\0" + bytes(4) + bytes(4) + address.to_bytes(4, "little")
    head = b"\5\0\1\4" + bytes(4) if version == 5 else b"\4\0" + bytes(4) + b"\4"
    found = {".debug_" + name: b"" for name in SECTIONS}
    found[".debug_abbrev"] = b"\1\x11\0" + attributes + b"\0"
    found[".debug_info"] = (len(head) + len(root)).to_bytes(4, "little") + head + root
    found[".debug_line"] = len(contents).to_bytes(4, "little") + contents
    found[".debug_line_str"] = read_sections(folder)[".debug_line_str"]
    found[".debug_str"] = read_sections(folder)[".debug_str"]
    write_module(found, out)
    with open(os.path.join(out, "addresses"), "w") as file:
        for number in range(20000):
            file.write("0x%x\n" % (16 + 409 * number))
    print("  %d bytes of one line program, %d sequences" % (len(found[".debug_line"]), len(parts)))
    return 0


def looked_up(text, symbols):
    ours = [int(line.split()[1]) for line in open(text) if line[0].isdigit()]
    theirs = [int(line.rsplit(":", 2)[1]) for line in open(symbols) if re.search(r":\d+:\d+$", line)]
    differences = sum(a != b for a, b in zip(ours, theirs)) + abs(len(ours) - len(theirs))
    print("  %d addresses, %d with a line; %d differences" % (len(ours), sum(line > 0 for line in ours), differences))
    return 1 if differences else 0


if __name__ == "__main__":
    sys.exit({"sections": sections, "compare": compare, "repeat": repeat, "lines": lines, "looked-up": looked_up}[sys.argv[1]](*sys.argv[2:]))
