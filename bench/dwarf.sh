#!/bin/sh
# Units, lists and line programs of real modules, as the readers give them beside llvm-dwarfdump, entry by entry, address by address
# and row by row: C programs that clang 14 and clang 19 make, of versions 4 and 5, plain and optimized, and one module with units
# of both versions. Then the milliseconds for 10 MB of units and their line programs, beside llvm-dwarfdump, and for 5 MB of a line
# program and the lines of 20,000 addresses in it, beside llvm-dwarfdump and llvm-symbolizer. Needs clang and lld of both versions,
# llvm-dwarfdump, llvm-symbolizer and python3. The program that prints is made in a folder of its own, from the crates of this checkout.
set -eu
top=$(cd "$(dirname "$0")/.." && pwd)
work=$(mktemp -d)
trap 'rm -rf "$work"' EXIT
helper="$top/bench/compare_dwarf.py"
crates=$(python3 - "$top" <<'PROGRAM'
import sys
sys.path.insert(0, sys.argv[1])
from build import below, listed
lines = listed()
print(*sorted(below("dwarf5_info", lines) | below("dwarf5_line", lines)))
PROGRAM
)
mkdir -p "$work/crates/print_dwarf/src"
for crate in $crates; do
  mkdir "$work/crates/$crate"
  for part in src specs proofs; do
    if [ -d "$top/crates/$crate/$part" ]; then cp -r "$top/crates/$crate/$part" "$work/crates/$crate/"; fi
  done
  grep "^$crate:" "$top/crates.txt" >> "$work/crates.txt"
done
echo "print_dwarf: $crates" >> "$work/crates.txt"
cat > "$work/crates/print_dwarf/src/main.rt" <<'PROGRAM'
//! Prints the units and the line programs of the sections in a folder, a value a line.
#![tactic(auto)]
ghost use Rattle.std.specs.Prelude.{◌≤◌, vec_len, IfOk};
ghost use Rattle.dwarf_info.specs.Sections.{IsReadable5};

use dwarf_info::{AttrValue, Attribute, Entry, Sections, Sections5, Unit, UnitAnswer, Units};
use dwarf_bytes::ReadFault;
use dwarf_line::Lines;
use dwarf_loc::Span;
use dwarf5_info::{list_base, location5_at, range5_holds, read_units5};
use dwarf5_line::read_lines5;
use std::alloc::Global;
use std::{env, fs};
use std::io::{self, BufWriter, Write};
use std::time::Instant;

const LONGEST: usize = 134_217_728;

// Lists are looked at from 0 up to here.
const ADDRESSES: u32 = 16_384;

// How many addresses are looked up in a line program, from 16 on.
const LOOK_UPS: u32 = 20_000;

/// The bytes of a section, which are those of a file of its name.
fn section(rt: &HostRuntime, folder: &str, name: &str) -> io::Result<Vec<u8>>
    ensures { IfOk result (λ bytes. vec_len bytes ≤ 134_217_728) }
{
    let path = format!(in rt.alloc(); "{folder}/{name}")?;
    let bytes = fs::read(rt, path.as_str())?;
    if bytes.len() > LONGEST {
        return Err(io::ErrorKind::InvalidData.into());
    }
    Ok(bytes)
}

fn print_bytes<W: Write>(out: &mut W, class: &str, bytes: &[u8]) -> io::Result<()> {
    write!(out, "{class} ")?;
    for byte in bytes {
        write!(out, "{byte:02x}")?;
    }
    writeln!(out)
}

fn print_attribute<W: Write>(out: &mut W, attribute: &Attribute<'_>) -> io::Result<()> {
    let name = attribute.name;
    write!(out, "attribute {name} ")?;
    match &attribute.value {
        AttrValue::Address(at) => writeln!(out, "address {at}"),
        AttrValue::Constant(n) => writeln!(out, "constant {n}"),
        AttrValue::Signed(n) => writeln!(out, "signed {n}"),
        AttrValue::Block(bytes) => print_bytes(out, "block", bytes.as_slice()),
        AttrValue::Text(bytes) => print_bytes(out, "text", bytes.as_slice()),
        AttrValue::Flag(flag) => writeln!(out, "flag {flag}"),
        AttrValue::Reference(at) => writeln!(out, "reference {at}"),
        AttrValue::Offset(at) => writeln!(out, "offset {at}"),
        AttrValue::Other => writeln!(out, "other"),
    }
}

fn location_in(
    sections: &Sections5<'_>,
    unit: &Unit<'_>,
    at: usize,
    address: u32,
) -> Result<Option<Span>, ReadFault> {
    if unit.version == 5 {
        location5_at(sections, unit, at, address)
    } else {
        dwarf_loc::location_at(sections.base.loc, at, list_base(unit), address)
    }
}

fn range_in(
    sections: &Sections5<'_>,
    unit: &Unit<'_>,
    at: usize,
    address: u32,
) -> Result<bool, ReadFault> {
    if unit.version == 5 {
        range5_holds(sections, unit, at, address)
    } else {
        dwarf_loc::range_holds(sections.base.ranges, at, list_base(unit), address)
    }
}

/// What a list says of an address: nothing, or the bytes that count, which are none in a range list.
fn said<'a>(
    sections: &Sections5<'a>,
    unit: &Unit<'_>,
    is_location: bool,
    at: usize,
    address: u32,
) -> Result<Option<&'a [u8]>, ReadFault> {
    if !is_location {
        let is_held = range_in(sections, unit, at, address)?;
        return Ok(if is_held { Some(&[]) } else { None });
    }
    let section = if unit.version == 5 { sections.loclists } else { sections.base.loc };
    match location_in(sections, unit, at, address)? {
        Some(span) => Ok(section.get(span.at..span.at.saturating_add(span.len))),
        None => Ok(None),
    }
}

/// A line for each address at which what the list says is not what it said of the address before.
fn print_list<W: Write>(
    out: &mut W,
    sections: &Sections5<'_>,
    unit: &Unit<'_>,
    is_location: bool,
    at: usize,
) -> io::Result<()> {
    writeln!(out, "list")?;
    let mut before: Option<&[u8]> = None;
    for address in 0..ADDRESSES {
        let Ok(here) = said(sections, unit, is_location, at, address) else {
            return writeln!(out, "unreadable list {at}");
        };
        if here == before {
            continue;
        }
        write!(out, "from {address} ")?;
        match here {
            Some(bytes) => print_bytes(out, "held", bytes)?,
            None => writeln!(out, "nothing")?,
        }
        before = here;
    }
    Ok(())
}

/// The list that an attribute refers to: a location or a frame base, or ranges.
fn print_list_of<W: Write>(
    out: &mut W,
    sections: &Sections5<'_>,
    unit: &Unit<'_>,
    attribute: &Attribute<'_>,
) -> io::Result<()> {
    match (attribute.name, &attribute.value) {
        (0x02 | 0x40, AttrValue::Offset(at)) => print_list(out, sections, unit, true, *at as usize),
        (0x55, AttrValue::Offset(at)) => print_list(out, sections, unit, false, *at as usize),
        _ => Ok(()),
    }
}

fn print_entry<W: Write>(
    out: &mut W,
    sections: &Sections5<'_>,
    unit: &Unit<'_>,
    entry: &Entry<'_>,
) -> io::Result<()> {
    let at = entry.at;
    let depth = entry.depth;
    let tag = entry.tag;
    writeln!(out, "entry {at} {depth} {tag}")?;
    for attribute in entry.attributes.as_slice() {
        print_attribute(out, attribute)?;
        print_list_of(out, sections, unit, attribute)?;
    }
    Ok(())
}

fn print_unit<W: Write>(
    out: &mut W,
    sections: &Sections5<'_>,
    unit: &Unit<'_>,
) -> io::Result<()> {
    let at = unit.at;
    let version = unit.version;
    writeln!(out, "unit {at} {version}")?;
    for entry in unit.entries.as_slice() {
        print_entry(out, sections, unit, entry)?;
    }
    Ok(())
}

fn print_lines<W: Write>(out: &mut W, at: u32, lines: &Lines<'_>) -> io::Result<()> {
    let first = lines.first;
    writeln!(out, "lines {at} {first}")?;
    for directory in lines.directories.as_slice() {
        print_bytes(out, "directory", directory.as_slice())?;
    }
    for file in lines.files.as_slice() {
        let directory = file.directory;
        write!(out, "file {directory} ")?;
        print_bytes(out, "name", file.name.as_slice())?;
    }
    for sequence in lines.sequences.as_slice() {
        for row in sequence.rows.as_slice() {
            let (address, file, line, column) = (row.address, row.file, row.line, row.column);
            writeln!(out, "row {address} {line} {column} {file}")?;
        }
        let end = sequence.end;
        writeln!(out, "end {end}")?;
    }
    Ok(())
}

/// The offset of the line program of a unit.
fn line_program(unit: &Unit<'_>) -> Option<u32> {
    let root = unit.entries.as_slice().first()?;
    for attribute in root.attributes.as_slice() {
        if let AttrValue::Offset(at) = &attribute.value
            && attribute.name == 0x10
        {
            return Some(*at);
        }
    }
    None
}

fn print_program<W: Write>(
    out: &mut W,
    alloc: Global,
    sections: &Sections5<'_>,
    unit: &Unit<'_>,
) -> io::Result<()> {
    let Some(at) = line_program(unit) else {
        return Ok(());
    };
    match read_lines5(alloc, sections, at as usize) {
        Ok(lines) => print_lines(out, at, &lines),
        Err(_) => writeln!(out, "unreadable lines {at}"),
    }
}

/// How many line programs have a reading.
fn programs_read(alloc: Global, sections: &Sections5<'_>, units: &Units<'_>) -> usize {
    let mut read = 0usize;
    for answer in units.as_slice() {
        if let UnitAnswer::Tree(unit) = answer
            && let Some(at) = line_program(unit)
            && read_lines5(alloc, sections, at as usize).is_ok()
        {
            read = read.saturating_add(1);
        }
    }
    read
}

fn print_all<W: Write>(
    out: &mut W,
    alloc: Global,
    sections: &Sections5<'_>,
    units: &Units<'_>,
) -> io::Result<()> {
    for answer in units.as_slice() {
        match answer {
            UnitAnswer::Tree(unit) => {
                print_unit(out, sections, unit)?;
                print_program(out, alloc, sections, unit)?;
            }
            UnitAnswer::Unreadable { section: _, at } => writeln!(out, "unreadable unit {at}")?,
        }
    }
    Ok(())
}

/// The line of each of many addresses, and 0 where it has none.
fn print_look_ups(rt: &HostRuntime, sections: &Sections5<'_>) -> io::Result<()> {
    let start = Instant::now(rt)?;
    let Ok(lines) = read_lines5(rt.alloc(), sections, 0) else {
        return Err(io::ErrorKind::InvalidData.into());
    };
    let read = start.elapsed(rt)?.as_millis();
    let mut out = BufWriter::new(rt.alloc(), io::writer(rt))?;
    let start = Instant::now(rt)?;
    for number in 0..LOOK_UPS {
        let address = 16 + 409 * number;
        let line = match lines.place(address) {
            Some(row) => row.line,
            None => 0,
        };
        writeln!(out, "{address} {line}")?;
    }
    let placed = start.elapsed(rt)?.as_millis();
    writeln!(out, "read {read} ms, looked up {placed} ms")?;
    out.flush()
}

/// Reads all units and their line programs, and prints them, or how many milliseconds the reading took.
fn read_and_print(rt: &HostRuntime, sections: &Sections5<'_>, prints: bool) -> io::Result<()>
    requires { IsReadable5 sections.now }
{
    let start = Instant::now(rt)?;
    let Ok(units) = read_units5(rt.alloc(), sections) else {
        return Err(io::ErrorKind::OutOfMemory.into());
    };
    let mut out = BufWriter::new(rt.alloc(), io::writer(rt))?;
    if prints {
        print_all(&mut out, rt.alloc(), sections, &units)?;
        return out.flush();
    }
    let read = start.elapsed(rt)?.as_millis();
    let start = Instant::now(rt)?;
    let programs = programs_read(rt.alloc(), sections, &units);
    let lines = start.elapsed(rt)?.as_millis();
    writeln!(out, "units {read} ms, {programs} line programs {lines} ms")?;
    out.flush()
}

fn run(rt: &HostRuntime, folder: &str, mode: &str) -> io::Result<()> {
    let info = section(rt, folder, "debug_info")?;
    let abbrev = section(rt, folder, "debug_abbrev")?;
    let line = section(rt, folder, "debug_line")?;
    let str = section(rt, folder, "debug_str")?;
    let loc = section(rt, folder, "debug_loc")?;
    let ranges = section(rt, folder, "debug_ranges")?;
    let line_str = section(rt, folder, "debug_line_str")?;
    let str_offsets = section(rt, folder, "debug_str_offsets")?;
    let addr = section(rt, folder, "debug_addr")?;
    let loclists = section(rt, folder, "debug_loclists")?;
    let rnglists = section(rt, folder, "debug_rnglists")?;
    let sections = Sections5 {
        base: Sections {
            info: info.as_slice(),
            abbrev: abbrev.as_slice(),
            line: line.as_slice(),
            str: str.as_slice(),
            loc: loc.as_slice(),
            ranges: ranges.as_slice(),
        },
        line_str: line_str.as_slice(),
        str_offsets: str_offsets.as_slice(),
        addr: addr.as_slice(),
        loclists: loclists.as_slice(),
        rnglists: rnglists.as_slice(),
    };
    match mode {
        "look-ups" => print_look_ups(rt, &sections),
        _ => read_and_print(rt, &sections, mode == "print"),
    }
}

/// The words are a folder of sections and `print`, `time` or `look-ups`.
fn main(rt: HostRuntime) -> io::Result<()> {
    let mut words = env::args(&rt)?.skip(1);
    let (Some(folder), Some(mode)) = (words.next(), words.next()) else {
        return Err(io::ErrorKind::InvalidInput.into());
    };
    run(&rt, folder.as_str(), mode.as_str())
}
PROGRAM
cat > "$work/shapes.c" <<'PROGRAM'
typedef unsigned char byte;
enum color { RED, GREEN = 7, BLUE = -1 };
union both { int number; char bytes[4]; };
struct node { struct node *next; const char *name; unsigned wide : 5; int low : 3; union both value; enum color color; };
static struct node nodes[3];
static const volatile int limits[2][3] = {{1, 2, 3}, {4, 5, 6}};
static inline int sum(const struct node *restrict node) {
  int total = 0;
  for (; node; node = node->next) {
    int here = node->value.number;
    if (here > limits[1][2]) { byte low = (byte)here; total += low; }
    total += here;
  }
  return total;
}
int (*chosen)(const struct node *);
int shapes(int seed) {
  for (int i = 0; i < 3; i++) {
    nodes[i].next = i ? &nodes[i - 1] : 0;
    nodes[i].value.number = seed * i;
    nodes[i].color = i == 2 ? BLUE : GREEN;
  }
  chosen = sum;
  return sum(&nodes[2]) + chosen(&nodes[1]);
}
PROGRAM
cat > "$work/calls.c" <<'PROGRAM'
static long long mix(long long a, long long b) { return (a ^ b) * 1099511628211LL; }
static inline __attribute__((always_inline)) int twice(int n) { int doubled = n + n; return doubled; }
static inline __attribute__((always_inline)) int fourfold(int n) { return twice(twice(n)); }
static short table[16];
__attribute__((noinline)) static int fill(int count) {
  for (int i = 0; i < count; i++) table[i & 15] = (short)fourfold(i);
  return table[count & 15];
}
int calls(int seed) {
  long long hash = 14695981039346656037ULL;
  switch (seed & 3) {
  case 0: hash = mix(hash, fill(seed)); break;
  case 1: hash = mix(fill(3), seed); break;
  default: { int deep = fourfold(seed); hash = mix(deep, hash); }
  }
  return (int)hash + twice(seed);
}
PROGRAM
cp "$top"/bench/programs/*.c "$work/"

shown() { # MODULE DWARFDUMP
  python3 "$helper" sections "$1" "$work/sections"
  "$print" "$work/sections" print > "$work/text"
  "$2" -v --debug-info "$1" > "$work/info"
  "$2" --debug-line "$1" > "$work/line"
  python3 "$helper" compare "$work/text" "$work/info" "$work/line" || status=1
}

cd "$work/crates/print_dwarf"
rt run -- "$work" print > "$work/log" 2>&1 || true
print="$work/crates/print_dwarf/out/print_dwarf"
if [ ! -x "$print" ]; then cat "$work/log"; exit 1; fi
cd "$work"
status=0
for version in 14 19; do
  for name in compress hash sort shapes calls; do
    for dwarf in 4 5; do
      for level in O0 O2; do
        "clang-$version" --target=wasm32 -nostdlib -g "-gdwarf-$dwarf" "-$level" -c -o "$name-$dwarf-$level.o" "$name.c"
        "wasm-ld-$version" --no-entry --export-all -o module.wasm "$name-$dwarf-$level.o"
        printf 'clang %s, %s.c, version %s, %s:\n' "$version" "$name" "$dwarf" "$level"
        shown "$work/module.wasm" "llvm-dwarfdump-$version"
      done
    done
  done
  "wasm-ld-$version" --no-entry --export-all -o module.wasm shapes-4-O0.o calls-5-O2.o hash-5-O0.o
  printf 'clang %s, units of both versions:\n' "$version"
  shown "$work/module.wasm" "llvm-dwarfdump-$version"
done
for dwarf in 4 5; do
  clang-19 --target=wasm32 -nostdlib -g "-gdwarf-$dwarf" -O2 -c -o large.o compress.c
  wasm-ld-19 --no-entry --export-all -o module.wasm large.o
  python3 "$helper" sections module.wasm sections
  printf 'version %s:\n' "$dwarf"
  python3 "$helper" repeat sections 10000000 large
  for round in 1 2 3; do
    /usr/bin/time -f '  %e s, %M KiB at most' "$print" large time
    /usr/bin/time -f '  llvm-dwarfdump, which prints them: %e s, %M KiB at most' llvm-dwarfdump-19 --debug-info large/module.wasm > /dev/null
  done
done
for dwarf in 4 5; do
  clang-19 --target=wasm32 -nostdlib -g "-gdwarf-$dwarf" -O2 -c -o large.o calls.c
  wasm-ld-19 --no-entry --export-all -o module.wasm large.o
  python3 "$helper" sections module.wasm sections
  printf 'version %s:\n' "$dwarf"
  python3 "$helper" lines sections 5000000 many
  for round in 1 2 3; do
    /usr/bin/time -f '  %e s, %M KiB at most' "$print" many look-ups > looked-up
    tail -n 1 looked-up | sed 's/^/  /'
    /usr/bin/time -f '  llvm-symbolizer, the same addresses: %e s, %M KiB at most' llvm-symbolizer-19 --obj=many/module.wasm < many/addresses > symbolized
    /usr/bin/time -f '  llvm-dwarfdump, which prints the rows: %e s, %M KiB at most' llvm-dwarfdump-19 --debug-line many/module.wasm > /dev/null
  done
  python3 "$helper" looked-up looked-up symbolized || status=1
done
exit "$status"
