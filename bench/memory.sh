#!/bin/sh
# Milliseconds of 10^8 loads and stores of a linear memory, beside the same loop over one vector. Then the peak of the program that
# makes them: it has a memory of 4,096 pages of which two are written, and drops 1,000 memories of 16 written pages one after another.
# Where valgrind is there, it looks on as memories grow, are copied and dropped: nothing is in use at the exit. No contract says that.
# The programs are made in a folder of their own, from the crates of this checkout.
set -eu
top=$(cd "$(dirname "$0")/.." && pwd)
work=$(mktemp -d)
trap 'rm -rf "$work"' EXIT
mkdir "$work/crates"
for crate in causes linear_memory; do
  mkdir "$work/crates/$crate"
  for part in src specs proofs; do
    if [ -d "$top/crates/$crate/$part" ]; then cp -r "$top/crates/$crate/$part" "$work/crates/$crate/"; fi
  done
done
grep -E '^(causes|linear_memory):' "$top/crates.txt" > "$work/crates.txt"
printf 'speed: causes linear_memory\ndrops: causes linear_memory\n' >> "$work/crates.txt"
mkdir -p "$work/crates/speed/src" "$work/crates/drops/src"
cat > "$work/crates/drops/src/main.rt" <<'PROGRAM'
#![tactic(auto)]

use causes::NoMemory;
use linear_memory::Memory;
use std::alloc::Global;

fn made_and_dropped(alloc: Global) -> Result<u64, NoMemory> {
    let mut memory = Memory::new(alloc, 4, 40)?;
    let _ = memory.store(65_533, 8, 81_985_529_216_486_895);
    let _ = memory.grow(20);
    let _ = memory.write(1_000_000, b"bytes");
    let _ = memory.fill(200_000, 1, 300_000);
    let mut other = memory.copy_of()?;
    let _ = other.copy(0, 100_000, 400_000);
    drop(memory);
    Ok(other.load(150_000, 4).unwrap_or(0))
}

fn main(rt: HostRuntime) {
    let _ = made_and_dropped(rt.alloc());
}
PROGRAM
cat > "$work/crates/speed/src/main.rt" <<'PROGRAM'
#![tactic(auto)]
ghost use Rattle.std.specs.Prelude.{◌≡◌};

use causes::NoMemory;
use linear_memory::Memory;
use std::alloc::Global;
use std::time::Instant;

const COUNT: u32 = 50_000_000;

fn next(seed: u64) -> u64 {
    seed.wrapping_mul(6_364_136_223_846_793_005).wrapping_add(1_442_695_040_888_963_407)
}

#[inline(never)]
fn over_pages(memory: &mut Memory) -> u64 {
    let mut seed = 1;
    let mut sum = 0u64;
    for _ in 0..COUNT {
        seed = next(seed);
        let at = (seed >> 47) * 8;
        if let Some(value) = memory.load(at, 8) {
            sum = sum.wrapping_add(value);
        }
        let _ = memory.store(at, 8, sum ^ seed);
    }
    sum
}

fn load(bytes: &[u8], at: u64) -> Option<u64> {
    let len = bytes.len() as u64;
    if at > len || len - at < 8 {
        return None;
    }
    let i = at as usize;
    Some(u64::from_le_bytes([
        bytes[i], bytes[i + 1], bytes[i + 2], bytes[i + 3], bytes[i + 4], bytes[i + 5], bytes[i + 6], bytes[i + 7],
    ]))
}

fn store(bytes: &mut [u8], at: u64, value: u64) -> bool {
    let len = bytes.len() as u64;
    if at > len || len - at < 8 {
        return false;
    }
    let i = at as usize;
    bytes[i..i + 8].copy_from_slice(&value.to_le_bytes());
    true
}

#[inline(never)]
fn over_vector(bytes: &mut [u8]) -> u64 {
    let mut seed = 1;
    let mut sum = 0u64;
    for _ in 0..COUNT {
        seed = next(seed);
        let at = (seed >> 47) * 8;
        if let Some(value) = load(bytes, at) {
            sum = sum.wrapping_add(value);
        }
        let _ = store(bytes, at, sum ^ seed);
    }
    sum
}

fn dropped(alloc: Global) {
    for _ in 0..1000 {
        if let Ok(mut memory) = Memory::new(alloc, 16, 16) {
            let _ = memory.fill(0, 1, 1_048_576);
        }
    }
}

fn main(rt: HostRuntime) -> Result<(), std::io::Error> {
    let alloc = rt.alloc();
    let Ok(mut large) = Memory::new(alloc, 4096, 4096) else {
        return Ok(());
    };
    let _ = large.store(0, 8, 1);
    let _ = large.store(268_435_448, 8, 1);
    dropped(alloc);
    let Ok(mut memory) = Memory::new(alloc, 16, 16) else {
        return Ok(());
    };
    let _ = memory.fill(0, 1, 1_048_576);
    let mut bytes = Vec::from_elem(alloc, 1u8, 1_048_576)?;
    for _ in 0..5 {
        let start = Instant::now(&rt)?;
        let sum = over_pages(&mut memory);
        let pages = start.elapsed(&rt)?;
        let start = Instant::now(&rt)?;
        let plain = over_vector(&mut bytes);
        let vector = start.elapsed(&rt)?;
        let same = if sum == plain { "same" } else { "different" };
        println!(rt; "{} {} {}", pages.as_millis(), vector.as_millis(), same)?;
    }
    Ok(())
}
PROGRAM
cd "$work/crates/speed"
rt run > "$work/log" 2>&1 || true
awk '
  NF == 3 && $3 == "same" { n++; if (n == 1 || $1 < pages) pages = $1; if (n == 1 || $2 < vector) vector = $2 }
  END {
    if (n != 5) { print "no result"; exit 1 }
    printf "10^8 loads and stores, the least of five runs: pages %d ms, vector %d ms, %.2f times\n", pages, vector, pages / vector
  }' "$work/log" || { cat "$work/log"; exit 1; }
printf 'the program with its memories: '
/usr/bin/time -f '%M KiB at most' "$work/crates/speed/out/speed" > /dev/null
if command -v valgrind > /dev/null; then
  cd "$work/crates/drops"
  rt run > "$work/log" 2>&1 || { cat "$work/log"; exit 1; }
  valgrind --leak-check=full --error-exitcode=9 "$work/crates/drops/out/drops" 2>&1 | grep -E 'total heap usage|in use at exit|ERROR SUMMARY'
fi
