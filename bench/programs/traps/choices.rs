// Tells in a text what its variables hold, as a debugger prints them, and then loads where no memory is: out of bounds memory access. What Rust has of
// enumerations with data: with a discriminant of their own, with one in a niche, one inside another, of one variant alone, and in a structure.
#![no_std]
#![allow(dead_code)]

use core::panic::PanicInfo;

#[panic_handler]
fn stop(_: &PanicInfo) -> ! {
    core::arch::wasm32::unreachable()
}

/// It lies in one page, between two marks, so that it is found in a dump without debugging information.
#[repr(align(4096))]
struct Told([u8; 4096]);

static mut TOLD: Told = Told([0; 4096]);
static mut LENGTH: usize = 0;
static SEVEN: i32 = 7;

pub enum Shape {
    Empty,
    Circle(u32),
    Rectangle { width: i32, height: i32 },
}

pub enum Only {
    One(i32),
}

pub struct Held {
    shape: Shape,
    outcome: Result<u8, i64>,
    last: u8,
}

fn byte(b: u8) {
    unsafe {
        *(TOLD.0.as_mut_ptr().add(LENGTH)) = b;
        LENGTH = LENGTH.wrapping_add(1);
    }
}

fn put(text: &str) {
    for b in text.bytes() {
        byte(b);
    }
}

fn number(n: i64) {
    if n < 0 {
        put("-");
    }
    let mut left = n.unsigned_abs();
    let mut digits = [0u8; 20];
    let mut count = 0usize;
    loop {
        digits[count] = b'0' + (left % 10) as u8;
        left /= 10;
        count += 1;
        if left == 0 {
            break;
        }
    }
    for digit in digits[..count].iter().rev() {
        byte(*digit);
    }
}

fn address(of: *const i32) {
    put("0x");
    let mut shift = 32;
    while shift > 0 {
        shift -= 4;
        byte(b"0123456789abcdef"[((of as u32) >> shift & 15) as usize]);
    }
}

fn shape(told: &Shape) {
    match told {
        Shape::Empty => put("{Empty = {}}"),
        Shape::Circle(radius) => {
            put("{Circle = {__0 = ");
            number((*radius).into());
            put("}}");
        }
        Shape::Rectangle { width, height } => {
            put("{Rectangle = {width = ");
            number((*width).into());
            put(", height = ");
            number((*height).into());
            put("}}");
        }
    }
}

fn outcome(told: &Result<u8, i64>) {
    match told {
        Ok(value) => {
            put("{Ok = {__0 = ");
            number((*value).into());
        }
        Err(value) => {
            put("{Err = {__0 = ");
            number(*value);
        }
    }
    put("}}");
}

fn whole(told: &Option<i32>) {
    match told {
        Some(value) => {
            put("{Some = {__0 = ");
            number((*value).into());
            put("}}");
        }
        None => put("{None = {}}"),
    }
}

fn link(told: &Option<&i32>) {
    match told {
        Some(value) => {
            put("{Some = {__0 = ");
            address(*value);
            put("}}");
        }
        None => put("{None = {}}"),
    }
}

fn nested(told: &Option<Option<bool>>) {
    match told {
        Some(Some(value)) => {
            put("{Some = {__0 = {Some = {__0 = ");
            put(if *value { "true" } else { "false" });
            put("}}}}");
        }
        Some(None) => put("{Some = {__0 = {None = {}}}}"),
        None => put("{None = {}}"),
    }
}

fn letter(told: &Option<char>) {
    match told {
        Some(value) => {
            put("{Some = {__0 = ");
            number(*value as i64);
            put(" '");
            byte(*value as u8);
            put("'}}");
        }
        None => put("{None = {}}"),
    }
}

#[inline(never)]
fn fall(nowhere: *const i32) -> i32 {
    unsafe { *nowhere }
}

#[inline(never)]
fn last(a: i32, b: i32, nowhere: *const i32) -> i32 {
    let some = Some(a);
    let none = if a == 0 { Some(b) } else { None };
    let there = Some(&SEVEN);
    let not_there: Option<&i32> = if a == 0 { there } else { None };
    let inner = Some(Some(b == 77));
    let half: Option<Option<bool>> = Some(None);
    let outer: Option<Option<bool>> = if a == 0 { half } else { None };
    let capital = Some('Z');
    let no_letter = if a == 0 { capital } else { None };
    let circle = Shape::Circle(b as u32);
    let empty = Shape::Empty;
    let only = Only::One(-b);
    let held = Held {
        shape: Shape::Rectangle { width: a, height: -b },
        outcome: Err(-5_000_000_000),
        last: 200,
    };
    let good: Result<u8, i64> = Ok(250);
    // The mark is no text, so that it stands nowhere else in memory.
    byte(b'<');
    byte(b'<');
    put("some = ");
    whole(&some);
    put("\nnone = ");
    whole(&none);
    put("\nthere = ");
    link(&there);
    put("\nnot_there = ");
    link(&not_there);
    put("\ninner = ");
    nested(&inner);
    put("\nhalf = ");
    nested(&half);
    put("\nouter = ");
    nested(&outer);
    put("\ncapital = ");
    letter(&capital);
    put("\nno_letter = ");
    letter(&no_letter);
    put("\ncircle = ");
    shape(&circle);
    put("\nempty = ");
    shape(&empty);
    put("\nonly = {One = {__0 = ");
    let Only::One(value) = only;
    number(value.into());
    put("}}\nheld = {shape = ");
    shape(&held.shape);
    put(", outcome = ");
    outcome(&held.outcome);
    put(", last = ");
    number(held.last.into());
    put("}\ngood = ");
    outcome(&good);
    put("\nsome.Some.__0 = ");
    number(a.into());
    put("\nsome.None = <unsupported type>\n*there.Some.__0 = 7\nheld.shape.Rectangle.height = ");
    number((-b).into());
    put("\ninner.Some.__0.Some.__0 = ");
    put(if b == 77 { "true" } else { "false" });
    put("\n>>");
    fall(nowhere).wrapping_add(held.last.into())
}

#[no_mangle]
pub extern "C" fn run(a: i32, b: i32) -> i32 {
    last(a, b, 0x4000_0000 as *const i32)
}
