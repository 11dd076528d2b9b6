// Tells in a text what its variables hold, as a debugger prints them, and then loads where no memory is: out of bounds memory access. What Rust has
// beside C: structures and tuples by value, characters, integers of 16 bytes, slices, and statics in modules.
#![no_std]
#![allow(dead_code)]

use core::panic::PanicInfo;

#[panic_handler]
fn stop(_: &PanicInfo) -> ! {
    core::arch::wasm32::unreachable()
}

/// It lies in one page, between two marks, so that it is found in a dump without debugging information.
#[repr(align(4096))]
struct Told([u8; 4096]);

static mut TOLD: Told = Told([0; 4096]);
static mut LENGTH: usize = 0;

pub mod shop {
    pub static mut STOCK: i32 = -77;

    pub mod back {
        pub static mut SHELVES: u64 = 1_234_567_890_123;
    }
}

#[derive(Clone, Copy)]
pub struct Pair {
    a: i32,
    b: u32,
}

#[derive(Clone, Copy)]
pub struct Account {
    balance: u128,
    debt: i128,
    pair: Pair,
    initial: char,
    open: bool,
}

fn byte(b: u8) {
    unsafe {
        *(TOLD.0.as_mut_ptr().add(LENGTH)) = b;
        LENGTH = LENGTH.wrapping_add(1);
    }
}

fn put(text: &str) {
    for b in text.bytes() {
        byte(b);
    }
}

fn natural(n: u128) {
    let mut words = [n as u32, (n >> 32) as u32, (n >> 64) as u32, (n >> 96) as u32];
    let mut digits = [0u8; 40];
    let mut count = 0usize;
    loop {
        let mut rest = 0u64;
        for word in words.iter_mut().rev() {
            rest = rest << 32 | u64::from(*word);
            *word = (rest / 10) as u32;
            rest %= 10;
        }
        digits[count] = b'0' + rest as u8;
        count += 1;
        if words == [0; 4] {
            break;
        }
    }
    for digit in digits[..count].iter().rev() {
        byte(*digit);
    }
}

fn number(n: i128) {
    if n < 0 {
        put("-");
    }
    natural(n.unsigned_abs());
}

fn point(c: char) {
    natural(c as u128);
    put(" '");
    if c >= ' ' && c <= '~' {
        byte(c as u8);
    } else {
        put("\\u{");
        let mut shift = 28;
        while shift > 0 && (c as u32) >> shift == 0 {
            shift -= 4;
        }
        loop {
            byte(b"0123456789abcdef"[((c as u32) >> shift & 15) as usize]);
            if shift == 0 {
                break;
            }
            shift -= 4;
        }
        put("}");
    }
    put("'");
}

fn pair(p: &Pair) {
    put("{a = ");
    number(p.a.into());
    put(", b = ");
    natural(p.b.into());
    put("}");
}

/// Here the account stands where a local says, as every structure that is passed by value.
#[inline(never)]
fn fall(account: Account, nowhere: *const i32) -> i32 {
    unsafe { *nowhere }.wrapping_add(account.pair.a)
}

#[inline(never)]
fn last(held: Pair, account: Account, letter: char, debt: i128, nowhere: *const i32) -> i32 {
    let most = u128::MAX;
    let plain = 'Z';
    // The mark is no text, so that it stands nowhere else in memory.
    byte(b'<');
    byte(b'<');
    put("account.balance = ");
    natural(account.balance);
    put("\naccount.debt = ");
    number(account.debt);
    put("\naccount.pair = ");
    pair(&account.pair);
    put("\naccount.initial = ");
    point(account.initial);
    put("\naccount.open = true\n*nowhere = <outside memory>\nheld = ");
    pair(&held);
    put("\nletter = ");
    point(letter);
    put("\ndebt = ");
    number(debt);
    put("\nmost = ");
    natural(most);
    put("\nplain = ");
    point(plain);
    put("\nSTOCK = ");
    number(unsafe { shop::STOCK }.into());
    put("\nSHELVES = ");
    natural(unsafe { shop::back::SHELVES }.into());
    put("\n>>");
    fall(account, nowhere)
        .wrapping_add(held.a)
        .wrapping_add(most as i32)
        .wrapping_add(plain as i32)
}

#[no_mangle]
pub extern "C" fn run(a: i32, b: i32) -> i32 {
    let held = Pair { a, b: b as u32 };
    let account = Account {
        balance: 0x4b3b_4ca8_5a86_c47a_098a_2240_0000_0000,
        debt: -170_141_183_460_469_231_731_687_303_715_884_105_727,
        pair: Pair { a: b, b: 4_000_000_000 },
        initial: '\u{3bb}',
        open: true,
    };
    last(held, account, '\u{1f980}', -1, 0x4000_0000 as *const i32)
}
