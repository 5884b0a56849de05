//! A monitor in plain Rust, over the library for C: each item of a trace is shown to it, and it stops at the first that breaks a rule.
//!
//!     rustc -O examples/rust/monitor.rs -L crates/onfiseq_c/out -l static=onfiseq_c
//!     monitor chip.page < cycles.trace

use std::io::Read;

#[repr(C)]
#[derive(Clone, Copy)]
struct Geometry {
    sizes: [u32; 4],
    luns: u8,
    plane_bits: u8,
    declared: [u8; 3],
    optional: u16,
}

#[repr(C)]
struct Page {
    fault: u32,
    geometry: Geometry,
}

#[repr(C)]
#[derive(Clone, Copy)]
struct Item {
    ce: u8,
    kind: u8,
    byte: u8,
    fail: u8,
}

#[repr(C)]
struct Answer {
    letter: u8,
    number: u32,
    at: u64,
}

unsafe extern "C" {
    fn onfiseq_read_page(page: *const u8, length: usize) -> Page;
    fn onfiseq_check(geometry: *const Geometry, targets: u8, items: *const Item, count: usize) -> Answer;
}

fn item(line: &str) -> Option<Item> {
    let mut words = line.split(' ');
    let ce = words.next()?.parse().ok()?;
    let kind = *words.next()?.as_bytes().first()?;
    let byte = u8::from_str_radix(words.next()?, 16).ok()?;
    let fail = words.next().map_or(Some(0), |word| word.parse().ok())?;
    Some(Item { ce, kind, byte, fail })
}

fn main() {
    let bytes = std::fs::read(std::env::args().nth(1).expect("a page")).expect("a page");
    // SAFETY: each call is given a pointer to as many values as it is told, which nothing else writes.
    let page = unsafe { onfiseq_read_page(bytes.as_ptr(), bytes.len()) };
    assert!(page.fault == 0, "the chip is refused: P{}", page.fault);
    let mut text = String::new();
    std::io::stdin().read_to_string(&mut text).expect("a trace");
    let items: Vec<Item> = text.lines().map(|line| item(line).expect("an item")).collect();
    let answer = unsafe { onfiseq_check(&page.geometry, 1, items.as_ptr(), items.len()) };
    match answer.letter {
        0 => println!("every item is permitted, {} of them", answer.at),
        letter => println!("item {}: {}{}", answer.at, char::from(letter), answer.number),
    }
}
