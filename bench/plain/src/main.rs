//! How fast a trace is checked, and how fast a bus is, in plain Rust: `plain trace [ITEMS]` makes the trace that `bench trace` makes,
//! and checks it; `plain reads items|runs [ITEMS]` does so with that of `bench reads`, its data item by item or by runs; `plain bus [PAGES]` does on its bus what `bench bus` does on ours; `plain run read|program items|runs [JOBS]` does
//! the jobs of `bench/run.sh`, their data item by item or by runs.

mod bus;
mod channel;
mod jobs;
mod work;

use channel::{check, check_runs, Geometry, Item, Kind};
use jobs::{Pace, Work};
use std::hint::black_box;
use std::time::Instant;

fn cycle(kind: Kind, byte: u8) -> Item {
    Item::Cycle { ce: 0, kind, byte }
}

// The item at this place of a trace of erases, one block after another, each asked for its status until it is ready.
fn item_at(place: usize) -> Item {
    match place % 10 {
        0 => cycle(Kind::Command, 0x60),
        1 => cycle(Kind::Address, (place / 10 % 8 * 4) as u8),
        2 | 3 => cycle(Kind::Address, 0x00),
        4 => cycle(Kind::Command, 0xd0),
        5 | 8 => cycle(Kind::Command, 0x70),
        6 => cycle(Kind::Output, 0x80),
        7 => Item::Ready { ce: 0, lun: 0, fail: false },
        _ => cycle(Kind::Output, 0xe0),
    }
}

fn number(argument: Option<String>, default: usize) -> usize {
    argument.map_or(default, |n| n.parse().expect("a number"))
}

// The item at this place of a trace of page reads: nine items up to the data, and the 528 bytes of an erased page.
fn read_item_at(place: usize) -> Item {
    match place % 537 {
        0 | 8 => cycle(Kind::Command, 0x00),
        1..=5 => cycle(Kind::Address, 0x00),
        6 => cycle(Kind::Command, 0x30),
        7 => Item::Ready { ce: 0, lun: 0, fail: false },
        _ => cycle(Kind::Output, 0xff),
    }
}

type Check = fn(Geometry, usize, &[Item]) -> Result<(), (usize, u8)>;

fn measure_check(made: fn(usize) -> Item, check: Check, count: usize) {
    let items: Vec<Item> = (0..count).map(made).collect();
    let start = Instant::now();
    let verdict = check(Geometry::one_lun(528, 4, 8), 1, black_box(&items));
    let micros = start.elapsed().as_micros().max(1);
    match verdict {
        Ok(()) => println!("{count} items, each permitted"),
        Err((place, rule)) => println!("item {place}: F{rule}"),
    }
    eprintln!("check: {micros} us, {} items per second", count as u128 * 1_000_000 / micros);
}

fn check_reads(mut arguments: impl Iterator<Item = String>) {
    let check = match arguments.next().as_deref() {
        Some("items") => check,
        Some("runs") => check_runs,
        other => panic!("items or runs, not {other:?}"),
    };
    measure_check(read_item_at, check, number(arguments.next(), 1000));
}

fn run_jobs(mut arguments: impl Iterator<Item = String>) {
    let work = match arguments.next().as_deref() {
        Some("read") => Work::Read,
        Some("program") => Work::Program,
        other => panic!("read or program, not {other:?}"),
    };
    let pace = match arguments.next().as_deref() {
        Some("items") => Pace::Items,
        Some("runs") => Pace::Runs,
        other => panic!("items or runs, not {other:?}"),
    };
    jobs::run(number(arguments.next(), 1000), work, pace);
}

fn main() {
    let mut arguments = std::env::args().skip(1).peekable();
    if arguments.next_if_eq("bus").is_some() {
        work::run(number(arguments.next(), 10));
    } else if arguments.next_if_eq("run").is_some() {
        run_jobs(arguments);
    } else if arguments.next_if_eq("reads").is_some() {
        check_reads(arguments);
    } else {
        arguments.next_if_eq("trace");
        measure_check(item_at, check, number(arguments.next(), 1000));
    }
}
