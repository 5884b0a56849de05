//! The work of the bus bench: pages are programmed, read again whole and compared, and erased, with status polls.

use crate::bus::Bus;
use crate::channel::{Geometry, Kind};
use std::time::Instant;

const PAGE_LEN: u32 = 4352;
const PAGES: u32 = 64;

fn byte_at(row: u32, column: u32) -> u8 {
    (row as u8).wrapping_add(column as u8)
}

fn put_all(bus: &mut Bus, kind: Kind, bytes: &[u8]) -> Result<(), u8> {
    for byte in bytes {
        bus.put(0, kind, *byte)?;
    }
    Ok(())
}

fn row_bytes(row: u32) -> [u8; 3] {
    [row as u8, (row >> 8) as u8, (row >> 16) as u8]
}

fn address(bus: &mut Bus, row: u32) -> Result<(), u8> {
    put_all(bus, Kind::Address, &[0, 0])?;
    put_all(bus, Kind::Address, &row_bytes(row))
}

fn status(bus: &mut Bus) -> Result<u8, u8> {
    bus.put(0, Kind::Command, 0x70)?;
    bus.take(0)
}

// Whether the LUN says busy, becomes ready, and says ready.
fn wait(bus: &mut Bus) -> Result<bool, u8> {
    Ok(status(bus)? == 0x80 && bus.ready(0, 0, false) && status(bus)? == 0xe0)
}

fn program(bus: &mut Bus, row: u32) -> Result<bool, u8> {
    bus.put(0, Kind::Command, 0x80)?;
    address(bus, row)?;
    for column in 0..PAGE_LEN {
        bus.put(0, Kind::Input, byte_at(row, column))?;
    }
    bus.put(0, Kind::Command, 0x10)?;
    wait(bus)
}

fn read(bus: &mut Bus, row: u32) -> Result<bool, u8> {
    bus.put(0, Kind::Command, 0x00)?;
    address(bus, row)?;
    bus.put(0, Kind::Command, 0x30)?;
    let mut right = wait(bus)?;
    bus.put(0, Kind::Command, 0x00)?;
    for column in 0..PAGE_LEN {
        right &= bus.take(0)? == byte_at(row, column);
    }
    Ok(right)
}

fn erase(bus: &mut Bus, row: u32) -> Result<bool, u8> {
    bus.put(0, Kind::Command, 0x60)?;
    put_all(bus, Kind::Address, &row_bytes(row))?;
    bus.put(0, Kind::Command, 0xd0)?;
    wait(bus)
}

fn each(
    bus: &mut Bus,
    what: &str,
    rows: impl Iterator<Item = u32>,
    step: fn(&mut Bus, u32) -> Result<bool, u8>,
) -> Result<bool, u8> {
    let (before, start) = (bus.trace().len(), Instant::now());
    let mut right = true;
    for row in rows {
        right &= step(bus, row)?;
    }
    let micros = start.elapsed().as_micros().max(1);
    let items = bus.trace().len() - before;
    eprintln!("{what}: {items} items, {micros} us, {} items per second", items as u128 * 1_000_000 / micros);
    Ok(right)
}

fn all(bus: &mut Bus, pages: u32) -> Result<bool, u8> {
    let programmed = each(bus, "programs", 0..pages, program)?;
    let read = each(bus, "reads", 0..pages, read)?;
    let erased = each(bus, "erases", (0..pages).step_by(PAGES as usize), erase)?;
    Ok(programmed && read && erased)
}

/// Does the work on so many pages, and says how long it took.
pub fn run(pages: usize) {
    let mut bus = Bus::new(Geometry::one_lun(PAGE_LEN, PAGES, 64), 1);
    match all(&mut bus, pages as u32) {
        Ok(true) => println!("{} items, each byte as it was programmed", bus.trace().len()),
        Ok(false) => println!("a byte was wrong"),
        Err(rule) => println!("F{rule}"),
    }
}
