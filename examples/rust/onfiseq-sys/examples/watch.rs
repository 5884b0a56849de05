//! An erase, and one too soon; then a whole page in one call, and a byte too many.
//!
//!     cargo run --offline --example watch

use onfiseq_sys::{Channel, Geometry, Item, Part};

fn main() -> Result<(), Box<dyn std::error::Error>> {
    let chip = Geometry { page_bytes: 2048, spare_bytes: 64, pages: 64, blocks: 1024, luns: 1, ..Geometry::default() };
    let mut channel = Channel::new(&chip, 1)?;
    let erase = [Item::command(0, 0x60), Item::address(0, 0x40), Item::address(0, 0), Item::address(0, 0), Item::command(0, 0xd0)];
    channel.push_all(&erase)?;
    println!("busy: {}", channel.look(0, 0).ok_or("no LUN")?.busy);
    if let Err(fault) = channel.push(Item::command(0, 0x60)) {
        println!("{fault}: letter {}, number {}, words \"{}\"", fault.letter, fault.number, &*fault.words());
    }
    channel.push(Item::ready(0, 0, false))?;
    let read = [Part::command(0x00), Part::addresses([0; 5]), Part::command(0x30), Part::wait(), Part::outputs(2112)];
    channel.operate(0, &read)?;
    println!("a page is read");
    if let Err(refused) = channel.operate(0, &[Part::outputs(1)]) {
        println!("{refused}");
    }
    Ok(())
}
