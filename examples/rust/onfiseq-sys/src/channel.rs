use crate::sys::{self, Bus, Geometry, Item, Look, Part, Spot, U64};
use crate::{Fault, ItemRefused, PartRefused};

impl Item {
    const fn of(ce: u8, kind: u8, byte: u8) -> Item {
        Item { ce, kind, byte, fail: 0 }
    }

    pub const fn command(ce: u8, byte: u8) -> Item {
        Item::of(ce, b'C', byte)
    }

    pub const fn address(ce: u8, byte: u8) -> Item {
        Item::of(ce, b'A', byte)
    }

    /// A byte that the die takes.
    pub const fn input(ce: u8, byte: u8) -> Item {
        Item::of(ce, b'I', byte)
    }

    /// A byte that the die gives.
    pub const fn output(ce: u8, byte: u8) -> Item {
        Item::of(ce, b'O', byte)
    }

    /// A LUN becomes ready, after work that failed or not.
    pub const fn ready(ce: u8, lun: u8, failed: bool) -> Item {
        Item { ce, kind: b'R', byte: lun, fail: failed as u8 }
    }

    /// The array of a LUN does, after a cache read.
    pub const fn array_ready(ce: u8, lun: u8) -> Item {
        Item::of(ce, b'Y', lun)
    }
}

impl Part {
    const fn of(kind: u8, count: u32) -> Part {
        Part { count, kind, bytes: [0; 7] }
    }

    pub const fn command(byte: u8) -> Part {
        Part { count: 1, kind: b'C', bytes: [byte, 0, 0, 0, 0, 0, 0] }
    }

    /// Up to seven addresses; more don't compile.
    pub fn addresses<const N: usize>(given: [u8; N]) -> Part {
        const { assert!(N <= 7, "a part has seven bytes at most") };
        let mut part = Part::of(b'A', N as u32);
        part.bytes[..N].copy_from_slice(&given);
        part
    }

    /// So many bytes that the die takes.
    pub const fn inputs(count: u32) -> Part {
        Part::of(b'I', count)
    }

    /// So many bytes that the die gives.
    pub const fn outputs(count: u32) -> Part {
        Part::of(b'O', count)
    }

    /// R/B# of the target has risen: each of its busy LUNs is ready.
    pub const fn wait() -> Part {
        Part::of(b'W', 0)
    }
}

/// A channel: each call is what happens on it. A refused call leaves it as it was. It is a plain value: `clone` makes another that goes on by itself.
#[derive(Clone, Debug)]
pub struct Channel(Bus);

fn told(code: u32) -> Result<(), Fault> {
    match code {
        0 => Ok(()),
        code => Err(Fault::of(code)),
    }
}

impl Channel {
    /// A channel of so many targets, 1 to 4, of the chip of a parameter page.
    pub fn of_page(page: &[u8], targets: u8) -> Result<Channel, Fault> {
        // SAFETY: a slice is a pointer to as many bytes.
        let read = unsafe { sys::onfiseq_read_page(page.as_ptr(), page.len()) };
        match read.fault {
            0 => Channel::new(&read.geometry, targets),
            number => Err(Fault { letter: 'P', number: number as u8 }),
        }
    }

    /// A channel of so many targets, 1 to 4, of a chip.
    pub fn new(geometry: &Geometry, targets: u8) -> Result<Channel, Fault> {
        let mut bus = Bus { state: [U64(0); 409] };
        // SAFETY: both records are there, and `bus` is this function's alone.
        told(unsafe { sys::onfiseq_begin_sized(&mut bus, size_of::<Bus>(), sys::VERSION, geometry, targets) })?;
        Ok(Channel(bus))
    }

    pub fn push(&mut self, item: Item) -> Result<(), Fault> {
        // SAFETY: the record is borrowed alone, and the item is there.
        told(unsafe { sys::onfiseq_push(&mut self.0, &item) })
    }

    /// Items one by one, up to the first that is refused.
    pub fn push_all(&mut self, items: &[Item]) -> Result<(), ItemRefused> {
        let mut at = 0;
        // SAFETY: the record is borrowed alone, a slice is a pointer to as many items, and `at` is this function's alone.
        told(unsafe { sys::onfiseq_push_all(&mut self.0, items.as_ptr(), items.len(), &mut at) }).map_err(|fault| ItemRefused { at, fault })
    }

    /// An item of a bus whose R/B# isn't seen: a status output that shows a busy LUN ready brings the ready.
    pub fn push_status(&mut self, item: Item) -> Result<(), Fault> {
        let mut done = 0;
        // SAFETY: the record is borrowed alone, the item is there, and `done` is this function's alone.
        told(unsafe { sys::onfiseq_push_status(&mut self.0, &item, &mut done) })
    }

    /// A whole operation, all of it or none.
    pub fn operate(&mut self, ce: u8, parts: &[Part]) -> Result<(), PartRefused> {
        let mut spot = Spot::default();
        // SAFETY: the record is borrowed alone, a slice is a pointer to as many parts, and `spot` is this function's alone.
        told_at(unsafe { sys::onfiseq_push_op(&mut self.0, ce, parts.as_ptr(), parts.len(), &mut spot) }, spot)
    }

    /// What `push` would answer; nothing changes.
    pub fn ask(&self, item: Item) -> Result<(), Fault> {
        // SAFETY: the record and the item are there, and nothing writes them.
        told(unsafe { sys::onfiseq_ask(&self.0, &item) })
    }

    /// What `operate` would answer; nothing changes.
    pub fn ask_operation(&self, ce: u8, parts: &[Part]) -> Result<(), PartRefused> {
        let mut spot = Spot::default();
        // SAFETY: the record and the parts are there, nothing writes them, and `spot` is this function's alone.
        told_at(unsafe { sys::onfiseq_ask_op(&self.0, ce, parts.as_ptr(), parts.len(), &mut spot) }, spot)
    }

    /// A target is as at the start: its chip was reset on the pins, or lost its power.
    pub fn begin_target(&mut self, ce: u8) -> Result<(), Fault> {
        // SAFETY: the record is borrowed alone.
        told(unsafe { sys::onfiseq_begin_target(&mut self.0, ce) })
    }

    /// A target forgets its open sequence: for whoever goes on after a cycle that isn't permitted.
    pub fn drop_sequence(&mut self, ce: u8) -> Result<(), Fault> {
        // SAFETY: the record is borrowed alone.
        told(unsafe { sys::onfiseq_drop(&mut self.0, ce) })
    }

    /// What a LUN is doing, where it is there.
    pub fn look(&self, ce: u8, lun: u8) -> Option<Look> {
        // SAFETY: the record is there, and nothing writes it.
        Some(unsafe { sys::onfiseq_look_at(&self.0, ce, lun) }).filter(|look| look.is_there)
    }
}

fn told_at(code: u32, spot: Spot) -> Result<(), PartRefused> {
    told(code).map_err(|fault| PartRefused { part: spot.part.0, cycle: spot.cycle.0, fault })
}
