//! The bus of a channel in front of its dies in plain Rust, without contracts: what the proved bus is measured beside. Its
//! channel judges each item, its dies keep their pages, and it keeps the trace.

use crate::channel::{driver, Channel, Geometry, Item, Kind, Latch, Row};
use std::collections::BTreeMap;

const IDENTIFIER: &[u8] = b"ONFI";

#[derive(Clone, Copy)]
enum Queued {
    Erase(Row),
    Program(Row),
}

/// One LUN: its pages, by block and page, and its registers.
struct Die {
    pages: BTreeMap<(u32, u32), Vec<u8>>,
    planes: Vec<Vec<u8>>,
    register: Vec<u8>,
    queue: Vec<Queued>,
    is_closed: bool,
    has_failed: bool,
}

impl Die {
    fn new(geometry: &Geometry) -> Die {
        let blank = vec![0xff; geometry.page_len as usize];
        Die {
            pages: BTreeMap::new(),
            planes: vec![blank; 1 << geometry.plane_bits],
            register: Vec::new(),
            queue: Vec::new(),
            is_closed: false,
            has_failed: false,
        }
    }

    fn show(&mut self, bytes: &[u8]) {
        self.register.clear();
        self.register.extend_from_slice(bytes);
    }

    fn read(&mut self, geometry: &Geometry, row: Row) {
        self.register.clear();
        match self.pages.get(&(row.block, row.page)) {
            Some(page) => self.register.extend_from_slice(page),
            None => self.register.resize(geometry.page_len as usize, 0xff),
        }
    }

    fn begin(&mut self, row: Queued, is_closed: bool) {
        self.register.clear();
        self.queue.push(row);
        self.is_closed = is_closed;
    }

    fn reset(&mut self) {
        self.register.clear();
        self.queue.clear();
        self.is_closed = false;
    }

    fn program(&mut self, geometry: &Geometry, row: Row) {
        let new = &self.planes[row.block as usize % self.planes.len()];
        let page = self
            .pages
            .entry((row.block, row.page))
            .or_insert_with(|| vec![0xff; geometry.page_len as usize]);
        for (old, new) in page.iter_mut().zip(new) {
            *old &= new;
        }
    }

    fn finish(&mut self, geometry: &Geometry, fail: bool) {
        self.has_failed = self.is_closed && fail;
        if !self.is_closed {
            return;
        }
        self.is_closed = false;
        for row in std::mem::take(&mut self.queue) {
            match row {
                _ if fail => {}
                Queued::Program(row) => self.program(geometry, row),
                Queued::Erase(row) => {
                    for page in 0..geometry.pages {
                        self.pages.remove(&(row.block, page));
                    }
                }
            }
        }
    }
}

/// The bus of a channel of one target or several.
pub struct Bus {
    channel: Channel,
    dies: Vec<Die>,
    parameters: Vec<u8>,
    trace: Vec<Item>,
}

impl Bus {
    /// No bench reads the parameter page, so what it holds doesn't matter here.
    pub fn new(geometry: Geometry, targets: usize) -> Bus {
        Bus {
            dies: (0..targets * usize::from(geometry.luns)).map(|_| Die::new(&geometry)).collect(),
            channel: Channel::new(geometry, targets),
            parameters: vec![0; 768],
            trace: Vec::new(),
        }
    }

    pub fn trace(&self) -> &[Item] {
        &self.trace
    }

    fn add(&mut self, item: Item) {
        self.channel.apply(item);
        self.trace.push(item);
    }

    /// Puts a command, an address or an input on the bus, or answers the first rule that it breaks.
    pub fn put(&mut self, ce: u8, kind: Kind, byte: u8) -> Result<(), u8> {
        let item = Item::Cycle { ce, kind, byte };
        if let Some(rule) = self.channel.judge(item) {
            return Err(rule);
        }
        match kind {
            Kind::Command => self.work_command(ce, byte),
            Kind::Address => self.work_address(ce, byte),
            Kind::Input => self.work_input(ce, byte),
            Kind::Output => {}
        }
        self.add(item);
        Ok(())
    }

    /// Takes the byte that the one driver of a target shows, or answers the first rule that this breaks.
    pub fn take(&mut self, ce: u8) -> Result<u8, u8> {
        let kind = Kind::Output;
        if let Some(rule) = self.channel.judge(Item::Cycle { ce, kind, byte: 0 }) {
            return Err(rule);
        }
        let byte = self.shown(ce);
        self.add(Item::Cycle { ce, kind, byte });
        Ok(byte)
    }

    /// Takes a byte for each place, as that many calls of `take`, but judged once; or answers the first rule that this breaks, with all as it was.
    pub fn take_all(&mut self, ce: u8, bytes: &mut [u8]) -> Result<(), u8> {
        if bytes.is_empty() {
            return Ok(());
        }
        if self.channel.outputs_left(ce)? < bytes.len() as u64 {
            return Err(14);
        }
        self.show_all(ce, bytes);
        self.channel.apply_outputs(ce, bytes.len() as u64);
        let kind = Kind::Output;
        self.trace.extend(bytes.iter().map(|byte| Item::Cycle { ce, kind, byte: *byte }));
        Ok(())
    }

    /// Puts inputs on the bus, as that many calls of `put`, but judged once; or answers the first rule that this breaks, with all as it was.
    pub fn put_all(&mut self, ce: u8, bytes: &[u8]) -> Result<(), u8> {
        if bytes.is_empty() {
            return Ok(());
        }
        if self.channel.inputs_left(ce)? < bytes.len() as u64 {
            return Err(14);
        }
        let (plane, column) = self.filled(ce);
        plane[column..column + bytes.len()].copy_from_slice(bytes);
        self.channel.apply_inputs(ce, bytes.len() as u64);
        let kind = Kind::Input;
        self.trace.extend(bytes.iter().map(|byte| Item::Cycle { ce, kind, byte: *byte }));
        Ok(())
    }

    /// A LUN becomes ready; false where it isn't there or isn't busy.
    pub fn ready(&mut self, ce: u8, lun: u8, fail: bool) -> bool {
        let item = Item::Ready { ce, lun, fail };
        if self.channel.judge(item).is_some() {
            return false;
        }
        let k = self.number(ce, usize::from(lun));
        self.dies[k].finish(&self.channel.geometry, fail);
        self.add(item);
        true
    }

    fn number(&self, ce: u8, lun: usize) -> usize {
        usize::from(ce) * usize::from(self.channel.geometry.luns) + lun
    }

    fn row(&self, ce: u8) -> Row {
        self.channel.geometry.row(self.channel.targets[usize::from(ce)].tail.row)
    }

    fn shown(&self, ce: u8) -> u8 {
        let luns = &self.channel.targets[usize::from(ce)].luns;
        let Some(n) = driver(luns) else {
            return 0;
        };
        let (lun, die) = (&luns[n], &self.dies[self.number(ce, n)]);
        match lun.latch {
            Latch::Data => lun.place().map_or(0, |place| die.register[place as usize]),
            _ if lun.busy => 0x80,
            _ if lun.array_busy => 0xc0,
            _ if die.has_failed => 0xe1,
            _ => 0xe0,
        }
    }

    // Fills the bytes with what the one driver of a target shows next.
    fn show_all(&self, ce: u8, bytes: &mut [u8]) {
        let luns = &self.channel.targets[usize::from(ce)].luns;
        match driver(luns) {
            Some(n) if luns[n].latch == Latch::Data => {
                let place = luns[n].place().map_or(0, |place| place as usize);
                let shown = &self.dies[self.number(ce, n)].register[place..place + bytes.len()];
                bytes.copy_from_slice(shown);
            }
            _ => bytes.fill(self.shown(ce)),
        }
    }

    // The plane that the next input of a target fills, and where.
    fn filled(&mut self, ce: u8) -> (&mut [u8], usize) {
        let row = self.row(ce);
        let k = self.number(ce, row.lun as usize);
        let tail = &self.channel.targets[usize::from(ce)].tail;
        let planes = &mut self.dies[k].planes;
        let plane = row.block as usize % planes.len();
        (&mut planes[plane], tail.column as usize + tail.inputs as usize)
    }

    fn work_input(&mut self, ce: u8, byte: u8) {
        let (plane, column) = self.filled(ce);
        plane[column] = byte;
    }

    fn work_address(&mut self, ce: u8, byte: u8) {
        let tail = &self.channel.targets[usize::from(ce)].tail;
        match tail.opened() {
            Some((0x80, 4)) => {
                let row = self.channel.geometry.row(tail.row_with(byte));
                let k = self.number(ce, row.lun as usize);
                let planes = &mut self.dies[k].planes;
                let plane = row.block as usize % planes.len();
                planes[plane].fill(0xff);
            }
            Some((0x90, 0)) => {
                let k = self.number(ce, 0);
                self.dies[k].show(IDENTIFIER);
            }
            Some((0xec, 0)) => {
                let k = self.number(ce, 0);
                self.dies[k].show(&self.parameters);
            }
            _ => {}
        }
    }

    fn work_command(&mut self, ce: u8, byte: u8) {
        let geometry = self.channel.geometry;
        match byte {
            0x31 | 0x3f => {
                let luns = &self.channel.targets[usize::from(ce)].luns;
                if let Some(n) = driver(luns) {
                    let row = luns[n].array_page;
                    let k = self.number(ce, n);
                    self.dies[k].read(&geometry, row);
                }
                return;
            }
            0xff => {
                for n in 0..usize::from(geometry.luns) {
                    let k = self.number(ce, n);
                    self.dies[k].reset();
                }
                return;
            }
            0x30 | 0x10 | 0x11 | 0xd0 | 0xd1 => {}
            _ => return,
        }
        let row = self.row(ce);
        let k = self.number(ce, row.lun as usize);
        let die = &mut self.dies[k];
        match byte {
            0x30 => die.read(&geometry, row),
            0x10 | 0x11 => die.begin(Queued::Program(row), byte == 0x10),
            _ => die.begin(Queued::Erase(row), byte == 0xd0),
        }
    }
}
