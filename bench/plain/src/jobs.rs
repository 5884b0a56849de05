//! The work of the bench of runs: jobs on 8 LUNs of 4 targets, each of which reads or programs a whole page, eight at a time. The data go over the
//! bus item by item, or by runs that are judged once.

use crate::bus::Bus;
use crate::channel::{Geometry, Kind};
use std::time::Instant;

const PAGE_LEN: u32 = 4352;
const PAGES: u32 = 64;
const BLOCKS: u32 = 1024;
const TARGETS: usize = 4;
const LUNS: usize = 8;
// A LUN becomes ready once it has said so often that it is busy.
const POLLS: usize = 2;

#[derive(Clone, Copy, PartialEq)]
pub enum Work {
    Read,
    Program,
}

#[derive(Clone, Copy, PartialEq)]
pub enum Pace {
    Items,
    Runs,
}

// A job on a LUN of a target, with its own buffer.
struct Job {
    ce: u8,
    lun: u8,
    row: [u8; 3],
    buffer: Vec<u8>,
}

impl Job {
    fn new(number: usize, place: usize) -> Job {
        let lun = (place % 2) as u8;
        let [low, high, _, _] = ((number % 4096) as u32).to_le_bytes();
        Job {
            ce: (place / 2) as u8,
            lun,
            row: [low, high, lun],
            buffer: vec![number as u8; PAGE_LEN as usize],
        }
    }

    fn put_each(&self, bus: &mut Bus, kind: Kind, bytes: &[u8]) -> Result<(), u8> {
        for byte in bytes {
            bus.put(self.ce, kind, *byte)?;
        }
        Ok(())
    }

    fn address(&self, bus: &mut Bus) -> Result<(), u8> {
        self.put_each(bus, Kind::Address, &[0, 0])?;
        self.put_each(bus, Kind::Address, &self.row)
    }

    fn put_data(&self, bus: &mut Bus, pace: Pace) -> Result<(), u8> {
        match pace {
            Pace::Items => self.put_each(bus, Kind::Input, &self.buffer),
            Pace::Runs => bus.put_all(self.ce, &self.buffer),
        }
    }

    fn take_data(&mut self, bus: &mut Bus, pace: Pace) -> Result<(), u8> {
        if pace == Pace::Runs {
            return bus.take_all(self.ce, &mut self.buffer);
        }
        for byte in &mut self.buffer {
            *byte = bus.take(self.ce)?;
        }
        Ok(())
    }

    // Up to the command after which the LUN is busy.
    fn begin(&self, bus: &mut Bus, work: Work, pace: Pace) -> Result<(), u8> {
        match work {
            Work::Read => {
                bus.put(self.ce, Kind::Command, 0x00)?;
                self.address(bus)?;
                bus.put(self.ce, Kind::Command, 0x30)
            }
            Work::Program => {
                bus.put(self.ce, Kind::Command, 0x80)?;
                self.address(bus)?;
                self.put_data(bus, pace)?;
                bus.put(self.ce, Kind::Command, 0x10)
            }
        }
    }

    // Whether the LUN says that it is ready.
    fn poll(&self, bus: &mut Bus) -> Result<bool, u8> {
        bus.put(self.ce, Kind::Command, 0x78)?;
        self.put_each(bus, Kind::Address, &self.row)?;
        Ok(bus.take(self.ce)? & 0x40 != 0)
    }

    // What is left once the LUN is ready.
    fn end(&mut self, bus: &mut Bus, work: Work, pace: Pace) -> Result<(), u8> {
        if work == Work::Read {
            bus.put(self.ce, Kind::Command, 0x00)?;
            self.take_data(bus, pace)?;
        }
        Ok(())
    }
}

// Eight jobs at a time, one on each LUN: each hands the bus on while its LUN is busy.
fn round(bus: &mut Bus, jobs: &mut [Job], work: Work, pace: Pace) -> Result<bool, u8> {
    for job in jobs.iter() {
        job.begin(bus, work, pace)?;
    }
    let mut right = true;
    for _ in 0..POLLS {
        for job in jobs.iter() {
            right &= !job.poll(bus)?;
        }
    }
    for job in jobs.iter_mut() {
        right &= bus.ready(job.ce, job.lun, false) && job.poll(bus)?;
        job.end(bus, work, pace)?;
    }
    Ok(right)
}

fn all(bus: &mut Bus, count: usize, work: Work, pace: Pace) -> Result<bool, u8> {
    let mut right = true;
    let mut kept = Vec::with_capacity(count);
    for first in (0..count).step_by(LUNS) {
        let places = LUNS.min(count - first);
        let mut jobs: Vec<Job> = (0..places).map(|place| Job::new(first + place, place)).collect();
        right &= round(bus, &mut jobs, work, pace)?;
        kept.append(&mut jobs);
    }
    Ok(right && kept.len() == count)
}

/// Does so many jobs, and says how long that took.
pub fn run(count: usize, work: Work, pace: Pace) {
    let mut bus = Bus::new(Geometry::two_luns(PAGE_LEN, PAGES, BLOCKS), TARGETS);
    let start = Instant::now();
    let result = all(&mut bus, count, work, pace);
    let micros = start.elapsed().as_micros().max(1);
    let items = bus.trace().len();
    match result {
        Ok(true) => println!("{items} items, each LUN busy and ready when it should be"),
        Ok(false) => println!("a LUN was ready too early or not at all"),
        Err(rule) => println!("F{rule}"),
    }
    eprintln!("{micros} us, {} items per second", items as u128 * 1_000_000 / micros);
}
