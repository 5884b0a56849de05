//! The records and calls of `onfiseq.h`, which says what each answers and what a caller owes.

/// 64 bits at a multiple of 8 bytes, so that a record has its fields at the same places on every processor.
#[repr(C, align(8))]
#[derive(Clone, Copy, Debug, Default, PartialEq, Eq)]
pub struct U64(pub u64);

#[repr(C)]
#[derive(Clone, Copy, Debug, Default, PartialEq, Eq)]
pub struct Geometry {
    pub page_bytes: u32,
    pub spare_bytes: u32,
    pub pages: u32,
    pub blocks: u32,
    pub luns: u8,
    pub plane_bits: u8,
    pub enhanced: u8,
    pub multi_plane: u8,
    pub cache: u8,
    pub optional: u16,
}

#[repr(C)]
#[derive(Clone, Copy, Debug, PartialEq, Eq)]
pub struct Page {
    pub fault: u32,
    pub geometry: Geometry,
}

#[repr(C)]
#[derive(Clone, Copy, Debug, PartialEq, Eq)]
pub struct Item {
    pub ce: u8,
    pub kind: u8,
    pub byte: u8,
    pub fail: u8,
}

#[repr(C)]
#[derive(Clone, Copy, Debug, PartialEq, Eq)]
pub struct Answer {
    pub letter: u8,
    pub number: u32,
    pub at: U64,
}

/// Opaque.
#[repr(C)]
#[derive(Clone, Debug)]
pub struct Bus {
    pub state: [U64; 409],
}

#[repr(C)]
#[derive(Clone, Copy, Debug, PartialEq, Eq)]
pub struct Part {
    pub count: u32,
    pub kind: u8,
    pub bytes: [u8; 7],
}

#[repr(C)]
#[derive(Clone, Copy, Debug, Default, PartialEq, Eq)]
pub struct Spot {
    pub part: U64,
    pub cycle: U64,
}

#[repr(C)]
#[derive(Clone, Copy, Debug, PartialEq, Eq)]
pub struct Look {
    pub is_there: bool,
    pub latch: u8,
    pub busy: bool,
    pub array_busy: bool,
    pub caching: bool,
    pub register: u8,
    pub has_column: bool,
    pub programming: bool,
    pub block: u32,
    pub page: U64,
    pub column: U64,
    pub queued: U64,
}

pub const VERSION: u32 = 3;

// The sizes that the header has: a compiler that lays a record out otherwise stops here.
const _: () = {
    assert!(size_of::<Geometry>() == 24);
    assert!(size_of::<Page>() == 28);
    assert!(size_of::<Item>() == 4);
    assert!(size_of::<Answer>() == 16);
    assert!(size_of::<Bus>() == 3272);
    assert!(size_of::<Part>() == 12);
    assert!(size_of::<Spot>() == 16);
    assert!(size_of::<Look>() == 40);
};

extern "C" {
    pub fn onfiseq_read_page(page: *const u8, length: usize) -> Page;
    pub fn onfiseq_read_page_as(page: *const u8, length: usize, profile: u8) -> Page;
    pub fn onfiseq_check(geometry: *const Geometry, targets: u8, items: *const Item, count: usize) -> Answer;
    pub fn onfiseq_begin_sized(bus: *mut Bus, size: usize, version: u32, geometry: *const Geometry, targets: u8) -> u32;
    pub fn onfiseq_push(bus: *mut Bus, item: *const Item) -> u32;
    pub fn onfiseq_push_all(bus: *mut Bus, items: *const Item, count: usize, done: *mut usize) -> u32;
    pub fn onfiseq_push_status(bus: *mut Bus, item: *const Item, done: *mut usize) -> u32;
    pub fn onfiseq_push_op(bus: *mut Bus, ce: u8, parts: *const Part, count: usize, spot: *mut Spot) -> u32;
    pub fn onfiseq_ask_op(bus: *const Bus, ce: u8, parts: *const Part, count: usize, spot: *mut Spot) -> u32;
    pub fn onfiseq_begin_target(bus: *mut Bus, ce: u8) -> u32;
    pub fn onfiseq_drop(bus: *mut Bus, ce: u8) -> u32;
    pub fn onfiseq_ask(bus: *const Bus, item: *const Item) -> u32;
    pub fn onfiseq_look_at(bus: *const Bus, ce: u8, lun: u8) -> Look;
}

#[cfg(feature = "words")]
extern "C" {
    pub fn onfiseq_words(code: u32, text: *mut u8, room: usize) -> usize;
}
