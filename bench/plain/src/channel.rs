//! The running state of a channel and its rules in plain Rust, without contracts: what the proved check is measured beside.
//! The rules are those of docs/model/MODEL.md, all fifteen, and so are the commands.

#[derive(Clone, Copy)]
pub struct Geometry {
    pub page_len: u32,
    pub pages: u32,
    pub blocks: u32,
    pub luns: u8,
    pub plane_bits: u8,
    pub enhanced: bool,
    pub multi_plane: bool,
    pub cache: bool,
    block_width: u32,
    page_width: u32,
}

fn width(count: u32) -> u32 {
    u32::BITS - (count - 1).leading_zeros()
}

impl Geometry {
    /// One LUN of one plane.
    pub fn one_lun(page_len: u32, pages: u32, blocks: u32) -> Geometry {
        Geometry {
            page_len,
            pages,
            blocks,
            luns: 1,
            plane_bits: 0,
            enhanced: false,
            multi_plane: false,
            cache: false,
            block_width: width(blocks),
            page_width: width(pages),
        }
    }

    /// Two LUNs of one plane, which show their status one by one.
    pub fn two_luns(page_len: u32, pages: u32, blocks: u32) -> Geometry {
        Geometry {
            luns: 2,
            enhanced: true,
            ..Geometry::one_lun(page_len, pages, blocks)
        }
    }

    pub fn row(&self, bytes: [u8; 3]) -> Row {
        let row = u32::from_le_bytes([bytes[0], bytes[1], bytes[2], 0]);
        Row {
            lun: row >> (self.block_width + self.page_width),
            block: (row >> self.page_width) & ((1 << self.block_width) - 1),
            page: row & ((1 << self.page_width) - 1),
        }
    }

    fn has(&self, row: Row) -> bool {
        row.lun < u32::from(self.luns) && row.block < self.blocks && row.page < self.pages
    }

    fn clash(&self, a: Row, b: Row) -> bool {
        let planes = 1 << self.plane_bits;
        a.block % planes == b.block % planes || a.page != b.page || a.block / planes != b.block / planes
    }
}

#[derive(Clone, Copy)]
pub struct Row {
    pub lun: u32,
    pub block: u32,
    pub page: u32,
}

#[derive(Clone, Copy, PartialEq)]
pub enum Kind {
    Command,
    Address,
    Input,
    Output,
}

// Nothing in the benches looks at the failure of a ready in a trace.
#[allow(dead_code)]
#[derive(Clone, Copy)]
pub enum Item {
    Cycle { ce: u8, kind: Kind, byte: u8 },
    Ready { ce: u8, lun: u8, fail: bool },
    ArrayReady { ce: u8, lun: u8 },
}

#[derive(Clone, Copy, PartialEq)]
pub enum Phase {
    Outside,
    Inputs,
    FirstColumn,
    SecondColumn,
}

#[derive(Clone, Copy)]
pub struct Tail {
    opener: Option<u8>,
    addresses: u8,
    phase: Phase,
    pub row: [u8; 3],
    pub column: u32,
    pub inputs: u64,
    is_empty: bool,
}

#[derive(Clone, Copy, PartialEq)]
pub enum Latch {
    Off,
    Status,
    Data,
}

#[derive(Clone, Copy)]
enum Register {
    Nothing,
    Page,
    Parameters,
    Identifier,
}

#[derive(Clone)]
pub struct Lun {
    pub latch: Latch,
    pub busy: bool,
    closer: Option<u8>,
    pub array_busy: bool,
    pub array_page: Row,
    register: Register,
    column: Option<u64>,
    outputs: u64,
    lost: bool,
    queue: Vec<(bool, Row)>,
}

pub struct Target {
    pub tail: Tail,
    pub luns: Vec<Lun>,
}

pub struct Channel {
    pub geometry: Geometry,
    pub targets: Vec<Target>,
}

fn is_opener(command: u8) -> bool {
    matches!(command, 0x00 | 0x05 | 0x60 | 0x70 | 0x78 | 0x80 | 0x90 | 0xec | 0xff)
}

fn is_known(command: u8) -> bool {
    is_opener(command)
        || matches!(command, 0x10 | 0x11 | 0x30 | 0x31 | 0x3f | 0x85 | 0xd0 | 0xd1 | 0xe0)
}

fn address_cycles(opener: u8) -> u8 {
    match opener {
        0x00 | 0x80 => 5,
        0x05 => 2,
        0x60 | 0x78 => 3,
        0x90 | 0xec => 1,
        _ => 0,
    }
}

fn closes(opener: u8, command: u8) -> bool {
    matches!(
        (opener, command),
        (0x00, 0x30) | (0x05, 0xe0) | (0x60, 0xd0 | 0xd1)
    )
}

fn last_of_row(opener: u8, addresses: u8) -> bool {
    matches!((opener, addresses), (0x00 | 0x80, 4) | (0x60 | 0x78, 2))
}

impl Tail {
    pub fn opened(&self) -> Option<(u8, u8)> {
        self.opener.map(|opener| (opener, self.addresses))
    }

    fn is_open(&self) -> bool {
        self.phase != Phase::Outside
            || match self.opened() {
                None => false,
                Some((0x00, n)) => (1..=5).contains(&n),
                Some((opener, n)) => {
                    n < address_cycles(opener)
                        || (n == address_cycles(opener) && matches!(opener, 0x05 | 0x60))
                }
            }
    }

    fn wants_command(&self, command: u8) -> bool {
        match command {
            0x85 | 0x10 | 0x11 => self.phase == Phase::Inputs,
            0x31 | 0x3f => true,
            _ => self
                .opened()
                .is_some_and(|(opener, n)| closes(opener, command) && n == address_cycles(opener)),
        }
    }

    fn wants_address(&self, byte: u8) -> bool {
        matches!(self.phase, Phase::FirstColumn | Phase::SecondColumn)
            || self.opened().is_some_and(|(opener, n)| {
                n < address_cycles(opener)
                    && match opener {
                        0x90 => byte == 0x20,
                        0xec => byte == 0x00,
                        _ => true,
                    }
            })
    }

    pub fn row_with(&self, byte: u8) -> [u8; 3] {
        [self.row[1], self.row[2], byte]
    }

    fn column_with(&self, byte: u8) -> u32 {
        self.column % 256 + 256 * u32::from(byte)
    }

    fn extend(&mut self, kind: Kind, byte: u8) {
        if matches!(kind, Kind::Command) && is_opener(byte) {
            *self = Tail {
                opener: Some(byte),
                addresses: 0,
                phase: Phase::Outside,
                row: [0; 3],
                column: 0,
                inputs: 0,
                is_empty: false,
            };
            return;
        }
        if self.is_empty {
            return;
        }
        match kind {
            Kind::Command => {
                self.opener = None;
                self.phase = match (byte, self.phase) {
                    (0x85, Phase::Inputs) => Phase::FirstColumn,
                    _ => Phase::Outside,
                };
                self.inputs = 0;
            }
            Kind::Address => self.extend_by_address(byte),
            Kind::Input => {
                self.opener = None;
                if self.phase != Phase::Inputs {
                    self.phase = Phase::Outside;
                }
                self.inputs += 1;
            }
            Kind::Output => {
                self.opener = None;
                self.phase = Phase::Outside;
                self.inputs = 0;
            }
        }
    }

    fn extend_by_address(&mut self, byte: u8) {
        let place = match (self.opener, self.phase) {
            (Some(_), _) => self.addresses,
            (None, Phase::FirstColumn) => 0,
            (None, Phase::SecondColumn) => 1,
            _ => 2,
        };
        match place {
            0 => self.column = u32::from(byte),
            1 => self.column = self.column_with(byte),
            _ => {}
        }
        self.phase = match self.phase {
            Phase::Outside if self.opened() == Some((0x80, 4)) => Phase::Inputs,
            Phase::FirstColumn => Phase::SecondColumn,
            Phase::SecondColumn => Phase::Inputs,
            _ => Phase::Outside,
        };
        if self.opener.is_some() {
            self.addresses += 1;
            self.row = self.row_with(byte);
        }
        self.inputs = 0;
    }
}

impl Lun {
    fn fresh() -> Lun {
        Lun {
            latch: Latch::Off,
            busy: false,
            closer: None,
            array_busy: false,
            array_page: Row { lun: 0, block: 0, page: 0 },
            register: Register::Nothing,
            column: None,
            outputs: 0,
            lost: false,
            queue: Vec::new(),
        }
    }

    pub fn place(&self) -> Option<u64> {
        if self.lost {
            None
        } else {
            self.column.map(|column| column + self.outputs)
        }
    }

    fn register_len(&self, geometry: &Geometry) -> u64 {
        match self.register {
            Register::Nothing => 0,
            Register::Page => u64::from(geometry.page_len),
            Register::Parameters => 768,
            Register::Identifier => 4,
        }
    }

    fn is_caching(&self) -> bool {
        self.closer == Some(0x31)
    }

    fn start(&mut self, closer: u8, register: Register) {
        self.closer = Some(closer);
        self.register = register;
        self.array_busy = false;
        self.busy = true;
    }

    fn give_column(&mut self, column: u64) {
        self.column = Some(column);
        self.outputs = 0;
        self.lost = false;
    }

    fn lose_column(&mut self) {
        self.lost |= self.outputs > 0;
    }
}

pub fn driver(luns: &[Lun]) -> Option<usize> {
    let mut on = (0..luns.len()).filter(|n| luns[*n].latch != Latch::Off);
    let first = on.next();
    if on.next().is_some() {
        None
    } else {
        first
    }
}

impl Channel {
    pub fn new(geometry: Geometry, targets: usize) -> Channel {
        let target = || Target {
            tail: Tail {
                opener: None,
                addresses: 0,
                phase: Phase::Outside,
                row: [0; 3],
                column: 0,
                inputs: 0,
                is_empty: true,
            },
            luns: vec![Lun::fresh(); usize::from(geometry.luns)],
        };
        Channel {
            geometry,
            targets: (0..targets).map(|_| target()).collect(),
        }
    }

    /// The first rule that an item breaks, by its number.
    pub fn judge(&self, item: Item) -> Option<u8> {
        match item {
            Item::Cycle { ce, kind, byte } => match self.targets.get(usize::from(ce)) {
                None => Some(1),
                Some(target) => target.judge(&self.geometry, kind, byte),
            },
            Item::Ready { ce, lun, .. } => match self.lun(ce, lun) {
                Some(lun) if lun.busy => None,
                _ => Some(1),
            },
            Item::ArrayReady { ce, lun } => match self.lun(ce, lun) {
                Some(lun) if lun.array_busy => None,
                _ => Some(1),
            },
        }
    }

    fn lun(&self, ce: u8, lun: u8) -> Option<&Lun> {
        self.targets.get(usize::from(ce))?.luns.get(usize::from(lun))
    }

    /// How many outputs in a row a target may give; none where already the first breaks a rule, which is answered.
    pub fn outputs_left(&self, ce: u8) -> Result<u64, u8> {
        let target = self.targets.get(usize::from(ce)).ok_or(1)?;
        match target.judge_output(&self.geometry) {
            Some(rule) => Err(rule),
            None => Ok(target.outputs_left(&self.geometry)),
        }
    }

    /// How many inputs in a row a target may take; none where already the first breaks a rule, which is answered.
    pub fn inputs_left(&self, ce: u8) -> Result<u64, u8> {
        let target = self.targets.get(usize::from(ce)).ok_or(1)?;
        match target.judge(&self.geometry, Kind::Input, 0) {
            Some(rule) => Err(rule),
            None => Ok(u64::from(self.geometry.page_len) - u64::from(target.tail.column) - target.tail.inputs),
        }
    }

    /// Goes on by so many permitted outputs, one at least.
    pub fn apply_outputs(&mut self, ce: u8, count: u64) {
        let target = &mut self.targets[usize::from(ce)];
        if let Some(n) = driver(&target.luns) {
            if target.luns[n].latch == Latch::Data {
                target.luns[n].outputs += count;
            }
        }
        target.tail.extend(Kind::Output, 0);
    }

    /// Goes on by so many permitted inputs, one at least.
    pub fn apply_inputs(&mut self, ce: u8, count: u64) {
        let tail = &mut self.targets[usize::from(ce)].tail;
        tail.extend(Kind::Input, 0);
        tail.inputs += count - 1;
    }

    /// Goes on by an item that is permitted.
    pub fn apply(&mut self, item: Item) {
        match item {
            Item::Cycle { ce, kind, byte } => {
                self.targets[usize::from(ce)].apply(&self.geometry, kind, byte)
            }
            Item::Ready { ce, lun, .. } => {
                let lun = &mut self.targets[usize::from(ce)].luns[usize::from(lun)];
                lun.array_busy |= lun.is_caching();
                lun.busy = false;
            }
            Item::ArrayReady { ce, lun } => {
                self.targets[usize::from(ce)].luns[usize::from(lun)].array_busy = false;
            }
        }
    }
}

impl Target {
    fn judge(&self, geometry: &Geometry, kind: Kind, byte: u8) -> Option<u8> {
        match kind {
            Kind::Command if is_opener(byte) => self.judge_opener(geometry, byte),
            Kind::Command => self.judge_closer(geometry, byte),
            Kind::Address => self.judge_address(geometry, byte),
            Kind::Input if self.tail.phase != Phase::Inputs => Some(11),
            Kind::Input => {
                let column = u64::from(self.tail.column) + self.tail.inputs;
                (column >= u64::from(geometry.page_len)).then_some(14)
            }
            Kind::Output => self.judge_output(geometry),
        }
    }

    fn judge_opener(&self, geometry: &Geometry, byte: u8) -> Option<u8> {
        if !is_known(byte) || (byte == 0x78 && !geometry.enhanced) {
            return Some(2);
        }
        if self.tail.is_open() {
            return Some(3);
        }
        if matches!(byte, 0x70 | 0x90 | 0xec | 0xff) && geometry.luns > 1 {
            return Some(4);
        }
        if byte == 0x05 {
            let may = driver(&self.luns).is_some_and(|n| {
                let lun = &self.luns[n];
                lun.latch == Latch::Data
                    && !lun.busy
                    && matches!(lun.register, Register::Page | Register::Parameters)
            });
            if !may {
                return Some(5);
            }
        }
        if matches!(byte, 0x00 | 0x05 | 0x60 | 0x80 | 0x90 | 0xec)
            && self.luns.iter().all(|lun| lun.busy)
        {
            return Some(9);
        }
        if matches!(byte, 0x90 | 0xec) {
            if self.luns.iter().any(|lun| !lun.queue.is_empty()) {
                return Some(10);
            }
            if self.luns.iter().any(Lun::is_caching) {
                return Some(15);
            }
        }
        None
    }

    fn judge_closer(&self, geometry: &Geometry, byte: u8) -> Option<u8> {
        let undeclared = match byte {
            0xd1 | 0x11 => !geometry.multi_plane,
            0x31 | 0x3f => !geometry.cache,
            _ => false,
        };
        if !is_known(byte) || undeclared {
            return Some(2);
        }
        if !self.tail.wants_command(byte) {
            return Some(6);
        }
        let last = driver(&self.luns).map(|n| &self.luns[n]);
        match byte {
            0x31 => {
                let may = last.is_some_and(|lun| {
                    !lun.busy
                        && matches!(lun.closer, Some(0x30 | 0x31))
                        && lun.array_page.page + 1 < geometry.pages
                });
                (!may).then_some(15)
            }
            0x3f => {
                let may = last.is_some_and(|lun| !lun.busy && lun.is_caching());
                (!may).then_some(15)
            }
            _ => None,
        }
    }

    fn judge_address(&self, geometry: &Geometry, byte: u8) -> Option<u8> {
        let tail = &self.tail;
        if !tail.wants_address(byte) {
            return Some(7);
        }
        if let Some((opener, n)) = tail.opened() {
            if last_of_row(opener, n) {
                if let Some(rule) = self.judge_row(geometry, opener, geometry.row(tail.row_with(byte))) {
                    return Some(rule);
                }
            }
        }
        let column = tail.column_with(byte);
        let of_page = matches!(tail.opened(), Some((0x00 | 0x80, 1))) || tail.phase == Phase::SecondColumn;
        let past = if of_page {
            column >= geometry.page_len
        } else if tail.opened() == Some((0x05, 1)) {
            driver(&self.luns).is_some_and(|n| u64::from(column) >= self.luns[n].register_len(geometry))
        } else {
            false
        };
        past.then_some(14)
    }

    fn judge_row(&self, geometry: &Geometry, opener: u8, row: Row) -> Option<u8> {
        if !geometry.has(row) {
            return Some(8);
        }
        let lun = &self.luns[row.lun as usize];
        if opener == 0x78 {
            return None;
        }
        if lun.busy {
            return Some(9);
        }
        let refused = match opener {
            0x00 => !lun.queue.is_empty(),
            _ => lun
                .queue
                .iter()
                .any(|(erase, other)| *erase != (opener == 0x60) || geometry.clash(row, *other)),
        };
        if refused {
            return Some(10);
        }
        lun.is_caching().then_some(15)
    }

    fn judge_output(&self, geometry: &Geometry) -> Option<u8> {
        if self.tail.is_open() {
            return Some(12);
        }
        let Some(n) = driver(&self.luns) else {
            return Some(12);
        };
        let lun = &self.luns[n];
        if lun.latch != Latch::Data {
            return None;
        }
        if lun.busy || matches!(lun.register, Register::Nothing) {
            return Some(13);
        }
        match lun.place() {
            None => Some(13),
            Some(place) => (place >= lun.register_len(geometry)).then_some(14),
        }
    }

    // How many outputs the one driver has left, where the next is permitted.
    fn outputs_left(&self, geometry: &Geometry) -> u64 {
        match driver(&self.luns).map(|n| &self.luns[n]) {
            Some(lun) if lun.latch == Latch::Data => {
                lun.place().map_or(0, |place| lun.register_len(geometry) - place)
            }
            _ => u64::MAX,
        }
    }

    fn apply(&mut self, geometry: &Geometry, kind: Kind, byte: u8) {
        match kind {
            Kind::Command => self.apply_command(geometry, byte),
            Kind::Address => self.apply_address(geometry, byte),
            Kind::Input => {}
            Kind::Output => {
                if let Some(n) = driver(&self.luns) {
                    if self.luns[n].latch == Latch::Data {
                        self.luns[n].outputs += 1;
                    }
                }
            }
        }
        self.tail.extend(kind, byte);
    }

    fn apply_command(&mut self, geometry: &Geometry, byte: u8) {
        let row = geometry.row(self.tail.row);
        let named = row.lun as usize;
        match byte {
            0x00 => {
                for lun in &mut self.luns {
                    if lun.latch == Latch::Status {
                        lun.latch = Latch::Data;
                    }
                }
            }
            0x70 => {
                for lun in &mut self.luns {
                    lun.latch = Latch::Status;
                    lun.lose_column();
                }
            }
            0x78 => self.luns.iter_mut().for_each(Lun::lose_column),
            0xff => {
                for lun in &mut self.luns {
                    lun.start(0xff, Register::Nothing);
                    lun.latch = Latch::Off;
                    lun.queue.clear();
                }
            }
            0x30 => {
                let lun = &mut self.luns[named];
                lun.start(0x30, Register::Page);
                lun.latch = Latch::Data;
                lun.array_page = row;
                lun.give_column(u64::from(self.tail.column));
            }
            0xd0 | 0x10 => {
                let lun = &mut self.luns[named];
                lun.start(byte, Register::Nothing);
                lun.queue.clear();
            }
            0xd1 | 0x11 => {
                let lun = &mut self.luns[named];
                lun.start(byte, Register::Nothing);
                lun.queue.push((byte == 0xd1, row));
            }
            0xe0 => {
                if let Some(n) = driver(&self.luns) {
                    self.luns[n].give_column(u64::from(self.tail.column));
                }
            }
            0x31 | 0x3f => {
                if let Some(n) = driver(&self.luns) {
                    let lun = &mut self.luns[n];
                    lun.start(byte, Register::Page);
                    lun.latch = Latch::Data;
                    lun.array_page.page += u32::from(byte == 0x31);
                    lun.give_column(0);
                }
            }
            _ => {}
        }
    }

    fn apply_address(&mut self, geometry: &Geometry, byte: u8) {
        match self.tail.opened() {
            Some((0x78, 2)) => {
                let named = geometry.row(self.tail.row_with(byte)).lun as usize;
                for (n, lun) in self.luns.iter_mut().enumerate() {
                    lun.latch = if n == named { Latch::Status } else { Latch::Off };
                }
            }
            Some((0x90, 0)) => {
                for lun in &mut self.luns {
                    lun.closer = Some(0x90);
                    lun.array_busy = false;
                    lun.register = Register::Identifier;
                    lun.latch = Latch::Data;
                    lun.give_column(0);
                }
            }
            Some((0xec, 0)) => {
                for lun in &mut self.luns {
                    lun.start(0xec, Register::Parameters);
                    lun.latch = Latch::Data;
                    lun.give_column(0);
                }
            }
            _ => {}
        }
    }
}

/// The place of the first item that isn't permitted, with the rule that it breaks.
pub fn check(geometry: Geometry, targets: usize, items: &[Item]) -> Result<(), (usize, u8)> {
    let mut channel = Channel::new(geometry, targets);
    for (place, item) in items.iter().enumerate() {
        if let Some(rule) = channel.judge(*item) {
            return Err((place, rule));
        }
        channel.apply(*item);
    }
    Ok(())
}

// How many of the first items are cycles of this kind on this target.
fn run_len(items: &[Item], target: u8, wanted: Kind) -> usize {
    items
        .iter()
        .take_while(|item| matches!(item, Item::Cycle { ce, kind, .. } if *ce == target && *kind == wanted))
        .count()
}

/// The same, with the outputs of a target that stand in a row judged at once.
pub fn check_runs(geometry: Geometry, targets: usize, items: &[Item]) -> Result<(), (usize, u8)> {
    let mut channel = Channel::new(geometry, targets);
    let mut place = 0;
    while place < items.len() {
        if let Item::Cycle { ce, kind: Kind::Output, .. } = items[place] {
            let left = channel.outputs_left(ce).map_err(|rule| (place, rule))?;
            let run = run_len(&items[place..], ce, Kind::Output).min(left as usize);
            channel.apply_outputs(ce, run as u64);
            place += run;
        } else {
            if let Some(rule) = channel.judge(items[place]) {
                return Err((place, rule));
            }
            channel.apply(items[place]);
            place += 1;
        }
    }
    Ok(())
}
