use core::fmt;

/// Why something is refused: a code of `docs/use/CODES.md`, as F9. It shows as its words and the code.
#[derive(Clone, Copy, PartialEq, Eq, Hash)]
pub struct Fault {
    pub letter: char,
    pub number: u8,
}

impl Fault {
    /// The rule F9: the LUN is busy.
    pub const LUN_BUSY: Fault = Fault { letter: 'F', number: 9 };

    pub(crate) fn of(code: u32) -> Fault {
        let [number, letter, ..] = code.to_le_bytes();
        Fault { letter: char::from(letter), number }
    }

    /// What the code means, in English; empty without the feature `words`.
    pub fn words(self) -> Words {
        let mut bytes = [0; 160];
        let length = self.write_words(&mut bytes);
        Words { bytes, length }
    }

    #[cfg(feature = "words")]
    fn write_words(self, bytes: &mut [u8; 160]) -> usize {
        let code = u32::from(self.letter) << 8 | u32::from(self.number);
        // SAFETY: the call is told how many bytes there are, and they are borrowed alone.
        let length = unsafe { crate::sys::onfiseq_words(code, bytes.as_mut_ptr(), bytes.len()) };
        length.min(bytes.len() - 1)
    }

    #[cfg(not(feature = "words"))]
    fn write_words(self, _: &mut [u8; 160]) -> usize {
        0
    }
}

impl fmt::Display for Fault {
    fn fmt(&self, to: &mut fmt::Formatter<'_>) -> fmt::Result {
        let words = self.words();
        if words.is_empty() {
            return write!(to, "{self:?}");
        }
        write!(to, "{} ({self:?})", &*words)
    }
}

/// The code alone: F9, or I where there is no number.
impl fmt::Debug for Fault {
    fn fmt(&self, to: &mut fmt::Formatter<'_>) -> fmt::Result {
        match self.number {
            0 => write!(to, "{}", self.letter),
            number => write!(to, "{}{number}", self.letter),
        }
    }
}

impl core::error::Error for Fault {}

/// A text of its own, without memory from elsewhere.
#[derive(Clone)]
pub struct Words {
    bytes: [u8; 160],
    length: usize,
}

impl core::ops::Deref for Words {
    type Target = str;

    fn deref(&self) -> &str {
        core::str::from_utf8(&self.bytes[..self.length]).unwrap_or("")
    }
}

/// An item of several is refused: those before it have come.
#[derive(Clone, Copy, Debug, PartialEq, Eq)]
pub struct ItemRefused {
    pub at: usize,
    pub fault: Fault,
}

impl fmt::Display for ItemRefused {
    fn fmt(&self, to: &mut fmt::Formatter<'_>) -> fmt::Result {
        write!(to, "item {}: {}", self.at, self.fault)
    }
}

impl core::error::Error for ItemRefused {}

/// An operation is refused, at a cycle of a part: nothing of it has come.
#[derive(Clone, Copy, Debug, PartialEq, Eq)]
pub struct PartRefused {
    pub part: u64,
    pub cycle: u64,
    pub fault: Fault,
}

impl fmt::Display for PartRefused {
    fn fmt(&self, to: &mut fmt::Formatter<'_>) -> fmt::Result {
        write!(to, "part {}, cycle {}: {}", self.part, self.cycle, self.fault)
    }
}

impl core::error::Error for PartRefused {}
