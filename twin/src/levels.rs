//! The level table and the guest addresses that fit it.

use crate::answer::Refusal;
use crate::state::ENTRIES;

/// The level of the entries in a domain's root.
pub const TOP_LEVEL: u64 = 3;

/// Guest physical addresses lie below this number of bytes.
pub const GPA_LIMIT: u64 = 1 << 47;

/// By level: how many low bits of a gpa must be zero, which is also where the
/// nine bits of the entry index begin.
pub const LEVEL_SHIFT: [u32; 4] = [12, 21, 30, 39];

/// A gpa and a level that have passed the operand check together.
#[derive(Clone, Copy)]
pub(crate) struct Target {
    pub gpa: u64,
    pub level: u64,
}

impl Target {
    /// Judges a gpa and a level of at least `lowest`. A level out of range is
    /// refused whatever the gpa.
    pub fn new(gpa: u64, level: u64, lowest: u64) -> Result<Self, Refusal> {
        if level < lowest || level > TOP_LEVEL {
            return Err(Refusal::Operand);
        }
        let low_bits = (1 << LEVEL_SHIFT[level as usize]) - 1;
        if gpa >= GPA_LIMIT || gpa & low_bits != 0 {
            return Err(Refusal::Operand);
        }
        Ok(Target { gpa, level })
    }
}

/// The index that a gpa selects among the entries of a level.
pub(crate) fn entry_index(gpa: u64, level: u64) -> usize {
    (gpa >> LEVEL_SHIFT[level as usize]) as usize % ENTRIES
}
