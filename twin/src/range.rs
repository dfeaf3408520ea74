//! Answer 13: sizes, base, stored numbers and marks within their limits.

use crate::state::{
    entry_state, frame_type, lifecycle, op_state, Entry, Frame, Machine, Record, CONTROL_PAGES,
};

/// Lowest window base, in bytes.
pub const BASE_LOWEST: u64 = 1 << 30;
/// Highest window base, in bytes.
pub const BASE_HIGHEST: u64 = 1 << 46;
/// The window base is a multiple of this, in bytes.
pub const BASE_ALIGNMENT: u64 = 1 << 30;
/// Lowest key.
pub const KEY_LOWEST: u64 = 32;
/// Highest key.
pub const KEY_HIGHEST: u64 = 95;
/// Highest epoch.
pub const EPOCH_LIMIT: u64 = (1 << 32) - 1;

impl Machine {
    /// True if nothing here gives answer 13.
    pub fn in_range(&self) -> bool {
        self.sizes_in_range()
            && self.tables_in_range()
            && self.gauge.marks_in_rule(self.frames.len())
    }

    /// True if the lent sizes and the base are within the limits.
    pub fn sizes_in_range(&self) -> bool {
        let frames = self.frames.len();
        frames.is_power_of_two()
            && (512..=16384).contains(&frames)
            && (1..=64).contains(&self.records.len())
            && (4..=256).contains(&self.tables.len())
            && (BASE_LOWEST..=BASE_HIGHEST).contains(&self.base)
            && self.base.is_multiple_of(BASE_ALIGNMENT)
    }

    /// True if every stored number and code of the tables is in its range.
    /// Unused records and tables aren't looked into.
    pub fn tables_in_range(&self) -> bool {
        let tables = self.tables.iter().filter(|table| table.in_use);
        let records = self.records.iter().filter(|record| record.in_use);
        self.frames.iter().all(|frame| self.frame_in_range(frame))
            && records
                .into_iter()
                .all(|record| self.record_in_range(record))
            && tables
                .into_iter()
                .all(|table| self.entries_in_range(&table.entries))
    }

    fn frame_in_range(&self, frame: &Frame) -> bool {
        // First number too high for each place; 1 where the type has none.
        let (owners, numbers, epochs) = match frame.kind {
            frame_type::NDA => (1, 1, 1),
            frame_type::TDR => (1, self.records.len(), 1),
            frame_type::TDCX => (self.frames.len(), 1, 1),
            frame_type::EPT => (self.frames.len(), self.tables.len(), EPOCH_LIMIT + 1),
            frame_type::REG => (self.frames.len(), 1, EPOCH_LIMIT + 1),
            _ => return false,
        };
        frame.owner < owners as u64 && frame.number < numbers as u64 && frame.epoch < epochs
    }

    fn record_in_range(&self, record: &Record) -> bool {
        (KEY_LOWEST..=KEY_HIGHEST).contains(&record.key)
            && record.lifecycle <= lifecycle::WRITTEN_BACK
            && record.op_state <= op_state::RUNNABLE
            && self.control_pages_in_range(record)
            && record.child_count <= self.frames.len() as u64
            && (1..=EPOCH_LIMIT).contains(&record.epoch)
            && self.entries_in_range(&record.root)
    }

    fn control_pages_in_range(&self, record: &Record) -> bool {
        if record.page_count > CONTROL_PAGES as u64 {
            return false;
        }
        let (listed, unlisted) = record.pages.split_at(record.page_count as usize);
        listed.iter().all(|&page| page < self.frames.len() as u64)
            && unlisted.iter().all(|&page| page == 0)
    }

    fn entries_in_range(&self, entries: &[Entry]) -> bool {
        entries.iter().all(|entry| match entry.state {
            entry_state::FREE => entry.frame == 0,
            entry_state::NL_MAPPED..=entry_state::PENDING_BLOCKED => {
                (entry.frame as usize) < self.frames.len()
            }
            _ => false,
        })
    }
}
