//! The stored tables. Every field takes any number, so that tables out of
//! range or at odds with one another can be held and judged.

use crate::answer::{Answer, Readout, Refusal};
use crate::gauge::{marks_in_rule, Gauge};

/// Bytes in a frame.
pub const FRAME_BYTES: u64 = 4096;

/// Entries in a root or a table.
pub const ENTRIES: usize = 512;

/// Control pages of a complete domain.
pub const CONTROL_PAGES: usize = 4;

/// Codes of [`Frame::kind`].
pub mod frame_type {
    /// Free.
    pub const NDA: u64 = 0;
    /// Root page of a domain.
    pub const TDR: u64 = 1;
    /// Control page of a domain.
    pub const TDCX: u64 = 2;
    /// Secure EPT page.
    pub const EPT: u64 = 3;
    /// Page of a guest's memory.
    pub const REG: u64 = 4;
}

/// Codes of [`Record::lifecycle`].
pub mod lifecycle {
    /// The domain has a key, not yet configured.
    pub const HKID_ASSIGNED: u64 = 0;
    /// The key is configured.
    pub const KEYS_CONFIGURED: u64 = 1;
    /// Flushed, and not yet written back; the key is still held.
    pub const BLOCKED: u64 = 2;
    /// The key is free again.
    pub const TEARDOWN: u64 = 3;
    /// Blocked and written back; the key is still held.
    pub const WRITTEN_BACK: u64 = 4;
}

/// Codes of [`Record::op_state`].
pub mod op_state {
    /// Before init.
    pub const UNINITIALIZED: u64 = 0;
    /// Between init and finalize.
    pub const INITIALIZED: u64 = 1;
    /// After finalize.
    pub const RUNNABLE: u64 = 2;
}

/// Codes of [`Entry::state`].
pub mod entry_state {
    /// Names no frame.
    pub const FREE: u32 = 0;
    /// Leads to a table.
    pub const NL_MAPPED: u32 = 1;
    /// Maps a page.
    pub const MAPPED: u32 = 2;
    /// Maps a page that the guest hasn't accepted yet.
    pub const PENDING: u32 = 3;
    /// NL_MAPPED, blocked.
    pub const NL_BLOCKED: u32 = 4;
    /// MAPPED, blocked.
    pub const BLOCKED: u32 = 5;
    /// PENDING, blocked.
    pub const PENDING_BLOCKED: u32 = 6;
    /// What blocking adds to a state.
    pub(crate) const BLOCKING: u32 = NL_BLOCKED - NL_MAPPED;
}

/// One frame of the window.
#[derive(Clone, Copy, Debug, Default, PartialEq, Eq)]
pub struct Frame {
    /// A code of [`frame_type`].
    pub kind: u64,
    /// Frame number of the owning TDR, for TDCX, EPT and REG.
    pub owner: u64,
    /// Epoch at which it was last blocked, for EPT and REG.
    pub epoch: u64,
    /// Record number of a TDR, table number of an EPT.
    pub number: u64,
}

/// One entry of a root or a table.
#[derive(Clone, Copy, Debug, Default, PartialEq, Eq)]
pub struct Entry {
    /// A code of [`entry_state`].
    pub state: u32,
    /// Frame number, unless FREE.
    pub frame: u32,
}

impl Entry {
    /// The entry that names nothing.
    pub const FREE: Entry = Entry {
        state: entry_state::FREE,
        frame: 0,
    };

    /// True if the state is FREE.
    pub fn is_free(self) -> bool {
        self.state == entry_state::FREE
    }
}

/// One domain record of the stock.
#[derive(Clone, Debug, PartialEq, Eq)]
pub struct Record {
    /// False while the record lies in stock; nothing else in it counts then.
    pub in_use: bool,
    /// The domain's key; stays after the key is freed.
    pub key: u64,
    /// A code of [`lifecycle`].
    pub lifecycle: u64,
    /// A code of [`op_state`].
    pub op_state: u64,
    /// How many control pages are listed.
    pub page_count: u64,
    /// Frame numbers of the control pages; zero where not listed.
    pub pages: [u64; CONTROL_PAGES],
    /// Frames owned by the domain, its TDR left out.
    pub child_count: u64,
    /// The domain's epoch.
    pub epoch: u64,
    /// The root: the entries of the top level.
    pub root: [Entry; ENTRIES],
}

impl Default for Record {
    fn default() -> Self {
        Record {
            in_use: false,
            key: 0,
            lifecycle: 0,
            op_state: 0,
            page_count: 0,
            pages: [0; CONTROL_PAGES],
            child_count: 0,
            epoch: 0,
            root: [Entry::FREE; ENTRIES],
        }
    }
}

/// One secure EPT table of the stock.
#[derive(Clone, Debug, PartialEq, Eq)]
pub struct Table {
    /// False while the table lies in stock; nothing else in it counts then.
    pub in_use: bool,
    /// Its entries.
    pub entries: [Entry; ENTRIES],
}

impl Default for Table {
    fn default() -> Self {
        Table {
            in_use: false,
            entries: [Entry::FREE; ENTRIES],
        }
    }
}

/// The lent tables and the gauge. The sizes are the lengths of the vectors.
#[derive(Clone, Debug)]
pub struct Machine {
    /// Address of frame 0, in bytes.
    pub base: u64,
    /// The frames of the window.
    pub frames: Vec<Frame>,
    /// The stock of domain records.
    pub records: Vec<Record>,
    /// The stock of secure EPT tables.
    pub tables: Vec<Table>,
    /// The fill gauge.
    pub gauge: Gauge,
    /// Frames that aren't NDA, kept in step by the calls.
    pub(crate) used: usize,
}

/// Two machines are the same if all that is stored is.
impl PartialEq for Machine {
    fn eq(&self, other: &Self) -> bool {
        self.base == other.base
            && self.frames == other.frames
            && self.records == other.records
            && self.tables == other.tables
            && self.gauge == other.gauge
    }
}

impl Eq for Machine {}

impl Machine {
    /// Tables of the given sizes, all zero and unused. The sizes aren't judged
    /// here; [`Machine::reset`] does that.
    pub fn with_sizes(base: u64, frames: usize, records: usize, tables: usize) -> Self {
        Machine {
            base,
            frames: vec![Frame::default(); frames],
            records: vec![Record::default(); records],
            tables: vec![Table::default(); tables],
            gauge: Gauge::RESET,
            used: 0,
        }
    }

    /// Makes all frames NDA, all stock unused and every stored number zero.
    /// Refused with 13 for sizes or base; reads nothing stored.
    pub fn reset(&mut self) -> Answer {
        if !self.sizes_in_range() {
            return Refusal::OutOfRange.into();
        }
        self.frames.fill(Frame::default());
        self.records.fill(Record::default());
        self.tables.fill(Table::default());
        self.gauge = Gauge::RESET;
        self.used = 0;
        Readout::Zeros.into()
    }

    /// Sets the gauge's marks. Nothing of the old gauge is read.
    pub fn set_marks(&mut self, raise: f64, clear: f64) -> Answer {
        if !self.sizes_in_range() || !self.tables_in_range() {
            return Refusal::OutOfRange.into();
        }
        if !marks_in_rule(raise, clear, self.frames.len()) {
            return Refusal::Operand.into();
        }
        self.recount();
        let fill = self.fill();
        self.gauge = Gauge {
            raise,
            clear,
            fill,
            lamp: fill >= raise,
        };
        Readout::Zeros.into()
    }

    /// Counts the frames that aren't NDA.
    pub fn used_frames(&self) -> usize {
        self.frames
            .iter()
            .filter(|frame| frame.kind != frame_type::NDA)
            .count()
    }

    /// Brings the kept count of used frames in step with the frames. Needed
    /// between changing frames by hand and [`Machine::call_unchecked`].
    pub fn recount(&mut self) {
        self.used = self.used_frames();
    }

    /// Used frames divided by frames. Exact, as the divisor is a power of two.
    pub(crate) fn fill(&self) -> f64 {
        self.used as f64 / self.frames.len() as f64
    }

    /// The byte address of a frame.
    pub fn hpa(&self, frame: usize) -> u64 {
        self.base + FRAME_BYTES * frame as u64
    }
}
