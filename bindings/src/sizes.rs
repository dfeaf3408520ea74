//! The sizes of a model, and the lengths that they come to.

use std::fmt::{self, Display, Formatter};

/// Words of a domain's record.
pub const RECORD_WORDS: usize = 5;

/// Control pages of a domain.
pub const CONTROL_PAGES: usize = 4;

/// Entries of a table, and of a domain's root.
pub const TABLE_ENTRIES: usize = 512;

/// Bits of a word of the stock.
pub(crate) const STOCK_WORD_BITS: usize = 64;

/// How many frames, domain records and Secure EPT tables a model has. They don't
/// change from call to call.
///
/// Whoever ends the list with `..Sizes::PROGRAM` need not change it when a later
/// version has one more size.
///
/// ```
/// use reefnettle::Sizes;
///
/// let sizes = Sizes { frames: 2048, ..Sizes::PROGRAM };
/// assert_eq!(sizes.to_string(), "frames 2048 records 4 tables 12");
/// assert_eq!(sizes.entries_words(), 512 * (4 + 12));
/// ```
#[derive(Clone, Copy, Debug, PartialEq, Eq, Hash)]
pub struct Sizes {
    /// Frames of the window: a power of two.
    pub frames: usize,
    /// Domain records.
    pub records: usize,
    /// Secure EPT tables. A domain's root takes none of them.
    pub tables: usize,
}

impl Sizes {
    /// The least that the library takes.
    pub const LEAST: Sizes = Sizes {
        frames: 512,
        records: 1,
        tables: 4,
    };

    /// The most that the library takes.
    pub const MOST: Sizes = Sizes {
        frames: 16384,
        records: 64,
        tables: 256,
    };

    /// Those of the replay program.
    pub const PROGRAM: Sizes = Sizes {
        frames: 1024,
        records: 4,
        tables: 12,
    };

    /// Words of [`Parts::frames`](crate::Parts::frames).
    pub fn frames_words(self) -> usize {
        self.frames
    }

    /// Words of [`Parts::domains`](crate::Parts::domains).
    pub fn domains_words(self) -> usize {
        RECORD_WORDS.saturating_mul(self.records)
    }

    /// Words of [`Parts::stock`](crate::Parts::stock).
    pub fn stock_words(self) -> usize {
        let whole = self.blocks() / STOCK_WORD_BITS;
        whole + usize::from(self.blocks() % STOCK_WORD_BITS != 0)
    }

    /// Words of [`Parts::entries`](crate::Parts::entries).
    pub fn entries_words(self) -> usize {
        TABLE_ENTRIES.saturating_mul(self.blocks())
    }

    /// Runs of entries 512: the tables and, behind them, the records' roots.
    pub(crate) fn blocks(self) -> usize {
        self.tables.saturating_add(self.records)
    }

    /// Whether each size is at most [`Sizes::MOST`].
    pub(crate) fn allocatable(self) -> bool {
        self.frames <= Sizes::MOST.frames
            && self.records <= Sizes::MOST.records
            && self.tables <= Sizes::MOST.tables
    }
}

impl Display for Sizes {
    fn fmt(&self, f: &mut Formatter<'_>) -> fmt::Result {
        let Sizes {
            frames,
            records,
            tables,
        } = self;
        write!(f, "frames {frames} records {records} tables {tables}")
    }
}
