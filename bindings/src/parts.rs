//! All that a model stores, as words and with types.

use crate::answer::Refusal;
use crate::gauge::Gauge;
use crate::sizes::{Sizes, RECORD_WORDS, STOCK_WORD_BITS, TABLE_ENTRIES};
use crate::units::{Frame, Hpa, Record, Table, Window};
use crate::words::{DomainRecord, EntryWord, FrameWord};

/// All that a model stores: what is lent to the library at each call.
/// `docs/TABLES.md` of the repository says what each word holds.
///
/// The words are read and written with types by the functions below. They are the
/// way in and out for the tables of a running machine: see
/// [`Model::import`](crate::Model::import) and
/// [`Model::parts`](crate::Model::parts). A place that the lengths don't have is
/// [`Refusal::Operand`]. What can't be packed or unpacked is
/// [`Refusal::OutOfRange`]; everything else that may be wrong is left to the
/// library.
#[derive(Clone, Debug, PartialEq)]
pub struct Parts {
    /// Address of frame 0.
    pub base: Hpa,
    /// A word for each frame.
    pub frames: Vec<u64>,
    /// Words 5 for each domain record.
    pub domains: Vec<u64>,
    /// A bit for each table and, behind them, for each record: whether it is in
    /// use.
    pub stock: Vec<u64>,
    /// Words 512 for each table and, behind them, for each record's root.
    pub entries: Vec<u32>,
    /// The fill gauge.
    pub gauge: Gauge,
}

/// A run of entries 512.
#[non_exhaustive]
#[derive(Clone, Copy, Debug, PartialEq, Eq, Hash)]
pub enum Block {
    /// A Secure EPT table.
    Table(Table),
    /// The root of the domain with a record. It is in use exactly when the record
    /// is.
    Root(Record),
}

impl Parts {
    /// The sizes, read off the lengths; `None` if no sizes have these lengths.
    /// They may still be outside the limits.
    pub fn sizes(&self) -> Option<Sizes> {
        let records = self.domains.len() / RECORD_WORDS;
        let sizes = Sizes {
            frames: self.frames.len(),
            records,
            tables: (self.entries.len() / TABLE_ENTRIES).checked_sub(records)?,
        };
        let fits = sizes.domains_words() == self.domains.len()
            && sizes.stock_words() == self.stock.len()
            && sizes.entries_words() == self.entries.len();
        fits.then_some(sizes)
    }

    /// The window of frames, which converts between frames and addresses.
    pub fn window(&self) -> Window {
        Window {
            base: self.base,
            frames: self.frames.len(),
        }
    }

    /// What is stored of a frame.
    pub fn frame(&self, frame: Frame) -> Result<FrameWord, Refusal> {
        let word = self.frames.get(frame.0).ok_or(Refusal::Operand)?;
        FrameWord::unpack(*word)
    }

    /// Stores what a frame is.
    pub fn set_frame(&mut self, frame: Frame, stored: FrameWord) -> Result<(), Refusal> {
        *self.frames.get_mut(frame.0).ok_or(Refusal::Operand)? = stored.pack()?;
        Ok(())
    }

    /// What is stored of a domain. If the record isn't in use, what was left
    /// there.
    pub fn record(&self, record: Record) -> Result<DomainRecord, Refusal> {
        let mut records = self.domains.chunks_exact(RECORD_WORDS);
        let words = records.nth(record.0).ok_or(Refusal::Operand)?;
        DomainRecord::unpack(std::array::from_fn(|word| words[word]))
    }

    /// Stores what a domain is. It doesn't put the record in use.
    pub fn set_record(&mut self, record: Record, stored: DomainRecord) -> Result<(), Refusal> {
        let mut records = self.domains.chunks_exact_mut(RECORD_WORDS);
        let words = records.nth(record.0).ok_or(Refusal::Operand)?;
        words.copy_from_slice(&stored.pack()?);
        Ok(())
    }

    /// What is stored of an entry; [`Gpa::index`](crate::Gpa::index) is the index
    /// of an address at a level. If the block isn't in use, what was left there.
    pub fn entry(&self, block: Block, index: usize) -> Result<EntryWord, Refusal> {
        let word = self.entry_place(block, index)?;
        EntryWord::unpack(self.entries[word])
    }

    /// Stores an entry. It doesn't put the block in use.
    pub fn set_entry(
        &mut self,
        block: Block,
        index: usize,
        stored: EntryWord,
    ) -> Result<(), Refusal> {
        let word = self.entry_place(block, index)?;
        self.entries[word] = stored.pack()?;
        Ok(())
    }

    /// Whether a table is in use.
    pub fn table_in_use(&self, table: Table) -> Result<bool, Refusal> {
        Ok(self.bit(self.table_number(table)?))
    }

    /// Puts a table in use, or out of use.
    pub fn set_table_in_use(&mut self, table: Table, in_use: bool) -> Result<(), Refusal> {
        self.set_bit(self.table_number(table)?, in_use);
        Ok(())
    }

    /// Whether a record, with its root, is in use.
    pub fn record_in_use(&self, record: Record) -> Result<bool, Refusal> {
        Ok(self.bit(self.root_number(record)?))
    }

    /// Puts a record, with its root, in use, or out of use.
    pub fn set_record_in_use(&mut self, record: Record, in_use: bool) -> Result<(), Refusal> {
        self.set_bit(self.root_number(record)?, in_use);
        Ok(())
    }

    fn shape(&self) -> Result<Sizes, Refusal> {
        self.sizes().ok_or(Refusal::OutOfRange)
    }

    /// The number of a table's block, which is that of its bit in the stock.
    fn table_number(&self, table: Table) -> Result<usize, Refusal> {
        if table.0 >= self.shape()?.tables {
            return Err(Refusal::Operand);
        }
        Ok(table.0)
    }

    /// The number of a root's block, which is that of its record's bit.
    fn root_number(&self, record: Record) -> Result<usize, Refusal> {
        let sizes = self.shape()?;
        if record.0 >= sizes.records {
            return Err(Refusal::Operand);
        }
        Ok(sizes.tables + record.0)
    }

    fn entry_place(&self, block: Block, index: usize) -> Result<usize, Refusal> {
        let number = match block {
            Block::Table(table) => self.table_number(table)?,
            Block::Root(record) => self.root_number(record)?,
        };
        if index >= TABLE_ENTRIES {
            return Err(Refusal::Operand);
        }
        Ok(TABLE_ENTRIES * number + index)
    }

    fn bit(&self, number: usize) -> bool {
        let word = self.stock[number / STOCK_WORD_BITS];
        (word >> (number % STOCK_WORD_BITS)) & 1 == 1
    }

    fn set_bit(&mut self, number: usize, value: bool) {
        let one = 1 << (number % STOCK_WORD_BITS);
        let word = &mut self.stock[number / STOCK_WORD_BITS];
        *word = if value { *word | one } else { *word & !one };
    }
}
