//! A running machine's tables, written word by word with types.

use reefnettle::{
    Block, DomainRecord, EntryState, EntryWord, Frame, FrameWord, Key, Lifecycle, Model, OpState,
    Parts, Record, Refusal, Sizes, Table, Window,
};

/// The one domain: its TDR, its control pages, its tables of levels 2, 1 and 0,
/// one below the other, and its page at gpa 0.
pub const TDR: Frame = Frame(0);
pub const PAGES: [Frame; 4] = [Frame(1), Frame(2), Frame(3), Frame(4)];
pub const TABLES: [Frame; 3] = [Frame(5), Frame(6), Frame(7)];
pub const PAGE: Frame = Frame(8);

/// Where the entries stand that lead to the tables and to the page.
pub const WAY: [Block; 4] = [
    Block::Root(Record(0)),
    Block::Table(Table(0)),
    Block::Table(Table(1)),
    Block::Table(Table(2)),
];

/// A machine of the replay program's sizes with one initialized domain, key 32.
pub fn running() -> Result<Parts, Refusal> {
    let mut parts = Model::fresh(Window::BASE_LEAST, Sizes::PROGRAM)?.into_parts();
    let mut record = DomainRecord::new(Key(32));
    record.lifecycle = Lifecycle::KeysConfigured;
    record.op_state = OpState::Initialized;
    record.children = PAGES.len() + TABLES.len() + 1;
    parts.set_frame(TDR, FrameWord::tdr(Record(0)))?;
    for page in PAGES {
        parts.set_frame(page, FrameWord::tdcx(TDR))?;
        record.list(page)?;
    }
    for (number, frame) in (0..).zip(TABLES) {
        let table = Table(number);
        parts.set_frame(frame, FrameWord::ept(TDR, table))?;
        parts.set_table_in_use(table, true)?;
        let state = EntryState::NlMapped;
        parts.set_entry(WAY[number], 0, EntryWord { state, frame })?;
    }
    parts.set_frame(PAGE, FrameWord::reg(TDR))?;
    let (state, frame) = (EntryState::Mapped, PAGE);
    parts.set_entry(WAY[3], 0, EntryWord { state, frame })?;
    parts.set_record(Record(0), record)?;
    parts.set_record_in_use(Record(0), true)?;
    Ok(parts)
}
