//! The way down a domain's tree.

use reefnettle_twin::{entry_state, frame_type, Entry, Machine, ENTRIES, LEVEL_SHIFT, TOP_LEVEL};

/// A run of entries 512.
#[derive(Clone, Copy)]
pub enum Block {
    /// The root of the record of this number.
    Root(usize),
    /// The table of this number.
    Table(usize),
}

impl Block {
    pub fn entries(self, machine: &Machine) -> &[Entry; ENTRIES] {
        match self {
            Block::Root(record) => &machine.records[record].root,
            Block::Table(table) => &machine.tables[table].entries,
        }
    }

    pub fn entries_mut(self, machine: &mut Machine) -> &mut [Entry; ENTRIES] {
        match self {
            Block::Root(record) => &mut machine.records[record].root,
            Block::Table(table) => &mut machine.tables[table].entries,
        }
    }
}

/// An entry on the way.
#[derive(Clone, Copy)]
pub struct Step {
    pub level: u64,
    pub block: Block,
    pub index: usize,
    pub entry: Entry,
}

/// The entries on the way from a record's root to a gpa at a level, as far as
/// they lead. It doesn't ask whose the tables are, so it goes on where the walk
/// of a call says 14.
pub fn way(machine: &Machine, record: usize, gpa: u64, level: u64) -> Vec<Step> {
    let mut steps = Vec::new();
    let mut block = Some(Block::Root(record));
    for level in (level..=TOP_LEVEL).rev() {
        let Some(here) = block else { break };
        let index = (gpa >> LEVEL_SHIFT[level as usize]) as usize % ENTRIES;
        let entry = here.entries(machine)[index];
        steps.push(Step {
            level,
            block: here,
            index,
            entry,
        });
        block = table_below(machine, entry);
    }
    steps
}

/// The table that an entry leads to.
pub fn table_below(machine: &Machine, entry: Entry) -> Option<Block> {
    let frame = machine.frames.get(entry.frame as usize)?;
    let table = frame.number as usize;
    let leads = entry.state == entry_state::NL_MAPPED
        && frame.kind == frame_type::EPT
        && table < machine.tables.len();
    leads.then_some(Block::Table(table))
}
