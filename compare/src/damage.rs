//! Stored numbers changed by hand, in range and out of it.

use reefnettle_compare::Request;
use reefnettle_twin::{
    entry_state, frame_type, lifecycle, op_state, Entry, Frame, Machine, Record, Rng,
    CONTROL_PAGES, ENTRIES, EPOCH_LIMIT, FRAME_BYTES, KEY_HIGHEST, KEY_LOWEST, TOP_LEVEL,
};

use crate::requests::is_page_call;
use crate::tree::{self, Block, Step};

/// The codes of a lifecycle are below this.
const LIFECYCLES: u64 = lifecycle::WRITTEN_BACK + 1;
const LIFECYCLE_BITS: u32 = 3;

/// Changes numbers of a machine, most often such as a request comes by.
pub struct Damage<'a> {
    rng: &'a mut Rng,
    machine: &'a mut Machine,
    frames: Vec<usize>,
    records: Vec<usize>,
    steps: Vec<Step>,
}

impl<'a> Damage<'a> {
    pub fn aimed(rng: &'a mut Rng, machine: &'a mut Machine, request: &Request) -> Self {
        let mut damage = Damage {
            rng,
            machine,
            frames: Vec::new(),
            records: Vec::new(),
            steps: Vec::new(),
        };
        damage.aim_at_domain(request);
        damage.aim_at_page(request);
        damage
    }

    /// The TDR, its record, and the entries and frames on the way to the gpa.
    fn aim_at_domain(&mut self, request: &Request) {
        let tdr = self.number_of(request.domain.0);
        let Some(record) = tdr.and_then(|tdr| self.note_tdr(tdr)) else {
            return;
        };
        let level = match is_page_call(request.call) {
            true => 0,
            false => TOP_LEVEL.min(request.level.0),
        };
        self.steps = tree::way(self.machine, record, request.gpa.0, level);
        let named = self.steps.iter().filter(|step| !step.entry.is_free());
        self.frames
            .extend(named.map(|step| step.entry.frame as usize));
    }

    /// The frame, its owner, and the owner's record.
    fn aim_at_page(&mut self, request: &Request) {
        if let Some(page) = self.number_of(request.frame.0) {
            self.frames.push(page);
            let owner = self.machine.frames[page].owner as usize;
            self.note_tdr(owner);
        }
    }

    fn note_tdr(&mut self, tdr: usize) -> Option<usize> {
        self.frames.push(tdr);
        let frame = self.machine.frames[tdr];
        let record = (frame.kind == frame_type::TDR).then_some(frame.number as usize);
        self.records.extend(record);
        record
    }

    fn number_of(&self, hpa: u64) -> Option<usize> {
        let number = (hpa.checked_sub(self.machine.base)? / FRAME_BYTES) as usize;
        (number < self.machine.frames.len()).then_some(number)
    }

    /// Changes a number to another that is in range.
    pub fn in_range(&mut self) {
        match self.rng.below(16) {
            0 | 1 => self.change_frame(),
            2..=4 => self.change_owner(),
            5 => self.change_table_number(),
            6 => self.change_frame_epoch(),
            7 | 8 => self.turn_table(),
            9 => self.turn_record(),
            10..=12 => self.change_child_count(),
            13 => self.change_epoch(),
            14 => self.change_record(),
            _ => self.change_entry(),
        }
    }

    /// Changes a number of the frames, or of stock in use, to one out of range.
    pub fn out_of_range(&mut self) {
        match (self.rng.below(3), self.used_record(), self.used_block()) {
            (0, Some(record), _) => self.spoil_record(record),
            (1, _, Some(block)) => self.spoil_entry(block),
            _ => self.spoil_frame(),
        }
    }

    /// Gives each record any lifecycle; an unused one may have any code. Often a
    /// domain's TDR is gone, so that no frame names its record.
    pub fn change_lifecycles(&mut self) {
        for record in &mut self.machine.records {
            let any = self.rng.below(1 << LIFECYCLE_BITS);
            let in_range = self.rng.below(LIFECYCLES);
            record.lifecycle = if record.in_use { in_range } else { any };
        }
        let mut frames = self.machine.frames.iter_mut();
        let tdr = frames.find(|frame| frame.kind == frame_type::TDR);
        if let Some(tdr) = tdr.filter(|_| self.rng.chance(500)) {
            *tdr = Frame::default();
        }
    }

    fn change_frame(&mut self) {
        let at = self.frame();
        let kind = self.rng.below(frame_type::REG + 1);
        self.machine.frames[at] = Frame {
            kind,
            owner: if has_owner(kind) { self.owner() } else { 0 },
            number: self.rng.below(self.numbers(kind)),
            epoch: if has_epoch(kind) { self.epoch() } else { 0 },
        };
    }

    fn change_owner(&mut self) {
        let (at, owner) = (self.frame(), self.owner());
        if has_owner(self.machine.frames[at].kind) {
            self.machine.frames[at].owner = owner;
        }
    }

    fn change_table_number(&mut self) {
        let at = self.frame();
        let numbers = self.numbers(self.machine.frames[at].kind);
        self.machine.frames[at].number = self.rng.below(numbers);
    }

    fn change_frame_epoch(&mut self) {
        let (at, epoch) = (self.frame(), self.epoch());
        if has_epoch(self.machine.frames[at].kind) {
            self.machine.frames[at].epoch = epoch;
        }
    }

    /// Takes or gives back the table of a frame that is aimed at.
    fn turn_table(&mut self) {
        let at = self.frame();
        let frame = self.machine.frames[at];
        let table = match frame.kind {
            frame_type::EPT => frame.number as usize,
            _ => self.rng.index(self.machine.tables.len()),
        };
        self.machine.tables[table].in_use ^= true;
    }

    fn turn_record(&mut self) {
        let record = self.record();
        self.machine.records[record].in_use ^= true;
    }

    fn change_child_count(&mut self) {
        let record = self.record();
        let frames = self.machine.frames.len() as u64;
        let any = self.rng.below(frames + 1);
        self.machine.records[record].child_count = self.one_of([0, 0, frames, frames, any]);
    }

    fn change_epoch(&mut self) {
        let (record, epoch) = (self.record(), self.epoch());
        self.machine.records[record].epoch = epoch.max(1);
    }

    /// Changes the key, a state, or the listed pages.
    fn change_record(&mut self) {
        let at = self.record();
        let page = self.rng.below(self.machine.frames.len() as u64);
        let rng = &mut *self.rng;
        let record = &mut self.machine.records[at];
        match rng.below(4) {
            0 => record.key = KEY_LOWEST + rng.below(KEY_HIGHEST - KEY_LOWEST + 1),
            1 => record.lifecycle = rng.below(LIFECYCLES),
            2 => record.op_state = rng.below(op_state::RUNNABLE + 1),
            _ => {
                record.page_count = rng.below(CONTROL_PAGES as u64 + 1);
                let (listed, unlisted) = record.pages.split_at_mut(record.page_count as usize);
                listed.fill(page);
                unlisted.fill(0);
            }
        }
    }

    /// Gives an entry on the way another state, another frame, or both.
    fn change_entry(&mut self) {
        let Some(step) = self.pick_step() else {
            return;
        };
        let state = self.rng.below(entry_state::PENDING_BLOCKED.into()) as u32 + 1;
        let frame = self.frame() as u32;
        let mut entry = step.entry;
        match self.rng.below(4) {
            0 => entry = Entry::FREE,
            1 => entry = Entry { state, frame },
            2 if !entry.is_free() => entry.frame = frame,
            _ => entry.state = state,
        }
        step.block.entries_mut(self.machine)[step.index] = entry;
    }

    fn spoil_frame(&mut self) {
        let at = self.frame();
        let mut frame = self.machine.frames[at];
        // First number too high; 1 where the type has none.
        let end = |has: bool, end| if has { end } else { 1 };
        let owners = end(has_owner(frame.kind), self.machine.frames.len() as u64);
        let epochs = end(has_epoch(frame.kind), EPOCH_LIMIT + 1);
        match self.rng.below(4) {
            0 => frame.kind = self.above(frame_type::REG + 1, 3),
            1 => frame.owner = self.above(owners, 14),
            2 => frame.number = self.above(self.numbers(frame.kind), 8),
            _ => frame.epoch = self.above(epochs, 39),
        }
        self.machine.frames[at] = frame;
    }

    fn spoil_record(&mut self, at: usize) {
        let frames = self.machine.frames.len() as u64;
        let page = self.rng.index(CONTROL_PAGES);
        let listed = (page as u64) < self.machine.records[at].page_count;
        let mut record: Record = self.machine.records[at].clone();
        match self.rng.below(9) {
            0 => record.key = self.rng.below(KEY_LOWEST),
            1 => record.key = self.above(KEY_HIGHEST + 1, 7),
            2 => record.lifecycle = self.above(LIFECYCLES, LIFECYCLE_BITS),
            3 => record.op_state = self.above(op_state::RUNNABLE + 1, 2),
            4 => record.page_count = self.above(CONTROL_PAGES as u64 + 1, 3),
            5 => record.pages[page] = self.above(if listed { frames } else { 1 }, 63),
            6 => record.child_count = self.above(frames + 1, 15),
            7 => record.epoch = 0,
            _ => record.epoch = self.above(EPOCH_LIMIT + 1, 34),
        }
        self.machine.records[at] = record;
    }

    fn spoil_entry(&mut self, block: Block) {
        let frames = self.machine.frames.len() as u64;
        let state = self.rng.below(entry_state::PENDING_BLOCKED.into()) as u32 + 1;
        let beyond = self.above(frames, 29) as u32;
        let entry = match self.rng.below(3) {
            0 => Entry {
                state: entry_state::PENDING_BLOCKED + 1,
                frame: self.rng.below(frames) as u32,
            },
            1 => Entry {
                state: entry_state::FREE,
                frame: self.above(1, 29) as u32,
            },
            _ => Entry {
                state,
                frame: beyond,
            },
        };
        let index = self.rng.index(ENTRIES);
        block.entries_mut(self.machine)[index] = entry;
    }

    /// A number from a limit on that has so many bits, most often the limit.
    fn above(&mut self, limit: u64, bits: u32) -> u64 {
        if self.rng.chance(500) {
            return limit;
        }
        limit + self.rng.below((1 << bits) - limit)
    }

    /// First number of stock too high for a type; 1 where it has none.
    fn numbers(&self, kind: u64) -> u64 {
        match kind {
            frame_type::TDR => self.machine.records.len() as u64,
            frame_type::EPT => self.machine.tables.len() as u64,
            _ => 1,
        }
    }

    /// A frame that the request comes by, that of its own entry more often than
    /// the others: there answer 14 is rare.
    fn frame(&mut self) -> usize {
        let any = self.rng.index(self.machine.frames.len());
        let own = self.steps.last().filter(|step| !step.entry.is_free());
        let own = own.map(|step| step.entry.frame as usize);
        let aimed = self.rng.pick(&self.frames);
        let aimed = own.filter(|_| self.rng.chance(500)).or(aimed);
        aimed.filter(|_| self.rng.chance(900)).unwrap_or(any)
    }

    fn owner(&mut self) -> u64 {
        let any = self.rng.below(self.machine.frames.len() as u64);
        let aimed = self.frame() as u64;
        self.one_of([any, aimed])
    }

    fn record(&mut self) -> usize {
        let any = self.rng.index(self.machine.records.len());
        let aimed = self.rng.pick(&self.records);
        aimed.filter(|_| self.rng.chance(900)).unwrap_or(any)
    }

    /// An entry on the way, the last of them more often than the others.
    fn pick_step(&mut self) -> Option<Step> {
        let last = self.steps.last().copied();
        let any = self.rng.pick(&self.steps);
        if self.rng.chance(500) {
            last
        } else {
            any
        }
    }

    fn used_record(&mut self) -> Option<usize> {
        let records = self.machine.records.iter().enumerate();
        let used: Vec<usize> = records.filter(|(_, r)| r.in_use).map(|(n, _)| n).collect();
        self.rng.pick(&used)
    }

    fn used_block(&mut self) -> Option<Block> {
        let tables = self.machine.tables.iter().enumerate();
        let tables = tables.filter(|(_, table)| table.in_use);
        let mut used: Vec<Block> = tables.map(|(n, _)| Block::Table(n)).collect();
        used.extend(self.used_record().map(Block::Root));
        self.rng.pick(&used)
    }

    fn epoch(&mut self) -> u64 {
        let few = self.rng.below(6);
        let any = self.rng.below(EPOCH_LIMIT + 1);
        self.one_of([few, EPOCH_LIMIT, any])
    }

    fn one_of<const N: usize>(&mut self, items: [u64; N]) -> u64 {
        items[self.rng.index(N)]
    }
}

fn has_owner(kind: u64) -> bool {
    kind > frame_type::TDR
}

fn has_epoch(kind: u64) -> bool {
    kind > frame_type::TDCX
}
