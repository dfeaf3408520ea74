//! Draws requests for tables that were reached by calls.

use reefnettle_compare::{number, Gpa, Hpa, Key, Level, Request};
use reefnettle_twin::{
    entry_state, frame_type, lifecycle, op_state, Machine, Record, Rng, CONTROL_PAGES, ENTRIES,
    FRAME_BYTES, GPA_LIMIT, KEY_HIGHEST, KEY_LOWEST, LEVEL_SHIFT, TOP_LEVEL,
};

use crate::floats;
use crate::tree::{self, Block, Step};

/// Draws requests for one machine, whose numbers are all in range.
pub struct Requests<'a> {
    rng: &'a mut Rng,
    machine: &'a Machine,
}

impl<'a> Requests<'a> {
    pub fn new(rng: &'a mut Rng, machine: &'a Machine) -> Self {
        Requests { rng, machine }
    }

    /// Any call, with operands good and bad. Those that the call doesn't have
    /// are drawn too: nothing may come of them.
    pub fn any(&mut self) -> Request {
        let call = self.call();
        let level = self.level();
        let tdr = self.frame_of(|kind| kind == frame_type::TDR);
        let at = if is_page_call(call) { 0 } else { level };
        Request {
            call,
            domain: self.domain(tdr),
            gpa: self.gpa(tdr, at),
            level: Level(level),
            frame: self.frame(call),
            key: self.key(),
            raise: self.mark(),
            clear: self.mark(),
        }
    }

    /// A call that brings a domain on, and is mostly accepted.
    pub fn likely(&mut self) -> Request {
        let tdr = self.frame_of(|kind| kind == frame_type::TDR);
        let Some(tdr) = tdr.filter(|_| !self.rng.chance(60)) else {
            return self.create();
        };
        let record = self.machine.frames[tdr].number as usize;
        let request = Request {
            domain: self.hpa(tdr),
            frame: self.free_frame(),
            ..self.any()
        };
        let Record {
            lifecycle,
            op_state,
            page_count,
            ..
        } = self.machine.records[record];
        let call = match lifecycle {
            lifecycle::HKID_ASSIGNED => number::KEYCONFIG,
            // Seldom the key is asked for before the write-back.
            lifecycle::BLOCKED if self.rng.chance(800) => number::CACHEWB,
            lifecycle::BLOCKED | lifecycle::WRITTEN_BACK => number::KEYFREE,
            lifecycle::TEARDOWN => return self.reclaim(tdr, request),
            _ if page_count < CONTROL_PAGES as u64 => number::ADDCX,
            _ if op_state == op_state::UNINITIALIZED => number::INIT,
            _ => return self.tend(record, request),
        };
        Request { call, ..request }
    }

    fn create(&mut self) -> Request {
        Request {
            call: number::CREATE,
            frame: self.free_frame(),
            key: Key(KEY_LOWEST + self.rng.below(KEY_HIGHEST - KEY_LOWEST + 1)),
            ..self.any()
        }
    }

    /// Takes a frame back, the TDR only when it has no others.
    fn reclaim(&mut self, tdr: usize, request: Request) -> Request {
        let frames = self.machine.frames.iter().enumerate();
        let children: Vec<usize> = frames
            .filter(|(_, f)| f.kind > frame_type::TDR && f.owner == tdr as u64)
            .map(|(number, _)| number)
            .collect();
        let frame = self.rng.pick(&children).unwrap_or(tdr);
        Request {
            call: number::RECLAIM,
            frame: self.hpa(frame),
            ..request
        }
    }

    /// Does to a live domain what an entry of its tree is ready for.
    fn tend(&mut self, record: usize, request: Request) -> Request {
        let Record { op_state, .. } = self.machine.records[record];
        let early = op_state == op_state::INITIALIZED;
        match self.rng.below(100) {
            0 => return with_call(request, number::FLUSHDONE),
            1..=3 if early => return with_call(request, number::FINALIZE),
            4..=19 => return with_call(request, number::TRACK),
            _ => {}
        }
        let level = self.one_of([0, 0, 0, 0, 1, 2, 3]);
        let gpa = self.gpa_in(record, level);
        let way = tree::way(self.machine, record, gpa, level);
        let last = way.last().expect("the way begins at the root");
        let low = LEVEL_SHIFT[last.level as usize];
        let call = match last.entry.state {
            entry_state::FREE if last.level > 0 => number::SEPTADD,
            entry_state::FREE if early => number::PAGEADD,
            entry_state::FREE => number::PAGEAUG,
            entry_state::NL_MAPPED if !self.may_block(last) => number::READENTRY,
            entry_state::NL_BLOCKED if self.rng.chance(500) => number::SEPTREMOVE,
            entry_state::BLOCKED.. if self.rng.chance(600) => number::PAGEREMOVE,
            entry_state::NL_BLOCKED.. => number::UNBLOCK,
            _ => number::BLOCK,
        };
        Request {
            call,
            gpa: Gpa(gpa >> low << low),
            level: Level(last.level),
            ..request
        }
    }

    /// Tables are blocked seldom, so that trees grow; empty ones more often, so
    /// that some are removed.
    fn may_block(&mut self, step: &Step) -> bool {
        let table = tree::table_below(self.machine, step.entry);
        let empty = table.is_some_and(|t| t.entries(self.machine).iter().all(|e| e.is_free()));
        self.rng.chance(if empty { 400 } else { 150 })
    }

    fn call(&mut self) -> u64 {
        let known = number::LAST + 1;
        if self.rng.chance(970) {
            return self.rng.below(known);
        }
        let call = self.rng.below(known);
        // The second and third are known calls if high bits are lost.
        let unknown = [known, call | 1 << 8, call | 1 << 32, u64::MAX];
        self.one_of(unknown)
    }

    fn domain(&mut self, tdr: Option<usize>) -> Hpa {
        match (tdr, self.rng.below(100)) {
            (Some(tdr), 0..=89) => self.hpa(tdr),
            (_, 0..=95) => self.any_frame(),
            _ => self.no_frame(),
        }
    }

    fn frame(&mut self, call: u64) -> Hpa {
        let wants_used = call == number::RECLAIM || call == number::READPAGE;
        match self.rng.below(100) {
            0..=84 if wants_used => match self.frame_of(|kind| kind != frame_type::NDA) {
                Some(frame) => self.hpa(frame),
                None => self.any_frame(),
            },
            0..=84 => self.free_frame(),
            85..=93 => self.any_frame(),
            _ => self.no_frame(),
        }
    }

    /// A free frame, or any if there is none.
    fn free_frame(&mut self) -> Hpa {
        match self.frame_of(|kind| kind == frame_type::NDA) {
            Some(frame) => self.hpa(frame),
            None => self.any_frame(),
        }
    }

    fn any_frame(&mut self) -> Hpa {
        let frame = self.rng.index(self.machine.frames.len());
        self.hpa(frame)
    }

    /// An hpa that names no frame of the window.
    fn no_frame(&mut self) -> Hpa {
        let base = self.machine.base;
        let frame = self.rng.index(self.machine.frames.len());
        let unaligned = self.machine.hpa(frame) + 1 + self.rng.below(FRAME_BYTES - 1);
        let behind = self.machine.hpa(self.machine.frames.len());
        let number = base / FRAME_BYTES + frame as u64;
        let any = self.rng.bits();
        let hpas = [unaligned, behind, base - FRAME_BYTES, number, 0, any];
        Hpa(self.one_of(hpas))
    }

    fn gpa(&mut self, tdr: Option<usize>, level: u64) -> Gpa {
        let at = level.min(TOP_LEVEL);
        let record = tdr.map(|tdr| self.machine.frames[tdr].number as usize);
        let gpa = record.map_or(0, |record| self.gpa_in(record, at));
        if self.rng.chance(940) {
            return Gpa(gpa);
        }
        let low = LEVEL_SHIFT[at as usize];
        let half = 1 << (low - 1);
        let (below, any) = (self.rng.below(1 << low), self.rng.bits());
        Gpa(self.one_of([gpa + half, gpa + below, gpa + GPA_LIMIT, GPA_LIMIT, any]))
    }

    /// A gpa on the way to entries that aren't FREE, more often than not. Few
    /// indexes are used, so that ways meet.
    fn gpa_in(&mut self, record: usize, level: u64) -> u64 {
        let mut gpa = 0;
        let mut block = Some(Block::Root(record));
        for at in (level..=TOP_LEVEL).rev() {
            let shift = LEVEL_SHIFT[at as usize];
            let last = ((GPA_LIMIT - 1) >> shift) as usize % ENTRIES;
            let mut indexes = vec![0, 0, 1, last];
            if let Some(block) = block.filter(|_| self.rng.chance(800)) {
                let entries = block.entries(self.machine);
                indexes.retain(|&index| !entries[index].is_free());
            }
            let index = self.rng.pick(&indexes).unwrap_or(0);
            gpa |= (index as u64) << shift;
            block = block.and_then(|block| {
                let entry = block.entries(self.machine)[index];
                tree::table_below(self.machine, entry)
            });
        }
        gpa
    }

    fn level(&mut self) -> u64 {
        if self.rng.chance(960) {
            return self.rng.below(TOP_LEVEL + 1);
        }
        // The third is a level if high bits are lost.
        let any = self.rng.bits();
        self.one_of([TOP_LEVEL + 1, 64, 1 << 32 | 1, u64::MAX, any])
    }

    fn key(&mut self) -> Key {
        if self.rng.chance(900) {
            return Key(KEY_LOWEST + self.rng.below(KEY_HIGHEST - KEY_LOWEST + 1));
        }
        let any = self.rng.bits();
        let keys = [
            KEY_LOWEST - 1,
            KEY_HIGHEST + 1,
            0,
            KEY_LOWEST | 1 << 32,
            any,
        ];
        Key(self.one_of(keys))
    }

    fn mark(&mut self) -> f64 {
        let frames = self.machine.frames.len();
        floats::mark(self.rng, frames, self.machine.used_frames())
    }

    /// Some frame whose type is wanted.
    fn frame_of(&mut self, wanted: impl Fn(u64) -> bool) -> Option<usize> {
        let frames = self.machine.frames.iter().enumerate();
        let numbers: Vec<usize> = frames
            .filter(|(_, frame)| wanted(frame.kind))
            .map(|(number, _)| number)
            .collect();
        self.rng.pick(&numbers)
    }

    fn one_of<const N: usize>(&mut self, items: [u64; N]) -> u64 {
        items[self.rng.index(N)]
    }

    fn hpa(&self, frame: usize) -> Hpa {
        Hpa(self.machine.hpa(frame))
    }
}

/// True if the call works at level 0 and has no level operand.
pub fn is_page_call(call: u64) -> bool {
    matches!(call, number::PAGEADD | number::PAGEAUG | number::PAGEREMOVE)
}

fn with_call(request: Request, call: u64) -> Request {
    Request { call, ..request }
}
