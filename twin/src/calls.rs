//! The nineteen host calls.
//!
//! Each one judges everything before it changes anything, in the paper's
//! order: 1, D's 2, the record's 14, 3, 4, 5, F's 2, 10, 6, 7, 8, 9, 11, 12,
//! 14, with the exceptions that the paper names.

use crate::answer::{Answer, Readout, Refusal};
use crate::levels::{entry_index, Target, TOP_LEVEL};
use crate::range::{EPOCH_LIMIT, KEY_HIGHEST, KEY_LOWEST};
use crate::state::{
    entry_state, frame_type, lifecycle, op_state, Entry, Frame, Machine, Record, CONTROL_PAGES,
    FRAME_BYTES,
};

/// A host call with its operands, in the order of a script line. `domain` is
/// the hpa of the domain's TDR, `page` the hpa of a frame, `gpa` a guest
/// address, `level` a level of the secure EPT and `key` a key number.
#[derive(Clone, Copy, Debug, PartialEq, Eq)]
#[allow(missing_docs)]
pub enum Call {
    /// Makes a free frame the TDR of a new domain.
    Create { page: u64, key: u64 },
    /// Configures the domain's key.
    KeyConfig { domain: u64 },
    /// Adds a control page.
    AddCx { domain: u64, page: u64 },
    /// Initializes the domain.
    Init { domain: u64 },
    /// Adds a secure EPT page.
    SeptAdd {
        domain: u64,
        gpa: u64,
        level: u64,
        page: u64,
    },
    /// Adds a page before finalize.
    PageAdd { domain: u64, gpa: u64, page: u64 },
    /// Makes the domain runnable.
    Finalize { domain: u64 },
    /// Adds a pending page after finalize.
    PageAug { domain: u64, gpa: u64, page: u64 },
    /// Blocks an entry.
    Block { domain: u64, gpa: u64, level: u64 },
    /// Moves the domain's epoch on.
    Track { domain: u64 },
    /// Unblocks an entry.
    Unblock { domain: u64, gpa: u64, level: u64 },
    /// Removes a blocked page.
    PageRemove { domain: u64, gpa: u64 },
    /// Removes a blocked, empty secure EPT page.
    SeptRemove { domain: u64, gpa: u64, level: u64 },
    /// Blocks the domain for good.
    FlushDone { domain: u64 },
    /// Writes the caches back, for every blocked domain.
    CacheWb,
    /// Frees the key of a domain that is blocked and written back.
    KeyFree { domain: u64 },
    /// Takes a frame back from a domain in teardown.
    Reclaim { page: u64 },
    /// Reads a frame's type and owner.
    ReadPage { page: u64 },
    /// Reads an entry.
    ReadEntry { domain: u64, gpa: u64, level: u64 },
}

type Judged<T> = Result<T, Refusal>;

/// A TDR's frame number, whose record is in use, and the record's number.
#[derive(Clone, Copy)]
struct Domain {
    tdr: usize,
    record: usize,
}

/// Where an entry lies.
#[derive(Clone, Copy)]
struct Place {
    shelf: Shelf,
    index: usize,
    level: u64,
}

#[derive(Clone, Copy)]
enum Shelf {
    /// The root in the record of this number.
    Root(usize),
    /// The table of this number.
    Table(usize),
}

impl Machine {
    /// Judges all that is stored (13), then runs the call.
    pub fn call(&mut self, call: Call) -> Answer {
        if !self.in_range() {
            return Refusal::OutOfRange.into();
        }
        self.recount();
        self.call_unchecked(call)
    }

    /// Runs the call on tables known to be in range, as a reset and every call
    /// after it leave them. May panic on others.
    pub fn call_unchecked(&mut self, call: Call) -> Answer {
        match self.run(call) {
            Ok(readout) => {
                let fill = self.fill();
                self.gauge.note(fill);
                readout.into()
            }
            Err(refusal) => refusal.into(),
        }
    }

    fn run(&mut self, call: Call) -> Judged<Readout> {
        match call {
            Call::Create { page, key } => self.create(page, key)?,
            Call::KeyConfig { domain } => self.keyconfig(domain)?,
            Call::AddCx { domain, page } => self.addcx(domain, page)?,
            Call::Init { domain } => self.init(domain)?,
            Call::SeptAdd {
                domain,
                gpa,
                level,
                page,
            } => self.septadd(domain, gpa, level, page)?,
            Call::PageAdd { domain, gpa, page } => self.pageadd(domain, gpa, page)?,
            Call::Finalize { domain } => self.finalize(domain)?,
            Call::PageAug { domain, gpa, page } => self.pageaug(domain, gpa, page)?,
            Call::Block { domain, gpa, level } => self.block(domain, gpa, level)?,
            Call::Track { domain } => self.track(domain)?,
            Call::Unblock { domain, gpa, level } => self.unblock(domain, gpa, level)?,
            Call::PageRemove { domain, gpa } => self.pageremove(domain, gpa)?,
            Call::SeptRemove { domain, gpa, level } => self.septremove(domain, gpa, level)?,
            Call::FlushDone { domain } => self.flushdone(domain)?,
            Call::CacheWb => self.cachewb(),
            Call::KeyFree { domain } => self.keyfree(domain)?,
            Call::Reclaim { page } => self.reclaim(page)?,
            Call::ReadPage { page } => return self.readpage(page),
            Call::ReadEntry { domain, gpa, level } => return self.readentry(domain, gpa, level),
        }
        Ok(Readout::Zeros)
    }

    // The calls, in the paper's order.

    fn create(&mut self, page: u64, key: u64) -> Judged<()> {
        let page = self.frame_number(page)?;
        if !(KEY_LOWEST..=KEY_HIGHEST).contains(&key) {
            return Err(Refusal::Operand);
        }
        self.must_be_free(page)?;
        if self.key_is_taken(key) {
            return Err(Refusal::KeyTaken);
        }
        let number = self
            .records
            .iter()
            .position(|record| !record.in_use)
            .ok_or(Refusal::NoStock)?;

        self.records[number] = Record {
            in_use: true,
            key,
            lifecycle: lifecycle::HKID_ASSIGNED,
            op_state: op_state::UNINITIALIZED,
            epoch: 1,
            ..Record::default()
        };
        self.take_frame(
            page,
            Frame {
                kind: frame_type::TDR,
                number: number as u64,
                ..Frame::default()
            },
        );
        Ok(())
    }

    fn keyconfig(&mut self, domain: u64) -> Judged<()> {
        let tdr = self.frame_number(domain)?;
        let domain = self.domain(tdr)?;
        let record = self.record_mut(domain);
        if record.lifecycle != lifecycle::HKID_ASSIGNED {
            return Err(Refusal::Lifecycle);
        }

        record.lifecycle = lifecycle::KEYS_CONFIGURED;
        Ok(())
    }

    fn addcx(&mut self, domain: u64, page: u64) -> Judged<()> {
        let tdr = self.frame_number(domain)?;
        let page = self.frame_number(page)?;
        let domain = self.domain(tdr)?;
        let record = self.with_keys(domain)?;
        if record.page_count >= CONTROL_PAGES as u64 {
            return Err(Refusal::ControlPages);
        }
        self.must_be_free(page)?;
        self.may_gain_child(domain)?;

        let record = self.record_mut(domain);
        record.pages[record.page_count as usize] = page as u64;
        record.page_count += 1;
        self.give_child(domain, page, frame_type::TDCX, 0);
        Ok(())
    }

    fn init(&mut self, domain: u64) -> Judged<()> {
        let tdr = self.frame_number(domain)?;
        let domain = self.domain(tdr)?;
        let record = self.with_control_pages(domain)?;
        if record.op_state != op_state::UNINITIALIZED {
            return Err(Refusal::OpState);
        }

        self.record_mut(domain).op_state = op_state::INITIALIZED;
        Ok(())
    }

    fn septadd(&mut self, domain: u64, gpa: u64, level: u64, page: u64) -> Judged<()> {
        let tdr = self.frame_number(domain)?;
        let target = Target::new(gpa, level, 1)?;
        let page = self.frame_number(page)?;
        let domain = self.domain(tdr)?;
        self.live(domain)?;
        self.must_be_free(page)?;
        let place = self.walk(domain, target)?;
        self.must_have_state(place, &[entry_state::FREE])?;
        let number = self
            .tables
            .iter()
            .position(|table| !table.in_use)
            .ok_or(Refusal::NoStock)?;
        self.may_gain_child(domain)?;

        let table = &mut self.tables[number];
        table.in_use = true;
        table.entries.fill(Entry::FREE);
        *self.entry_mut(place) = Entry {
            state: entry_state::NL_MAPPED,
            frame: page as u32,
        };
        self.give_child(domain, page, frame_type::EPT, number);
        Ok(())
    }

    fn pageadd(&mut self, domain: u64, gpa: u64, page: u64) -> Judged<()> {
        self.map_page(
            domain,
            gpa,
            page,
            op_state::INITIALIZED,
            entry_state::MAPPED,
        )
    }

    fn finalize(&mut self, domain: u64) -> Judged<()> {
        let tdr = self.frame_number(domain)?;
        let domain = self.domain(tdr)?;
        self.live_in(domain, op_state::INITIALIZED)?;

        self.record_mut(domain).op_state = op_state::RUNNABLE;
        Ok(())
    }

    fn pageaug(&mut self, domain: u64, gpa: u64, page: u64) -> Judged<()> {
        self.map_page(domain, gpa, page, op_state::RUNNABLE, entry_state::PENDING)
    }

    fn block(&mut self, domain: u64, gpa: u64, level: u64) -> Judged<()> {
        let tdr = self.frame_number(domain)?;
        let target = Target::new(gpa, level, 0)?;
        let domain = self.domain(tdr)?;
        let epoch = self.live(domain)?.epoch;
        let place = self.walk(domain, target)?;
        let entry = self.must_have_state(
            place,
            &[
                entry_state::NL_MAPPED,
                entry_state::MAPPED,
                entry_state::PENDING,
            ],
        )?;
        self.must_be_own(domain, entry)?;

        self.entry_mut(place).state += entry_state::BLOCKING;
        self.frames[entry.frame as usize].epoch = epoch;
        Ok(())
    }

    fn track(&mut self, domain: u64) -> Judged<()> {
        let tdr = self.frame_number(domain)?;
        let domain = self.domain(tdr)?;
        if self.live(domain)?.epoch >= EPOCH_LIMIT {
            return Err(Refusal::EpochLimit);
        }

        self.record_mut(domain).epoch += 1;
        Ok(())
    }

    fn unblock(&mut self, domain: u64, gpa: u64, level: u64) -> Judged<()> {
        let tdr = self.frame_number(domain)?;
        let target = Target::new(gpa, level, 0)?;
        let domain = self.domain(tdr)?;
        self.live(domain)?;
        let place = self.walk(domain, target)?;
        let entry = self.must_have_state(
            place,
            &[
                entry_state::NL_BLOCKED,
                entry_state::BLOCKED,
                entry_state::PENDING_BLOCKED,
            ],
        )?;
        self.must_be_tracked(domain, entry)?;
        self.must_be_own(domain, entry)?;

        self.entry_mut(place).state -= entry_state::BLOCKING;
        Ok(())
    }

    fn pageremove(&mut self, domain: u64, gpa: u64) -> Judged<()> {
        let tdr = self.frame_number(domain)?;
        let target = Target::new(gpa, 0, 0)?;
        let domain = self.domain(tdr)?;
        self.live(domain)?;
        let place = self.walk(domain, target)?;
        let entry =
            self.must_have_state(place, &[entry_state::BLOCKED, entry_state::PENDING_BLOCKED])?;
        self.must_be_tracked(domain, entry)?;
        self.must_be_own(domain, entry)?;
        self.may_lose_child(domain)?;

        *self.entry_mut(place) = Entry::FREE;
        self.take_child(domain, entry.frame as usize);
        Ok(())
    }

    fn septremove(&mut self, domain: u64, gpa: u64, level: u64) -> Judged<()> {
        let tdr = self.frame_number(domain)?;
        let target = Target::new(gpa, level, 1)?;
        let domain = self.domain(tdr)?;
        self.live(domain)?;
        let place = self.walk(domain, target)?;
        let entry = self.must_have_state(place, &[entry_state::NL_BLOCKED])?;
        self.must_be_tracked(domain, entry)?;
        let number = self.must_be_own(domain, entry)?;
        if !self.tables[number].entries.iter().all(|e| e.is_free()) {
            return Err(Refusal::PagesRemain);
        }
        self.may_lose_child(domain)?;

        *self.entry_mut(place) = Entry::FREE;
        self.tables[number].in_use = false;
        self.take_child(domain, entry.frame as usize);
        Ok(())
    }

    fn flushdone(&mut self, domain: u64) -> Judged<()> {
        let tdr = self.frame_number(domain)?;
        let domain = self.domain(tdr)?;
        let record = self.record_mut(domain);
        match record.lifecycle {
            lifecycle::HKID_ASSIGNED | lifecycle::KEYS_CONFIGURED => {
                record.lifecycle = lifecycle::BLOCKED;
                Ok(())
            }
            _ => Err(Refusal::Lifecycle),
        }
    }

    /// Sweeps every record in use, whether or not a TDR names it. It names no
    /// domain, so nothing is left to refuse it but 13.
    fn cachewb(&mut self) {
        for record in self.records.iter_mut().filter(|record| record.in_use) {
            if record.lifecycle == lifecycle::BLOCKED {
                record.lifecycle = lifecycle::WRITTEN_BACK;
            }
        }
    }

    fn keyfree(&mut self, domain: u64) -> Judged<()> {
        let tdr = self.frame_number(domain)?;
        let domain = self.domain(tdr)?;
        let record = self.record_mut(domain);
        if record.lifecycle != lifecycle::WRITTEN_BACK {
            return Err(Refusal::Lifecycle);
        }

        record.lifecycle = lifecycle::TEARDOWN;
        Ok(())
    }

    fn reclaim(&mut self, page: u64) -> Judged<()> {
        let page = self.frame_number(page)?;
        match self.frames[page].kind {
            frame_type::NDA => Err(Refusal::FrameType),
            frame_type::TDR => self.reclaim_tdr(page),
            _ => self.reclaim_child(page),
        }
    }

    fn reclaim_tdr(&mut self, tdr: usize) -> Judged<()> {
        let domain = self.domain(tdr)?;
        if self.in_teardown(domain)?.child_count > 0 {
            return Err(Refusal::PagesRemain);
        }

        self.record_mut(domain).in_use = false;
        self.free_frame(tdr);
        Ok(())
    }

    fn reclaim_child(&mut self, page: usize) -> Judged<()> {
        let Frame {
            kind,
            owner,
            number,
            ..
        } = self.frames[page];
        // An owner that is no TDR contradicts the page; no operand is wrong.
        let domain = self
            .domain(owner as usize)
            .map_err(|_| Refusal::Inconsistent)?;
        self.in_teardown(domain)?;
        if kind == frame_type::EPT && !self.tables[number as usize].in_use {
            return Err(Refusal::Inconsistent);
        }
        self.may_lose_child(domain)?;

        if kind == frame_type::EPT {
            self.tables[number as usize].in_use = false;
        }
        self.take_child(domain, page);
        Ok(())
    }

    fn readpage(&self, page: u64) -> Judged<Readout> {
        let Frame { kind, owner, .. } = self.frames[self.frame_number(page)?];
        let owner = match kind {
            frame_type::TDCX | frame_type::EPT | frame_type::REG => self.hpa(owner as usize),
            _ => 0,
        };
        Ok(Readout::Page { kind, owner })
    }

    fn readentry(&self, domain: u64, gpa: u64, level: u64) -> Judged<Readout> {
        let tdr = self.frame_number(domain)?;
        let target = Target::new(gpa, level, 0)?;
        let domain = self.domain(tdr)?;
        self.live(domain)?;
        let entry = self.entry(self.walk(domain, target)?);
        Ok(Readout::Entry {
            level,
            state: entry.state.into(),
            hpa: if entry.is_free() {
                0
            } else {
                self.hpa(entry.frame as usize)
            },
        })
    }

    /// pageadd and pageaug: the same but for the op state needed and the state
    /// of the new entry.
    fn map_page(
        &mut self,
        domain: u64,
        gpa: u64,
        page: u64,
        needed: u64,
        state: u32,
    ) -> Judged<()> {
        let tdr = self.frame_number(domain)?;
        let target = Target::new(gpa, 0, 0)?;
        let page = self.frame_number(page)?;
        let domain = self.domain(tdr)?;
        self.live_in(domain, needed)?;
        self.must_be_free(page)?;
        let place = self.walk(domain, target)?;
        self.must_have_state(place, &[entry_state::FREE])?;
        self.may_gain_child(domain)?;

        *self.entry_mut(place) = Entry {
            state,
            frame: page as u32,
        };
        self.give_child(domain, page, frame_type::REG, 0);
        Ok(())
    }

    // Judgements.

    /// The number of the frame at an hpa, or 1.
    fn frame_number(&self, hpa: u64) -> Judged<usize> {
        let offset = hpa.checked_sub(self.base).ok_or(Refusal::Operand)?;
        let number = offset / FRAME_BYTES;
        if !hpa.is_multiple_of(FRAME_BYTES) || number >= self.frames.len() as u64 {
            return Err(Refusal::Operand);
        }
        Ok(number as usize)
    }

    /// D's 2, then its record's 14.
    fn domain(&self, tdr: usize) -> Judged<Domain> {
        let frame = &self.frames[tdr];
        if frame.kind != frame_type::TDR {
            return Err(Refusal::FrameType);
        }
        let record = frame.number as usize;
        if !self.records[record].in_use {
            return Err(Refusal::Inconsistent);
        }
        Ok(Domain { tdr, record })
    }

    /// 3 unless the keys are configured.
    fn with_keys(&self, domain: Domain) -> Judged<&Record> {
        let record = &self.records[domain.record];
        if record.lifecycle != lifecycle::KEYS_CONFIGURED {
            return Err(Refusal::Lifecycle);
        }
        Ok(record)
    }

    /// 3, then 4 unless all control pages are there.
    fn with_control_pages(&self, domain: Domain) -> Judged<&Record> {
        let record = self.with_keys(domain)?;
        if record.page_count < CONTROL_PAGES as u64 {
            return Err(Refusal::ControlPages);
        }
        Ok(record)
    }

    /// 3, 4, then 5 unless initialized or runnable.
    fn live(&self, domain: Domain) -> Judged<&Record> {
        let record = self.with_control_pages(domain)?;
        match record.op_state {
            op_state::INITIALIZED | op_state::RUNNABLE => Ok(record),
            _ => Err(Refusal::OpState),
        }
    }

    /// 3, 4, then 5 unless live in just this op state.
    fn live_in(&self, domain: Domain, needed: u64) -> Judged<&Record> {
        let record = self.live(domain)?;
        if record.op_state != needed {
            return Err(Refusal::OpState);
        }
        Ok(record)
    }

    /// 3 unless in teardown.
    fn in_teardown(&self, domain: Domain) -> Judged<&Record> {
        let record = &self.records[domain.record];
        if record.lifecycle != lifecycle::TEARDOWN {
            return Err(Refusal::Lifecycle);
        }
        Ok(record)
    }

    /// F's 2.
    fn must_be_free(&self, page: usize) -> Judged<()> {
        if self.frames[page].kind != frame_type::NDA {
            return Err(Refusal::FrameType);
        }
        Ok(())
    }

    /// True if a domain before teardown has the key.
    fn key_is_taken(&self, key: u64) -> bool {
        self.records.iter().any(|record| {
            record.in_use && record.lifecycle != lifecycle::TEARDOWN && record.key == key
        })
    }

    /// Walks to the target: 6 where an entry leads no further, 14 where it
    /// leads to a frame that isn't the domain's EPT with a table.
    fn walk(&self, domain: Domain, target: Target) -> Judged<Place> {
        self.walk_from(domain, target, Shelf::Root(domain.record), TOP_LEVEL)
    }

    fn walk_from(&self, domain: Domain, target: Target, shelf: Shelf, level: u64) -> Judged<Place> {
        let place = Place {
            shelf,
            index: entry_index(target.gpa, level),
            level,
        };
        if level <= target.level {
            return Ok(place);
        }
        let entry = self.entry(place);
        if entry.state != entry_state::NL_MAPPED {
            return Err(Refusal::WalkStopped {
                level,
                state: entry.state.into(),
            });
        }
        let number = self.must_be_own(domain, entry)?;
        self.walk_from(domain, target, Shelf::Table(number), level - 1)
    }

    /// 7 unless the entry's state is one of these.
    fn must_have_state(&self, place: Place, states: &[u32]) -> Judged<Entry> {
        let entry = self.entry(place);
        if !states.contains(&entry.state) {
            return Err(Refusal::EntryState {
                level: place.level,
                state: entry.state.into(),
            });
        }
        Ok(entry)
    }

    /// 8 unless the domain is initialized, and so can't be running yet, or the
    /// frame's epoch is below the domain's.
    fn must_be_tracked(&self, domain: Domain, entry: Entry) -> Judged<()> {
        let record = &self.records[domain.record];
        let epoch = self.frames[entry.frame as usize].epoch;
        if record.op_state != op_state::INITIALIZED && epoch >= record.epoch {
            return Err(Refusal::NotTracked);
        }
        Ok(())
    }

    /// 14 unless the entry's frame is the domain's, of the entry's type and, if
    /// an EPT, has a table in use. Gives the frame's number in stock.
    fn must_be_own(&self, domain: Domain, entry: Entry) -> Judged<usize> {
        let frame = &self.frames[entry.frame as usize];
        let number = frame.number as usize;
        let (kind, table_missing) = match entry.state {
            entry_state::NL_MAPPED | entry_state::NL_BLOCKED => (
                frame_type::EPT,
                frame.kind == frame_type::EPT && !self.tables[number].in_use,
            ),
            _ => (frame_type::REG, false),
        };
        if frame.kind != kind || frame.owner != domain.tdr as u64 || table_missing {
            return Err(Refusal::Inconsistent);
        }
        Ok(number)
    }

    /// 14 if one more child were more than there are frames.
    fn may_gain_child(&self, domain: Domain) -> Judged<()> {
        if self.records[domain.record].child_count >= self.frames.len() as u64 {
            return Err(Refusal::Inconsistent);
        }
        Ok(())
    }

    /// 14 if there is no child to lose.
    fn may_lose_child(&self, domain: Domain) -> Judged<()> {
        if self.records[domain.record].child_count == 0 {
            return Err(Refusal::Inconsistent);
        }
        Ok(())
    }

    // Reading and changing, once all is judged.

    fn record_mut(&mut self, domain: Domain) -> &mut Record {
        &mut self.records[domain.record]
    }

    fn entry(&self, place: Place) -> Entry {
        match place.shelf {
            Shelf::Root(record) => self.records[record].root[place.index],
            Shelf::Table(table) => self.tables[table].entries[place.index],
        }
    }

    fn entry_mut(&mut self, place: Place) -> &mut Entry {
        match place.shelf {
            Shelf::Root(record) => &mut self.records[record].root[place.index],
            Shelf::Table(table) => &mut self.tables[table].entries[place.index],
        }
    }

    fn take_frame(&mut self, page: usize, frame: Frame) {
        self.frames[page] = frame;
        self.used += 1;
    }

    fn free_frame(&mut self, page: usize) {
        self.frames[page] = Frame::default();
        self.used -= 1;
    }

    fn give_child(&mut self, domain: Domain, page: usize, kind: u64, number: usize) {
        self.take_frame(
            page,
            Frame {
                kind,
                owner: domain.tdr as u64,
                epoch: 0,
                number: number as u64,
            },
        );
        self.record_mut(domain).child_count += 1;
    }

    fn take_child(&mut self, domain: Domain, page: usize) {
        self.free_frame(page);
        self.record_mut(domain).child_count -= 1;
    }
}
