//! The places where document 01 gives answer 14, and which of them it was.

use std::fmt::{self, Display, Formatter};

use reefnettle_compare::{number, Request};
use reefnettle_twin::{entry_state, frame_type, Entry, Machine, FRAME_BYTES};

use crate::requests::is_page_call;
use crate::tree::{self, Step};

/// What was about to be done with a frame.
#[derive(Clone, Copy, Debug, PartialEq, Eq, PartialOrd, Ord)]
pub enum Deed {
    Follow,
    Block,
    Unblock,
    PageRemove,
    SeptRemove,
}

/// What is wrong with that frame.
#[derive(Clone, Copy, Debug, PartialEq, Eq, PartialOrd, Ord)]
pub enum Fault {
    NoEpt,
    NoReg,
    NotOwn,
    TableUnused,
}

/// A call that moves a child count.
#[derive(Clone, Copy, Debug, PartialEq, Eq, PartialOrd, Ord)]
pub enum Move {
    AddCx,
    SeptAdd,
    PageAdd,
    PageAug,
    PageRemove,
    SeptRemove,
    Reclaim,
}

/// A place of an answer 14.
#[derive(Clone, Copy, Debug, PartialEq, Eq, PartialOrd, Ord)]
pub enum Place {
    DomainRecordUnused,
    Frame(Deed, Fault),
    ReclaimTdrRecordUnused,
    ReclaimOwnerNoTdr,
    ReclaimOwnerRecordUnused,
    ReclaimTableUnused,
    ChildCount(Move),
}

impl Place {
    /// Every place there is. A walk follows tables alone, pageremove removes
    /// pages alone, septremove tables alone.
    pub const ALL: [Place; 28] = {
        use Deed::*;
        use Fault::*;
        use Place::*;
        [
            DomainRecordUnused,
            Frame(Follow, NoEpt),
            Frame(Follow, NotOwn),
            Frame(Follow, TableUnused),
            Frame(Block, NoEpt),
            Frame(Block, NoReg),
            Frame(Block, NotOwn),
            Frame(Block, TableUnused),
            Frame(Unblock, NoEpt),
            Frame(Unblock, NoReg),
            Frame(Unblock, NotOwn),
            Frame(Unblock, TableUnused),
            Frame(PageRemove, NoReg),
            Frame(PageRemove, NotOwn),
            Frame(SeptRemove, NoEpt),
            Frame(SeptRemove, NotOwn),
            Frame(SeptRemove, TableUnused),
            ReclaimTdrRecordUnused,
            ReclaimOwnerNoTdr,
            ReclaimOwnerRecordUnused,
            ReclaimTableUnused,
            ChildCount(Move::AddCx),
            ChildCount(Move::SeptAdd),
            ChildCount(Move::PageAdd),
            ChildCount(Move::PageAug),
            ChildCount(Move::PageRemove),
            ChildCount(Move::SeptRemove),
            ChildCount(Move::Reclaim),
        ]
    };

    /// Where a request that was answered with 14 met its contradiction; `None`
    /// if nothing of the kind is found.
    pub fn find(machine: &Machine, request: &Request) -> Option<Place> {
        if request.call == number::RECLAIM {
            return at_reclaim(machine, number_of(machine, request.frame.0));
        }
        let tdr = number_of(machine, request.domain.0);
        let record = machine.frames[tdr].number as usize;
        if !machine.records[record].in_use {
            return Some(Place::DomainRecordUnused);
        }
        at_entries(machine, tdr, request).or_else(|| at_count(machine, record, request.call))
    }
}

impl Display for Place {
    fn fmt(&self, f: &mut Formatter<'_>) -> fmt::Result {
        match self {
            Place::DomainRecordUnused => f.write_str("D's record is unused"),
            Place::Frame(deed, fault) => write!(f, "frame {} {}", deed.words(), fault.words()),
            Place::ReclaimTdrRecordUnused => f.write_str("TDR reclaimed, its record is unused"),
            Place::ReclaimOwnerNoTdr => f.write_str("frame reclaimed, its owner isn't a TDR"),
            Place::ReclaimOwnerRecordUnused => {
                f.write_str("frame reclaimed, its owner's record is unused")
            }
            Place::ReclaimTableUnused => f.write_str("EPT reclaimed, its table is unused"),
            Place::ChildCount(call) => write!(f, "child count at {}", call.words()),
        }
    }
}

impl Deed {
    fn words(self) -> &'static str {
        match self {
            Deed::Follow => "followed",
            Deed::Block => "blocked",
            Deed::Unblock => "unblocked",
            Deed::PageRemove => "removed by pageremove",
            Deed::SeptRemove => "removed by septremove",
        }
    }
}

impl Fault {
    fn words(self) -> &'static str {
        match self {
            Fault::NoEpt => "isn't EPT",
            Fault::NoReg => "isn't REG",
            Fault::NotOwn => "isn't D's",
            Fault::TableUnused => "has an unused table",
        }
    }
}

impl Move {
    fn words(self) -> &'static str {
        match self {
            Move::AddCx => "addcx, above",
            Move::SeptAdd => "septadd, above",
            Move::PageAdd => "pageadd, above",
            Move::PageAug => "pageaug, above",
            Move::PageRemove => "pageremove, below",
            Move::SeptRemove => "septremove, below",
            Move::Reclaim => "reclaim, below",
        }
    }
}

/// The number of a frame whose hpa has passed the operand check.
pub fn number_of(machine: &Machine, hpa: u64) -> usize {
    ((hpa - machine.base) / FRAME_BYTES) as usize
}

fn at_reclaim(machine: &Machine, page: usize) -> Option<Place> {
    let frame = &machine.frames[page];
    let is_tdr = frame.kind == frame_type::TDR;
    let tdr = if is_tdr { page } else { frame.owner as usize };
    if machine.frames[tdr].kind != frame_type::TDR {
        return Some(Place::ReclaimOwnerNoTdr);
    }
    let record = machine.frames[tdr].number as usize;
    if !machine.records[record].in_use {
        return Some(match is_tdr {
            true => Place::ReclaimTdrRecordUnused,
            false => Place::ReclaimOwnerRecordUnused,
        });
    }
    if frame.kind == frame_type::EPT && !machine.tables[frame.number as usize].in_use {
        return Some(Place::ReclaimTableUnused);
    }
    at_count(machine, record, number::RECLAIM)
}

/// A frame followed on the way, or the one that the call's entry names.
fn at_entries(machine: &Machine, tdr: usize, request: &Request) -> Option<Place> {
    let target = match request.call {
        number::ADDCX => return None,
        call if is_page_call(call) => 0,
        _ => request.level.0,
    };
    let record = machine.frames[tdr].number as usize;
    tree::way(machine, record, request.gpa.0, target)
        .iter()
        .find_map(|step| {
            let deed = deed_at(step, target, request.call)?;
            let fault = fault_of(machine, tdr, step.entry)?;
            Some(Place::Frame(deed, fault))
        })
}

fn deed_at(step: &Step, target: u64, call: u64) -> Option<Deed> {
    if step.level > target {
        return Some(Deed::Follow);
    }
    match call {
        number::BLOCK => Some(Deed::Block),
        number::UNBLOCK => Some(Deed::Unblock),
        number::PAGEREMOVE => Some(Deed::PageRemove),
        number::SEPTREMOVE => Some(Deed::SeptRemove),
        _ => None,
    }
}

fn fault_of(machine: &Machine, tdr: usize, entry: Entry) -> Option<Fault> {
    let frame = &machine.frames[entry.frame as usize];
    let leads = matches!(
        entry.state,
        entry_state::NL_MAPPED | entry_state::NL_BLOCKED
    );
    match (leads, frame.kind) {
        (true, frame_type::EPT) | (false, frame_type::REG) => {}
        (true, _) => return Some(Fault::NoEpt),
        (false, _) => return Some(Fault::NoReg),
    }
    if frame.owner != tdr as u64 {
        return Some(Fault::NotOwn);
    }
    let unused = leads && !machine.tables[frame.number as usize].in_use;
    unused.then_some(Fault::TableUnused)
}

fn at_count(machine: &Machine, record: usize, call: u64) -> Option<Place> {
    let (moved, end) = match call {
        number::ADDCX => (Move::AddCx, machine.frames.len()),
        number::SEPTADD => (Move::SeptAdd, machine.frames.len()),
        number::PAGEADD => (Move::PageAdd, machine.frames.len()),
        number::PAGEAUG => (Move::PageAug, machine.frames.len()),
        number::PAGEREMOVE => (Move::PageRemove, 0),
        number::SEPTREMOVE => (Move::SeptRemove, 0),
        number::RECLAIM => (Move::Reclaim, 0),
        _ => return None,
    };
    let at_end = machine.records[record].child_count == end as u64;
    at_end.then_some(Place::ChildCount(moved))
}
