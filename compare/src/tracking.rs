//! The calls that want an entry to be tracked, where by its epoch it isn't:
//! answer 8 in a runnable domain, and accepted in one that is being built.

use std::fmt::{self, Display, Formatter};

use reefnettle_compare::{number, Request};
use reefnettle_twin::{op_state, Machine};

use crate::places::number_of;
use crate::requests::is_page_call;
use crate::tree;

/// What became of such a call, the call's number with it.
#[derive(Clone, Copy, Debug, PartialEq, Eq, PartialOrd, Ord)]
pub enum Untracked {
    Accepted(u64),
    Refused(u64),
}

impl Untracked {
    pub const ALL: [Untracked; 6] = {
        use Untracked::*;
        [
            Accepted(number::UNBLOCK),
            Accepted(number::PAGEREMOVE),
            Accepted(number::SEPTREMOVE),
            Refused(number::UNBLOCK),
            Refused(number::PAGEREMOVE),
            Refused(number::SEPTREMOVE),
        ]
    };

    /// The one that a request and its answer are, if any. The machine is that
    /// before the call, and asked for only where the answer leaves it open.
    pub fn find(
        request: &Request,
        answer: u64,
        machine: impl FnOnce() -> Option<Machine>,
    ) -> Option<Untracked> {
        let accepted = Untracked::Accepted(request.call);
        match answer {
            8 => Some(Untracked::Refused(request.call)),
            0 if Untracked::ALL.contains(&accepted) => {
                is_being_built(&machine()?, request).then_some(accepted)
            }
            _ => None,
        }
    }
}

impl Display for Untracked {
    fn fmt(&self, f: &mut Formatter<'_>) -> fmt::Result {
        match self {
            Untracked::Accepted(call) => write!(f, "call {call}, being built"),
            Untracked::Refused(call) => write!(f, "call {call}, runnable"),
        }
    }
}

/// Whether the domain is initialized, and the frame was blocked in its epoch or
/// noted a later one.
fn is_being_built(machine: &Machine, request: &Request) -> bool {
    let tdr = number_of(machine, request.domain.0);
    let record = machine.frames[tdr].number as usize;
    let level = match is_page_call(request.call) {
        true => 0,
        false => request.level.0,
    };
    let way = tree::way(machine, record, request.gpa.0, level);
    let entry = way.last().expect("the way begins at the root").entry;
    let epoch = machine.frames[entry.frame as usize].epoch;
    let record = &machine.records[record];
    record.op_state == op_state::INITIALIZED && epoch >= record.epoch
}
