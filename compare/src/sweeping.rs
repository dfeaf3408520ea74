//! What an accepted cachewb meets: blocked records, which it sweeps if they are
//! in use, and what it leaves beside them.

use std::fmt::{self, Display, Formatter};

use reefnettle_compare::{number, Request};
use reefnettle_twin::{frame_type, lifecycle, Machine, Record};

/// Something that such a call met.
#[derive(Clone, Copy, Debug, PartialEq, Eq, PartialOrd, Ord)]
pub enum Sweep {
    NoneBlocked,
    OneBlocked,
    SeveralBlocked,
    BlockedWithoutTdr,
    BlockedBesideWrittenBack,
    BlockedUnused,
}

impl Sweep {
    pub const ALL: [Sweep; 6] = [
        Sweep::NoneBlocked,
        Sweep::OneBlocked,
        Sweep::SeveralBlocked,
        Sweep::BlockedWithoutTdr,
        Sweep::BlockedBesideWrittenBack,
        Sweep::BlockedUnused,
    ];

    /// All that a request met, if it is an accepted cachewb. The machine is that
    /// before the call, and asked for only then.
    pub fn find(
        request: &Request,
        answer: u64,
        machine: impl FnOnce() -> Option<Machine>,
    ) -> Vec<Sweep> {
        let accepted = request.call == number::CACHEWB && answer == 0;
        let Some(machine) = accepted.then(machine).flatten() else {
            return Vec::new();
        };
        let met = Sweep::ALL.into_iter();
        met.filter(|sweep| sweep.is_met(&machine)).collect()
    }

    fn is_met(self, machine: &Machine) -> bool {
        let any = |holds: fn(&Record) -> bool| machine.records.iter().any(holds);
        let swept = swept(machine);
        match self {
            Sweep::NoneBlocked => swept.is_empty(),
            Sweep::OneBlocked => swept.len() == 1,
            Sweep::SeveralBlocked => swept.len() > 1,
            Sweep::BlockedWithoutTdr => swept.iter().any(|&record| !has_tdr(machine, record)),
            Sweep::BlockedBesideWrittenBack => {
                !swept.is_empty() && any(|r| r.in_use && r.lifecycle == lifecycle::WRITTEN_BACK)
            }
            Sweep::BlockedUnused => any(|r| !r.in_use && r.lifecycle == lifecycle::BLOCKED),
        }
    }
}

impl Display for Sweep {
    fn fmt(&self, f: &mut Formatter<'_>) -> fmt::Result {
        f.write_str(match self {
            Sweep::NoneBlocked => "no record in use is blocked",
            Sweep::OneBlocked => "one is",
            Sweep::SeveralBlocked => "several are",
            Sweep::BlockedWithoutTdr => "one is that no TDR names",
            Sweep::BlockedBesideWrittenBack => "one is, beside one written back",
            Sweep::BlockedUnused => "an unused record is blocked",
        })
    }
}

/// The numbers of the blocked records in use.
fn swept(machine: &Machine) -> Vec<usize> {
    let records = machine.records.iter().enumerate();
    let swept = records.filter(|(_, r)| r.in_use && r.lifecycle == lifecycle::BLOCKED);
    swept.map(|(number, _)| number).collect()
}

fn has_tdr(machine: &Machine, record: usize) -> bool {
    let mut frames = machine.frames.iter();
    frames.any(|frame| frame.kind == frame_type::TDR && frame.number == record as u64)
}
