//! Machines to begin a test with.
#![allow(dead_code)]

use reefnettle_twin::{replay_machine, Answer, Call, Machine, Readout, REPLAY_BASE};

pub const MIB: u64 = 1 << 20;
pub const GIB: u64 = 1 << 30;

/// The hpa of a frame in the replay's window.
pub fn hpa(frame: u64) -> u64 {
    REPLAY_BASE + 4096 * frame
}

/// Runs a call that must be accepted.
pub fn accept(machine: &mut Machine, call: Call) {
    let answer = machine.call(call);
    assert_eq!(answer.number, 0, "{call:?}");
}

/// Runs a call that must be refused with this number and change nothing.
pub fn refuse(machine: &mut Machine, call: Call, number: u8) -> Answer {
    let before = machine.clone();
    let answer = machine.call(call);
    assert_eq!(answer.number, number, "{call:?}");
    assert!(*machine == before, "{call:?} changed something");
    if number != 6 && number != 7 {
        assert_eq!(answer.readout, Readout::Zeros);
    }
    answer
}

/// A copy of the machine, changed by hand.
pub fn with(machine: &Machine, change: impl FnOnce(&mut Machine)) -> Machine {
    let mut machine = machine.clone();
    change(&mut machine);
    machine
}

/// Brings a new domain to op state initialized. Its TDR is the frame given, its
/// control pages are the four after it.
pub fn build(machine: &mut Machine, tdr: u64, key: u64) {
    let domain = hpa(tdr);
    accept(machine, Call::Create { page: domain, key });
    accept(machine, Call::KeyConfig { domain });
    for page in 1..=4 {
        let page = hpa(tdr + page);
        accept(machine, Call::AddCx { domain, page });
    }
    accept(machine, Call::Init { domain });
}

/// D, the domain of most tests.
pub const D: u64 = REPLAY_BASE;

/// E, another domain.
pub const E: u64 = REPLAY_BASE + 4096 * 20;

/// Every call on D but keyfree, with operands that are in rule.
pub fn calls_on_d() -> [Call; 14] {
    let (domain, gpa, level, page) = (D, 0, 1, hpa(30));
    [
        Call::KeyConfig { domain },
        Call::AddCx { domain, page },
        Call::Init { domain },
        Call::SeptAdd {
            domain,
            gpa,
            level,
            page,
        },
        Call::PageAdd { domain, gpa, page },
        Call::Finalize { domain },
        Call::PageAug { domain, gpa, page },
        Call::Block { domain, gpa, level },
        Call::Track { domain },
        Call::Unblock { domain, gpa, level },
        Call::PageRemove { domain, gpa },
        Call::SeptRemove { domain, gpa, level },
        Call::FlushDone { domain },
        Call::ReadEntry { domain, gpa, level },
    ]
}

/// One domain, D: frame 0, control pages 1 to 4, initialized.
pub fn live() -> Machine {
    let mut machine = replay_machine();
    build(&mut machine, 0, 32);
    machine
}

/// D with a tree, and E.
///
/// D's frames: 5, 6, 7 are EPT of levels 3, 2, 1 at gpa 0 with tables 0, 1, 2;
/// 8 and 9 are REG at gpa 0 and 4096; 10 is an empty EPT of level 1 at 2 MiB
/// with table 3. E is frame 20, with control pages 21 to 24 and 25, an EPT of
/// level 3 at gpa 0 with table 4.
pub fn tree() -> Machine {
    let mut machine = live();
    for (level, gpa, page) in [(3, 0, 5), (2, 0, 6), (1, 0, 7), (1, 2 * MIB, 10)] {
        let page = hpa(page);
        accept(
            &mut machine,
            Call::SeptAdd {
                domain: D,
                gpa,
                level,
                page,
            },
        );
    }
    for (gpa, page) in [(0, 8), (4096, 9)] {
        let page = hpa(page);
        accept(
            &mut machine,
            Call::PageAdd {
                domain: D,
                gpa,
                page,
            },
        );
    }
    build(&mut machine, 20, 33);
    accept(
        &mut machine,
        Call::SeptAdd {
            domain: E,
            gpa: 0,
            level: 3,
            page: hpa(25),
        },
    );
    machine
}

/// The tree with D in teardown.
pub fn ended() -> Machine {
    let mut machine = tree();
    accept(&mut machine, Call::FlushDone { domain: D });
    accept(&mut machine, Call::CacheWb);
    accept(&mut machine, Call::KeyFree { domain: D });
    machine
}

/// The tree with the entries of frames 7 (level 1), 8 and 10 blocked at epoch
/// 1, but 7 only if asked for, as it cuts off what lies below.
pub fn blocked(with_seven: bool) -> Machine {
    let mut machine = tree();
    block(&mut machine, &[(0, 0), (2 * MIB, 1)]);
    if with_seven {
        block(&mut machine, &[(0, 1)]);
    }
    machine
}

/// Blocks D's entries at these gpa and levels.
pub fn block(machine: &mut Machine, entries: &[(u64, u64)]) {
    let domain = D;
    for &(gpa, level) in entries {
        accept(machine, Call::Block { domain, gpa, level });
    }
}
