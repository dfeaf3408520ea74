//! Answer 14: each place where the tables may contradict one another.

mod common;

use common::{accept, blocked, calls_on_d, ended, hpa, refuse, tree, with, D, MIB};
use reefnettle_twin::{entry_state, frame_type, op_state, Call, Entry, Frame, Machine};

/// A change made by hand, by name.
type Damage = (&'static str, fn(&mut Machine, usize));

/// What a frame can be instead of D's EPT with a table.
const NO_TABLE_OF_D: [Damage; 8] = [
    ("another's", |m, f| m.frames[f].owner = 20),
    ("no TDR's", |m, f| m.frames[f].owner = 1),
    ("its own", |m, f| m.frames[f].owner = f as u64),
    ("NDA", |m, f| m.frames[f] = Frame::default()),
    ("TDR", |m, f| {
        m.frames[f] = Frame {
            kind: frame_type::TDR,
            ..Frame::default()
        }
    }),
    ("TDCX", |m, f| {
        m.frames[f] = Frame {
            kind: frame_type::TDCX,
            ..Frame::default()
        }
    }),
    ("REG", |m, f| {
        m.frames[f] = Frame {
            kind: frame_type::REG,
            ..Frame::default()
        }
    }),
    ("without table", |m, f| {
        let table = m.frames[f].number as usize;
        m.tables[table].in_use = false;
    }),
];

/// What a frame can be instead of D's REG.
const NO_PAGE_OF_D: [Damage; 6] = [
    NO_TABLE_OF_D[0],
    NO_TABLE_OF_D[1],
    NO_TABLE_OF_D[2],
    NO_TABLE_OF_D[3],
    NO_TABLE_OF_D[5],
    ("EPT", |m, f| {
        m.frames[f] = Frame {
            kind: frame_type::EPT,
            ..Frame::default()
        }
    }),
];

/// Damages the frame in each way and wants 14, which changes nothing.
fn contradict(machine: &Machine, frame: usize, damages: &[Damage], call: Call) {
    let mut whole = machine.clone();
    assert_ne!(whole.call(call).number, 14, "{call:?}");
    for (name, damage) in damages {
        let mut machine = with(machine, |m| damage(m, frame));
        assert!(machine.in_range(), "{name}");
        println!("{name}");
        refuse(&mut machine, call, 14);
    }
}

#[test]
fn a_frame_followed_in_a_walk() {
    let mut runnable = tree();
    accept(&mut runnable, Call::Finalize { domain: D });
    let (domain, gpa, page) = (D, 0, hpa(30));
    for frame in [5, 6, 7] {
        // Steps down from levels 3, 2 and 1.
        let calls = [
            Call::PageAdd { domain, gpa, page },
            Call::Block {
                domain,
                gpa,
                level: 0,
            },
            Call::Unblock {
                domain,
                gpa,
                level: 0,
            },
            Call::PageRemove { domain, gpa },
            Call::ReadEntry {
                domain,
                gpa,
                level: 0,
            },
        ];
        for call in calls {
            contradict(&tree(), frame, &NO_TABLE_OF_D, call);
        }
        let call = Call::PageAug { domain, gpa, page };
        contradict(&runnable, frame, &NO_TABLE_OF_D, call);
    }
    for frame in [5, 6] {
        let level = 1;
        let calls = [
            Call::SeptAdd {
                domain,
                gpa: 4 * MIB,
                level,
                page,
            },
            Call::SeptRemove { domain, gpa, level },
            Call::Unblock { domain, gpa, level },
            Call::ReadEntry { domain, gpa, level },
        ];
        for call in calls {
            contradict(&tree(), frame, &NO_TABLE_OF_D, call);
        }
    }
    // Frames that the walk doesn't come by aren't judged.
    let level = 1;
    for (_, damage) in NO_TABLE_OF_D {
        let mut machine = with(&tree(), |m| damage(m, 7));
        accept(&mut machine, Call::ReadEntry { domain, gpa, level });
    }
}

#[test]
fn a_frame_blocked() {
    let (domain, gpa) = (D, 0);
    for state in [entry_state::MAPPED, entry_state::PENDING] {
        let machine = with(&tree(), |m| m.tables[2].entries[0].state = state);
        let call = Call::Block {
            domain,
            gpa,
            level: 0,
        };
        contradict(&machine, 8, &NO_PAGE_OF_D, call);
    }
    for (frame, level) in [(5, 3), (6, 2), (7, 1)] {
        let call = Call::Block { domain, gpa, level };
        contradict(&tree(), frame, &NO_TABLE_OF_D, call);
    }
}

#[test]
fn a_frame_unblocked() {
    let (domain, gpa) = (D, 0);
    for state in [entry_state::BLOCKED, entry_state::PENDING_BLOCKED] {
        let machine = with(&tree(), |m| m.tables[2].entries[0].state = state);
        let call = Call::Unblock {
            domain,
            gpa,
            level: 0,
        };
        contradict(&machine, 8, &NO_PAGE_OF_D, call);
    }
    for (frame, level) in [(5, 3), (6, 2), (7, 1)] {
        let mut machine = tree();
        accept(&mut machine, Call::Block { domain, gpa, level });
        accept(&mut machine, Call::Track { domain });
        let call = Call::Unblock { domain, gpa, level };
        contradict(&machine, frame, &NO_TABLE_OF_D, call);
    }
}

#[test]
fn a_frame_removed() {
    let domain = D;
    let mut machine = blocked(false);
    accept(&mut machine, Call::Track { domain });
    let call = Call::PageRemove { domain, gpa: 0 };
    contradict(&machine, 8, &NO_PAGE_OF_D, call);
    let call = Call::SeptRemove {
        domain,
        gpa: 2 * MIB,
        level: 1,
    };
    contradict(&machine, 10, &NO_TABLE_OF_D, call);
}

#[test]
fn tracking_is_judged_by_whatever_frame_is_named() {
    // Another's page, blocked at an epoch that isn't D's business.
    let domain = D;
    let call = Call::PageRemove { domain, gpa: 0 };
    let (initialized, runnable) = (op_state::INITIALIZED, op_state::RUNNABLE);
    let cases = [
        (initialized, 5, 14),
        (runnable, 0, 14),
        (runnable, 4, 14),
        (runnable, 5, 8),
        (runnable, 6, 8),
    ];
    for (op_state, epoch, number) in cases {
        let mut machine = with(&blocked(false), |m| {
            m.records[0].op_state = op_state;
            m.records[0].epoch = 5;
            m.frames[8].owner = 20;
            m.frames[8].epoch = epoch;
        });
        refuse(&mut machine, call, number);
        let unblock = Call::Unblock {
            domain,
            gpa: 0,
            level: 0,
        };
        refuse(&mut machine, unblock, number);
    }
    // A free frame has epoch 0 and so always counts as tracked.
    let mut machine = with(&blocked(false), |m| {
        m.records[0].op_state = runnable;
        m.frames[8] = Frame::default();
    });
    refuse(&mut machine, call, 14);
}

#[test]
fn a_record_unused() {
    let mut calls = calls_on_d().to_vec();
    calls.push(Call::KeyFree { domain: D });
    calls.extend([0, 1, 5, 8].map(|frame| Call::Reclaim { page: hpa(frame) }));
    for machine in [tree(), ended()] {
        let mut machine = with(&machine, |m| m.records[0].in_use = false);
        for &call in &calls {
            refuse(&mut machine, call, 14);
        }
    }
}

#[test]
fn an_owner_that_is_no_tdr() {
    for machine in [tree(), ended()] {
        for frame in [1, 5, 8] {
            for owner in [1, 6, 8, 500] {
                let mut machine = with(&machine, |m| m.frames[frame].owner = owner);
                let page = hpa(frame as u64);
                refuse(&mut machine, Call::Reclaim { page }, 14);
            }
        }
    }
    // Another TDR in teardown may well lose what it never had.
    let mut machine = with(&ended(), |m| m.frames[25].owner = 0);
    accept(&mut machine, Call::Reclaim { page: hpa(25) });
    assert_eq!(machine.records[0].child_count, 9);
    assert!(!machine.tables[4].in_use);
}

#[test]
fn an_ept_reclaimed_without_its_table() {
    let call = Call::Reclaim { page: hpa(5) };
    let unused = |m: &mut Machine| m.tables[0].in_use = false;
    refuse(&mut with(&ended(), unused), call, 14);
    refuse(&mut with(&tree(), unused), call, 3);
    // Its table need not be empty.
    accept(&mut ended(), call);
}

#[test]
fn a_child_count_at_its_ends() {
    let (domain, page) = (D, hpa(30));
    let mut runnable = tree();
    accept(&mut runnable, Call::Finalize { domain });
    let mut tracked = blocked(false);
    accept(&mut tracked, Call::Track { domain });
    let building = with(&tree(), |m| {
        m.records[0].page_count = 3;
        m.records[0].pages[3] = 0;
    });
    let gpa = 8192;
    let gains = [
        (&building, Call::AddCx { domain, page }),
        (&tree(), Call::PageAdd { domain, gpa, page }),
        (&runnable, Call::PageAug { domain, gpa, page }),
        (
            &tree(),
            Call::SeptAdd {
                domain,
                gpa: 4 * MIB,
                level: 1,
                page,
            },
        ),
    ];
    for (machine, call) in gains {
        for (count, number) in [(0, 0), (1023, 0), (1024, 14)] {
            let mut machine = with(machine, |m| m.records[0].child_count = count);
            if number == 0 {
                accept(&mut machine, call);
                assert_eq!(machine.records[0].child_count, count + 1);
            } else {
                refuse(&mut machine, call, number);
            }
        }
    }
    let losses = [
        (&tracked, Call::PageRemove { domain, gpa: 0 }),
        (
            &tracked,
            Call::SeptRemove {
                domain,
                gpa: 2 * MIB,
                level: 1,
            },
        ),
        (&ended(), Call::Reclaim { page: hpa(1) }),
        (&ended(), Call::Reclaim { page: hpa(5) }),
        (&ended(), Call::Reclaim { page: hpa(8) }),
    ];
    for (machine, call) in losses {
        for (count, number) in [(1024, 0), (1, 0), (0, 14)] {
            let mut machine = with(machine, |m| m.records[0].child_count = count);
            if number == 0 {
                accept(&mut machine, call);
                assert_eq!(machine.records[0].child_count, count - 1);
            } else {
                refuse(&mut machine, call, number);
            }
        }
    }
}

#[test]
fn tables_in_a_ring_do_no_harm() {
    // Table 0 leads back to itself at every level.
    let (domain, gpa) = (D, 0);
    let mut machine = with(&tree(), |m| m.tables[0].entries[0].frame = 5);
    for level in 0..3 {
        accept(&mut machine, Call::ReadEntry { domain, gpa, level });
    }
    accept(
        &mut machine,
        Call::Block {
            domain,
            gpa,
            level: 1,
        },
    );
    assert_eq!(
        machine.tables[0].entries[0],
        Entry {
            state: entry_state::NL_BLOCKED,
            frame: 5
        }
    );
    accept(&mut machine, Call::Track { domain });
    // The walk to level 1 now stops at level 2, in the same entry.
    refuse(
        &mut machine,
        Call::SeptRemove {
            domain,
            gpa,
            level: 1,
        },
        6,
    );
    refuse(
        &mut machine,
        Call::SeptRemove {
            domain,
            gpa,
            level: 2,
        },
        9,
    );
    accept(
        &mut machine,
        Call::Unblock {
            domain,
            gpa,
            level: 2,
        },
    );
}
