//! The order of the checks: a state in which many fail, mended one by one.

mod common;

use common::{blocked, ended, hpa, live, tree, with, D, E, GIB, MIB};
use reefnettle_twin::{
    entry_state, frame_type, lifecycle, op_state, Call, Entry, Frame, Machine, EPOCH_LIMIT,
};

/// One mending, and the answer after it.
type Rung = (fn(&mut Machine), u8);

/// The state spoiled in every way at once, then mended rung by rung. Before
/// each mending the state is checked to be in range.
fn climb(mut machine: Machine, call: Call, rungs: &[Rung]) {
    for (index, (mend, number)) in rungs.iter().enumerate() {
        mend(&mut machine);
        let before = machine.clone();
        let answer = machine.call(call);
        assert_eq!(answer.number, *number, "{call:?}, rung {index}");
        assert!(answer.number == 0 || machine == before);
    }
}

fn nothing(_: &mut Machine) {}

const TEN: Entry = Entry {
    state: entry_state::NL_MAPPED,
    frame: 10,
};

/// Makes frame 0 anything but a TDR, its record unused and wrong in all ways.
fn spoil_domain(m: &mut Machine) {
    m.gauge.raise = f64::NAN;
    m.frames[0].kind = frame_type::TDCX;
    m.frames[0].owner = 0;
    let record = &mut m.records[0];
    record.in_use = false;
    record.lifecycle = lifecycle::BLOCKED;
    record.op_state = op_state::UNINITIALIZED;
    record.page_count = 3;
    record.pages[3] = 0;
}

fn mend_gauge(m: &mut Machine) {
    m.gauge.raise = 0.75;
}

fn mend_tdr(m: &mut Machine) {
    m.frames[0].kind = frame_type::TDR;
}

fn mend_record(m: &mut Machine) {
    m.records[0].in_use = true;
}

fn mend_lifecycle(m: &mut Machine) {
    m.records[0].lifecycle = lifecycle::KEYS_CONFIGURED;
}

fn mend_pages(m: &mut Machine) {
    m.records[0].page_count = 4;
    m.records[0].pages[3] = 4;
}

fn mend_op(m: &mut Machine) {
    m.records[0].op_state = op_state::INITIALIZED;
}

/// For the calls that want what is blocked to be tracked, in a runnable domain.
fn mend_op_to_runnable(m: &mut Machine) {
    m.records[0].op_state = op_state::RUNNABLE;
}

const DOMAIN_RUNGS: [Rung; 5] = [
    (nothing, 13),
    (mend_gauge, 2),
    (mend_tdr, 14),
    (mend_record, 3),
    (mend_lifecycle, 4),
];

fn rungs(rest: &[Rung]) -> Vec<Rung> {
    [&DOMAIN_RUNGS, rest].concat()
}

#[test]
fn operands_before_all_but_13() {
    let mut machine = tree();
    spoil_domain(&mut machine);
    let bad = [
        Call::AddCx {
            domain: D,
            page: D + 1,
        },
        Call::SeptAdd {
            domain: D,
            gpa: 0,
            level: 1,
            page: 0,
        },
        Call::SeptAdd {
            domain: D,
            gpa: 4096,
            level: 1,
            page: hpa(100),
        },
        Call::SeptAdd {
            domain: D,
            gpa: 0,
            level: 0,
            page: hpa(100),
        },
        Call::PageAdd {
            domain: D,
            gpa: 1,
            page: hpa(100),
        },
        Call::PageAug {
            domain: D,
            gpa: 0,
            page: u64::MAX,
        },
        Call::Block {
            domain: D,
            gpa: 0,
            level: 4,
        },
        Call::Unblock {
            domain: D,
            gpa: 1 << 47,
            level: 0,
        },
        Call::PageRemove {
            domain: D,
            gpa: 2048,
        },
        Call::SeptRemove {
            domain: D,
            gpa: 0,
            level: 0,
        },
        Call::ReadEntry {
            domain: D,
            gpa: 0,
            level: 9,
        },
        Call::Create {
            page: hpa(1),
            key: 96,
        },
        Call::Track { domain: D - 4096 },
        Call::Reclaim { page: 0 },
        Call::ReadPage { page: 8 },
    ];
    for call in bad {
        climb(machine.clone(), call, &[(nothing, 13), (mend_gauge, 1)]);
    }
}

#[test]
fn create() {
    let machine = with(&tree(), |m| {
        m.gauge.clear = -0.0;
        let first = m.records[0].clone();
        m.records.fill(first);
        m.frames[30].kind = frame_type::REG;
    });
    let call = Call::Create {
        page: hpa(30),
        key: 32,
    };
    climb(
        machine,
        call,
        &[
            (nothing, 13),
            (|m| m.gauge.clear = 0.0, 2),
            (|m| m.frames[30] = Frame::default(), 10),
            (|m| m.records.iter_mut().for_each(|r| r.key = 33), 11),
            // Frame 20 names the record, but create never answers 14.
            (|m| m.records[1].in_use = false, 0),
        ],
    );
}

#[test]
fn calls_on_a_domain() {
    let spoiled = with(&live(), spoil_domain);
    climb(
        spoiled.clone(),
        Call::Init { domain: D },
        &rungs(&[
            (mend_pages as fn(&mut Machine), 0),
            (nothing, 5),
            (|m| m.records[0].op_state = op_state::RUNNABLE, 5),
        ]),
    );
    climb(
        spoiled.clone(),
        Call::Finalize { domain: D },
        &rungs(&[
            (mend_pages as fn(&mut Machine), 5),
            (|m| m.records[0].op_state = op_state::RUNNABLE, 5),
            (mend_op, 0),
        ]),
    );
    climb(
        with(&spoiled, |m| m.records[0].epoch = EPOCH_LIMIT),
        Call::Track { domain: D },
        &rungs(&[
            (mend_pages as fn(&mut Machine), 5),
            (mend_op, 12),
            (|m| m.records[0].epoch -= 1, 0),
        ]),
    );
    for call in [
        Call::KeyConfig { domain: D },
        Call::FlushDone { domain: D },
        Call::KeyFree { domain: D },
    ] {
        climb(
            with(&spoiled, |m| m.records[0].lifecycle = lifecycle::TEARDOWN),
            call,
            &DOMAIN_RUNGS[..4],
        );
    }
    // The domain is blocked, and then written back.
    let back: Rung = (|m| m.records[0].lifecycle = lifecycle::WRITTEN_BACK, 0);
    climb(
        spoiled,
        Call::KeyFree { domain: D },
        &[&DOMAIN_RUNGS[..4], &[back]].concat(),
    );
}

#[test]
fn cachewb() {
    let spoiled = with(&live(), spoil_domain);
    // No frame and no record is asked for, so that 13 alone is left.
    climb(spoiled, Call::CacheWb, &[(nothing, 13), (mend_gauge, 0)]);
}

#[test]
fn addcx() {
    let machine = with(&live(), |m| {
        spoil_domain(m);
        mend_pages(m);
        m.frames[30].kind = frame_type::REG;
        m.records[0].child_count = 1024;
    });
    let call = Call::AddCx {
        domain: D,
        page: hpa(30),
    };
    climb(
        machine,
        call,
        &rungs(&[
            (
                |m| {
                    m.records[0].page_count = 3;
                    m.records[0].pages[3] = 0;
                },
                2,
            ),
            (|m| m.frames[30] = Frame::default(), 14),
            (|m| m.records[0].child_count = 1023, 0),
        ]),
    );
}

#[test]
fn septadd() {
    let machine = with(&tree(), |m| {
        spoil_domain(m);
        m.frames[30].kind = frame_type::REG;
        m.records[0].child_count = 1024;
        m.records[0].root[0].state = entry_state::NL_BLOCKED;
        m.frames[5].owner = 20;
        m.tables[0].entries[0].state = entry_state::FREE;
        m.tables[0].entries[0].frame = 0;
        m.frames[6].kind = frame_type::REG;
        m.frames[6].number = 0;
        m.tables.iter_mut().for_each(|t| t.in_use = true);
    });
    let call = Call::SeptAdd {
        domain: D,
        gpa: 2 * MIB,
        level: 1,
        page: hpa(30),
    };
    climb(
        machine,
        call,
        &rungs(&[
            (mend_pages as fn(&mut Machine), 5),
            (mend_op, 2),
            (|m| m.frames[30] = Frame::default(), 6),
            (|m| m.records[0].root[0].state = entry_state::NL_MAPPED, 14),
            (|m| m.frames[5].owner = 0, 6),
            (
                |m| {
                    m.tables[0].entries[0].state = entry_state::NL_MAPPED;
                    m.tables[0].entries[0].frame = 6;
                },
                14,
            ),
            (
                |m| {
                    m.frames[6].kind = frame_type::EPT;
                    m.frames[6].number = 1;
                },
                7,
            ),
            (|m| m.tables[1].entries[1] = Entry::FREE, 11),
            (|m| m.tables[11].in_use = false, 14),
            (|m| m.records[0].child_count = 1023, 0),
        ]),
    );
}

#[test]
fn pageadd_and_pageaug() {
    let machine = with(&tree(), |m| {
        spoil_domain(m);
        m.frames[30].kind = frame_type::REG;
        m.records[0].child_count = 1024;
        m.records[0].root[0].state = entry_state::MAPPED;
        m.tables[2].in_use = false;
    });
    let (domain, gpa, page) = (D, 0, hpa(30));
    let rest: [Rung; 5] = [
        (|m| m.frames[30] = Frame::default(), 6),
        (|m| m.records[0].root[0].state = entry_state::NL_MAPPED, 14),
        (|m| m.tables[2].in_use = true, 7),
        (|m| m.tables[2].entries[0] = Entry::FREE, 14),
        (|m| m.records[0].child_count = 1023, 0),
    ];
    let add: [Rung; 3] = [
        (mend_pages, 5),
        (|m| m.records[0].op_state = op_state::RUNNABLE, 5),
        (mend_op, 2),
    ];
    let aug: [Rung; 3] = [
        (mend_pages, 5),
        (mend_op, 5),
        (|m| m.records[0].op_state = op_state::RUNNABLE, 2),
    ];
    let call = Call::PageAdd { domain, gpa, page };
    climb(machine.clone(), call, &rungs(&[&add[..], &rest].concat()));
    let call = Call::PageAug { domain, gpa, page };
    climb(machine, call, &rungs(&[&aug[..], &rest].concat()));
}

#[test]
fn block() {
    let machine = with(&tree(), |m| {
        spoil_domain(m);
        m.records[0].root[0].state = entry_state::PENDING_BLOCKED;
        m.tables[0].in_use = false;
        m.tables[1].entries[1].state = entry_state::PENDING_BLOCKED;
        m.frames[10].owner = 20;
    });
    climb(
        machine,
        Call::Block {
            domain: D,
            gpa: 2 * MIB,
            level: 1,
        },
        &rungs(&[
            (mend_pages as fn(&mut Machine), 5),
            (mend_op, 6),
            (|m| m.records[0].root[0].state = entry_state::NL_MAPPED, 14),
            (|m| m.tables[0].in_use = true, 7),
            (|m| m.tables[1].entries[1] = TEN, 14),
            (|m| m.frames[10].owner = 0, 0),
        ]),
    );
}

#[test]
fn unblock() {
    let machine = with(&blocked(false), |m| {
        spoil_domain(m);
        m.records[0].root[0].frame = 25;
        m.tables[1].entries[1] = TEN;
        m.frames[10].owner = 20;
    });
    climb(
        machine,
        Call::Unblock {
            domain: D,
            gpa: 2 * MIB,
            level: 1,
        },
        &rungs(&[
            (mend_pages as fn(&mut Machine), 5),
            (mend_op_to_runnable, 14),
            (|m| m.records[0].root[0].frame = 5, 7),
            (
                |m| m.tables[1].entries[1].state = entry_state::NL_BLOCKED,
                8,
            ),
            (|m| m.records[0].epoch = 2, 14),
            (|m| m.frames[10].owner = 0, 0),
        ]),
    );
}

#[test]
fn pageremove() {
    let machine = with(&blocked(false), |m| {
        spoil_domain(m);
        m.tables[1].entries[0].state = entry_state::NL_BLOCKED;
        m.frames[7].owner = 20;
        m.tables[2].entries[0].state = entry_state::MAPPED;
        m.frames[8].owner = 20;
        m.records[0].child_count = 0;
    });
    climb(
        machine,
        Call::PageRemove { domain: D, gpa: 0 },
        &rungs(&[
            (mend_pages as fn(&mut Machine), 5),
            (mend_op_to_runnable, 6),
            (
                |m| m.tables[1].entries[0].state = entry_state::NL_MAPPED,
                14,
            ),
            (|m| m.frames[7].owner = 0, 7),
            (
                |m| m.tables[2].entries[0].state = entry_state::NL_BLOCKED,
                7,
            ),
            (|m| m.tables[2].entries[0].state = entry_state::BLOCKED, 8),
            (|m| m.records[0].epoch = 2, 14),
            (|m| m.frames[8].owner = 0, 14),
            (|m| m.records[0].child_count = 1, 0),
        ]),
    );
}

#[test]
fn septremove() {
    let machine = with(&blocked(true), |m| {
        spoil_domain(m);
        m.records[0].child_count = 0;
        m.tables[2].in_use = false;
        m.frames[7].owner = 20;
        m.tables[1].entries[0].state = entry_state::BLOCKED;
    });
    climb(
        machine,
        Call::SeptRemove {
            domain: D,
            gpa: 0,
            level: 1,
        },
        &rungs(&[
            (mend_pages as fn(&mut Machine), 5),
            (mend_op_to_runnable, 7),
            (
                |m| m.tables[1].entries[0].state = entry_state::NL_BLOCKED,
                8,
            ),
            (|m| m.records[0].epoch = 2, 14),
            (|m| m.tables[2].in_use = true, 14),
            (|m| m.frames[7].owner = 0, 9),
            (|m| m.tables[2].entries[0] = Entry::FREE, 9),
            (|m| m.tables[2].entries[1] = Entry::FREE, 14),
            (|m| m.records[0].child_count = 1, 0),
        ]),
    );
}

#[test]
fn reclaim_of_a_child() {
    let machine = with(&tree(), |m| {
        m.gauge.raise = 0.0;
        m.records[0].child_count = 0;
        m.records[0].in_use = false;
        m.frames[10] = Frame::default();
        m.tables[3].in_use = false;
    });
    climb(
        machine,
        Call::Reclaim { page: hpa(10) },
        &[
            (nothing, 13),
            (mend_gauge, 2),
            (
                |m| {
                    m.frames[10] = Frame {
                        kind: frame_type::EPT,
                        owner: 1,
                        epoch: 0,
                        number: 3,
                    }
                },
                14,
            ),
            (|m| m.frames[10].owner = 0, 14),
            (mend_record, 3),
            (|m| m.records[0].lifecycle = lifecycle::BLOCKED, 3),
            (|m| m.records[0].lifecycle = lifecycle::WRITTEN_BACK, 3),
            (|m| m.records[0].lifecycle = lifecycle::TEARDOWN, 14),
            (|m| m.tables[3].in_use = true, 14),
            (|m| m.records[0].child_count = 1, 0),
        ],
    );
}

#[test]
fn reclaim_of_a_tdr() {
    let machine = with(&ended(), |m| {
        m.records[0].in_use = false;
        m.records[0].lifecycle = lifecycle::HKID_ASSIGNED;
    });
    climb(
        machine,
        Call::Reclaim { page: D },
        &[
            (nothing, 14),
            (mend_record, 3),
            (|m| m.records[0].lifecycle = lifecycle::WRITTEN_BACK, 3),
            (|m| m.records[0].lifecycle = lifecycle::TEARDOWN, 9),
            (|m| m.records[0].child_count = 0, 0),
        ],
    );
}

#[test]
fn readentry() {
    let machine = with(&tree(), |m| {
        spoil_domain(m);
        m.tables[0].entries[0].state = entry_state::MAPPED;
        m.frames[6].kind = frame_type::TDCX;
        m.frames[6].number = 0;
        // The frame of the entry that is read isn't judged.
        m.frames[10] = Frame::default();
        m.tables[3].in_use = false;
    });
    climb(
        machine,
        Call::ReadEntry {
            domain: D,
            gpa: 2 * MIB,
            level: 1,
        },
        &rungs(&[
            (mend_pages as fn(&mut Machine), 5),
            (mend_op, 6),
            (
                |m| m.tables[0].entries[0].state = entry_state::NL_MAPPED,
                14,
            ),
            (
                |m| {
                    m.frames[6].kind = frame_type::EPT;
                    m.frames[6].number = 1;
                },
                0,
            ),
        ]),
    );
}

#[test]
fn readpage_refuses_only_with_13_and_1() {
    let mut machine = tree();
    for record in &mut machine.records {
        record.in_use = false;
    }
    for frame in [0, 1, 5, 8, 20, 999] {
        assert_eq!(machine.call(Call::ReadPage { page: hpa(frame) }).number, 0);
    }
}

#[test]
fn a_walk_ends_where_it_first_fails() {
    // E's root has a table at gpa 0; D's second gigabyte has none.
    let mut machine = tree();
    let mut stop = |domain, gpa| {
        let call = Call::ReadEntry {
            domain,
            gpa,
            level: 0,
        };
        let answer = machine.call(call);
        (answer.number, answer.readout)
    };
    use reefnettle_twin::Readout::Stop;
    assert_eq!(stop(E, 0), (6, Stop { level: 2, state: 0 }));
    assert_eq!(stop(E, 512 * GIB), (6, Stop { level: 3, state: 0 }));
    assert_eq!(stop(D, GIB), (6, Stop { level: 2, state: 0 }));
    assert_eq!(stop(D, 4 * MIB), (6, Stop { level: 1, state: 0 }));
}
