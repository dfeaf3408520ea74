//! The paper's cases on the edge, and others of their sort.

mod common;

use common::{accept, block, blocked, build, ended, hpa, live, refuse, tree, with, D, GIB, MIB};
use reefnettle_twin::{
    entry_state, frame_type, lifecycle, replay_machine, Call, Entry, Frame, Machine, Readout,
    EPOCH_LIMIT,
};

const GPA_END: u64 = 1 << 47;

fn number(machine: &Machine, call: Call) -> u8 {
    machine.clone().call(call).number
}

#[test]
fn gpa_against_its_level() {
    let machine = live();
    let read = |gpa, level| {
        let call = Call::ReadEntry {
            domain: D,
            gpa,
            level,
        };
        number(&machine, call)
    };
    // 6 means that the operands have passed.
    assert_eq!(read(2 * MIB, 1), 6);
    assert_eq!(read(2_093_056, 1), 1);
    assert_eq!(read(GPA_END - 4096, 0), 6);
    assert_eq!(read(GPA_END, 0), 1);
    for (level, size) in [(0, 4096), (1, 2 * MIB), (2, GIB), (3, 512 * GIB)] {
        let passed = if level == 3 { 0 } else { 6 };
        assert_eq!(read(0, level), passed);
        assert_eq!(read(size, level), passed);
        assert_eq!(read(size / 2, level), 1);
        assert_eq!(read(size - 1, level), 1);
        assert_eq!(read(size + 1, level), 1);
        assert_eq!(read(GPA_END - size, level), passed);
        assert_eq!(read(GPA_END, level), 1);
        assert_eq!(read(u64::MAX, level), 1);
    }
    for level in [4, 5, 256, 1 << 32, u64::MAX] {
        assert_eq!(read(0, level), 1);
    }
}

#[test]
fn level_0_is_no_table() {
    let machine = tree();
    let page = hpa(100);
    for (level, answer) in [(0, 1), (1, 7), (2, 7), (3, 7), (4, 1)] {
        let (domain, gpa) = (D, 0);
        let add = Call::SeptAdd {
            domain,
            gpa,
            level,
            page,
        };
        let remove = Call::SeptRemove { domain, gpa, level };
        assert_eq!(number(&machine, add), answer);
        assert_eq!(number(&machine, remove), answer);
    }
}

/// The calls that want an entry to be tracked: at gpa 0, level 0 and at 2 MiB,
/// level 1, which `blocked` has blocked.
fn tracked_calls() -> [Call; 4] {
    let domain = D;
    let unblock = |gpa, level| Call::Unblock { domain, gpa, level };
    let (gpa, level) = (2 * MIB, 1);
    [
        Call::PageRemove { domain, gpa: 0 },
        unblock(0, 0),
        Call::SeptRemove { domain, gpa, level },
        unblock(gpa, level),
    ]
}

#[test]
fn a_runnable_domain_tracks() {
    let (domain, entries) = (D, [(0, 0), (2 * MIB, 1)]);
    let mut before = blocked(false);
    accept(&mut before, Call::Finalize { domain });
    let mut after = tree();
    accept(&mut after, Call::Finalize { domain });
    block(&mut after, &entries);
    // It is one whether finalize came before the block or after it.
    assert!(before == after);
    for call in tracked_calls() {
        refuse(&mut after.clone(), call, 8);
    }
    accept(&mut after, Call::Track { domain });
    assert_eq!(after.records[0].epoch, 2);
    assert_eq!(after.frames[8].epoch, 1);
    for call in tracked_calls() {
        accept(&mut after.clone(), call);
    }
    accept(&mut after, Call::PageRemove { domain, gpa: 0 });
    assert_eq!(after.frames[8], Frame::default());
    assert_eq!(after.tables[2].entries[0], Entry::FREE);
    assert_eq!(after.records[0].child_count, 9);
}

#[test]
fn an_initialized_domain_needs_no_tracking() {
    let machine = blocked(false);
    assert_eq!(machine.records[0].epoch, 1);
    assert_eq!(machine.frames[8].epoch, 1);
    for call in tracked_calls() {
        accept(&mut machine.clone(), call);
        // But what isn't blocked is refused as ever.
        refuse(&mut tree(), call, 7);
    }
}

#[test]
fn keys_at_their_ends() {
    let machine = replay_machine();
    let create = |key| number(&machine, Call::Create { page: D, key });
    assert_eq!([31, 32, 95, 96].map(create), [1, 0, 0, 1]);
    assert_eq!([0, 32 + 256, 32 + (1 << 32), u64::MAX].map(create), [1; 4]);
}

#[test]
fn the_same_tdr_twice_at_addcx() {
    let mut machine = replay_machine();
    let domain = D;
    let addcx = Call::AddCx { domain, page: D };
    accept(&mut machine, Call::Create { page: D, key: 95 });
    refuse(&mut machine, addcx, 3);
    accept(&mut machine, Call::KeyConfig { domain });
    refuse(&mut machine, addcx, 2);
    for page in 1..=4 {
        let page = hpa(page);
        accept(&mut machine, Call::AddCx { domain, page });
    }
    refuse(&mut machine, addcx, 4);
}

#[test]
fn frames_at_the_windows_ends() {
    for (base, frames) in [(GIB, 512), (GIB, 16384), (1 << 46, 1024), (3 * GIB, 2048)] {
        let mut machine = Machine::with_sizes(base, frames, 1, 4);
        assert_eq!(machine.reset().number, 0);
        let read = |page| number(&machine, Call::ReadPage { page });
        let last = base + 4096 * (frames as u64 - 1);
        assert_eq!(read(base), 0);
        assert_eq!(read(base - 4096), 1);
        assert_eq!(read(base - 1), 1);
        assert_eq!(read(base + 1), 1);
        assert_eq!(read(last), 0);
        assert_eq!(read(last + 1), 1);
        assert_eq!(read(last + 4095), 1);
        assert_eq!(read(last + 4096), 1);
        assert_eq!(read(0), 1);
        assert_eq!(read(u64::MAX - 4095), 1);
        assert_eq!(read(u64::MAX), 1);
    }
}

#[test]
fn the_lamp_at_768_512_and_511() {
    let mut machine = live();
    let domain = D;
    for level in (1..=3).rev() {
        let page = hpa(4 + level);
        let (gpa, domain) = (0, D);
        accept(
            &mut machine,
            Call::SeptAdd {
                domain,
                gpa,
                level,
                page,
            },
        );
    }
    let page = hpa(8);
    accept(
        &mut machine,
        Call::SeptAdd {
            domain,
            gpa: 2 * MIB,
            level: 1,
            page,
        },
    );
    assert_eq!(machine.used_frames(), 9);
    for used in 10..=768 {
        assert!(!machine.gauge.lamp);
        let gpa = 4096 * (used - 10);
        let page = hpa(used);
        accept(&mut machine, Call::PageAdd { domain, gpa, page });
        assert_eq!(machine.gauge.fill, used as f64 / 1024.0);
    }
    assert!(machine.gauge.lamp);
    for page in 0..258 {
        let gpa = 4096 * page;
        let level = 0;
        accept(&mut machine, Call::Block { domain, gpa, level });
    }
    accept(&mut machine, Call::Track { domain });
    for page in 0..258 {
        assert!(machine.gauge.lamp == (machine.used_frames() >= 512));
        let gpa = 4096 * page;
        accept(&mut machine, Call::PageRemove { domain, gpa });
    }
    assert_eq!(machine.used_frames(), 510);
    assert!(!machine.gauge.lamp);
}

#[test]
fn stock_is_taken_lowest_first_and_wiped() {
    let mut machine = ended();
    // Frame 6 has table 1; its entries stay when it is given back.
    accept(&mut machine, Call::Reclaim { page: hpa(6) });
    assert!(!machine.tables[1].in_use);
    assert_eq!(machine.tables[1].entries[0].frame, 7);
    assert_eq!(machine.tables[0].entries[0].frame, 6);
    build(&mut machine, 40, 32);
    let call = Call::SeptAdd {
        domain: hpa(40),
        gpa: 512 * GIB,
        level: 3,
        page: hpa(6),
    };
    accept(&mut machine, call);
    assert_eq!(machine.frames[6].number, 1);
    assert_eq!(machine.frames[6].epoch, 0);
    assert!(machine.tables[1].entries.iter().all(|e| e.is_free()));
    assert_eq!(machine.frames[40].number, 2);
}

#[test]
fn teardown_to_the_tdr() {
    let mut machine = ended();
    refuse(&mut machine, Call::Reclaim { page: D }, 9);
    for page in (1..=10).rev() {
        assert_eq!(machine.records[0].child_count, page);
        accept(&mut machine, Call::Reclaim { page: hpa(page) });
        refuse(&mut machine, Call::Reclaim { page: hpa(page) }, 2);
    }
    assert_eq!(machine.records[0].page_count, 4);
    accept(&mut machine, Call::Reclaim { page: D });
    assert!(!machine.records[0].in_use);
    assert_eq!(machine.records[0].key, 32);
    assert_eq!(machine.used_frames(), 6);
    refuse(&mut machine, Call::Track { domain: D }, 2);
    build(&mut machine, 3, 32);
    assert_eq!(machine.frames[3].number, 0);
    assert_eq!(machine.records[0].pages, [4, 5, 6, 7]);
}

#[test]
fn a_key_is_free_from_teardown_on() {
    let mut machine = live();
    let again = Call::Create {
        page: hpa(50),
        key: 32,
    };
    refuse(&mut machine, again, 10);
    accept(&mut machine, Call::FlushDone { domain: D });
    refuse(&mut machine, again, 10);
    accept(&mut machine, Call::CacheWb);
    refuse(&mut machine, again, 10);
    accept(&mut machine, Call::KeyFree { domain: D });
    assert_eq!(machine.records[0].key, 32);
    accept(&mut machine, again);
    // An unused record holds none, whatever is left in it.
    let mut stale = with(&replay_machine(), |m| m.records[0].key = 32);
    accept(&mut stale, again);
    // A record that no TDR names still holds its key.
    let mut orphan = with(&live(), |m| m.frames[0] = Frame::default());
    refuse(&mut orphan, again, 10);
}

#[test]
fn stock_runs_out() {
    let mut machine = replay_machine();
    for record in 0..4 {
        let key = 32 + record;
        let page = hpa(100 * record);
        accept(&mut machine, Call::Create { page, key });
    }
    let (page, key) = (hpa(5), 40);
    refuse(&mut machine, Call::Create { page, key }, 11);
    // The key's 10 comes first.
    refuse(&mut machine, Call::Create { page, key: 33 }, 10);

    let mut machine = live();
    for table in 0..=12 {
        let call = Call::SeptAdd {
            domain: D,
            gpa: 512 * GIB * table,
            level: 3,
            page: hpa(5 + table),
        };
        if table < 12 {
            accept(&mut machine, call);
        } else {
            refuse(&mut machine, call, 11);
        }
    }
}

#[test]
fn epoch_at_its_limit() {
    let mut machine = live();
    machine.records[0].epoch = EPOCH_LIMIT - 1;
    accept(&mut machine, Call::Track { domain: D });
    refuse(&mut machine, Call::Track { domain: D }, 12);
}

#[test]
fn blocking_and_unblocking() {
    let mut machine = blocked(true);
    let (domain, gpa) = (D, 0);
    accept(&mut machine, Call::Finalize { domain });
    for (frame, epoch) in [(7, 1), (8, 1), (9, 0), (10, 1)] {
        assert_eq!(machine.frames[frame].epoch, epoch);
    }
    let answer = refuse(
        &mut machine,
        Call::Block {
            domain,
            gpa,
            level: 0,
        },
        6,
    );
    assert_eq!(answer.readout, Readout::Stop { level: 1, state: 4 });
    let unblock = Call::Unblock {
        domain,
        gpa,
        level: 1,
    };
    refuse(&mut machine, unblock, 8);
    accept(&mut machine, Call::Track { domain });
    accept(&mut machine, unblock);
    assert_eq!(machine.frames[7].epoch, 1, "unblock keeps the epoch");
    let answer = refuse(&mut machine, unblock, 7);
    assert_eq!(answer.readout, Readout::Stop { level: 1, state: 1 });
    let answer = refuse(
        &mut machine,
        Call::Block {
            domain,
            gpa,
            level: 0,
        },
        7,
    );
    assert_eq!(answer.readout, Readout::Stop { level: 0, state: 5 });
}

#[test]
fn pending_pages() {
    let mut machine = tree();
    let (domain, gpa, page) = (D, 8192, hpa(30));
    refuse(&mut machine, Call::PageAug { domain, gpa, page }, 5);
    accept(&mut machine, Call::Finalize { domain });
    refuse(&mut machine, Call::PageAdd { domain, gpa, page }, 5);
    refuse(&mut machine, Call::Finalize { domain }, 5);
    accept(&mut machine, Call::PageAug { domain, gpa, page });
    let read = Call::ReadEntry {
        domain,
        gpa,
        level: 0,
    };
    let reads = |machine: &mut Machine, state, hpa| {
        let readout = Readout::Entry {
            level: 0,
            state,
            hpa,
        };
        assert_eq!(machine.call(read).readout, readout);
    };
    reads(&mut machine, 3, page);
    accept(
        &mut machine,
        Call::Block {
            domain,
            gpa,
            level: 0,
        },
    );
    reads(&mut machine, 6, page);
    accept(&mut machine, Call::Track { domain });
    accept(
        &mut machine,
        Call::Unblock {
            domain,
            gpa,
            level: 0,
        },
    );
    reads(&mut machine, 3, page);
    accept(
        &mut machine,
        Call::Block {
            domain,
            gpa,
            level: 0,
        },
    );
    accept(&mut machine, Call::Track { domain });
    accept(&mut machine, Call::PageRemove { domain, gpa });
    reads(&mut machine, 0, 0);
}

#[test]
fn septremove_looks_at_all_entries() {
    let mut machine = blocked(false);
    let (domain, gpa, level) = (D, 2 * MIB, 1);
    let remove = Call::SeptRemove { domain, gpa, level };
    accept(&mut machine, Call::Track { domain });
    for index in [0, 1, 255, 510, 511] {
        let mut machine = with(&machine, |m| {
            m.tables[3].entries[index] = Entry {
                state: entry_state::MAPPED,
                frame: 9,
            };
        });
        refuse(&mut machine, remove, 9);
    }
    accept(&mut machine, remove);
    assert_eq!(machine.frames[10], Frame::default());
    assert!(!machine.tables[3].in_use);
    assert_eq!(machine.tables[1].entries[1], Entry::FREE);
    assert_eq!(machine.records[0].child_count, 9);
}

#[test]
fn no_rule_ties_a_state_to_a_level() {
    let (domain, gpa) = (D, GIB);
    let mut machine = with(&tree(), |m| {
        m.tables[0].entries[1] = Entry {
            state: entry_state::MAPPED,
            frame: 9,
        };
    });
    accept(
        &mut machine,
        Call::Block {
            domain,
            gpa,
            level: 2,
        },
    );
    assert_eq!(machine.tables[0].entries[1].state, entry_state::BLOCKED);
    assert_eq!(machine.frames[9].epoch, 1);
}

#[test]
fn lifecycle_of_a_domain() {
    let mut machine = replay_machine();
    let domain = D;
    accept(&mut machine, Call::Create { page: D, key: 32 });
    let stages = [
        (lifecycle::HKID_ASSIGNED, [0, 0, 3, 3]),
        (lifecycle::KEYS_CONFIGURED, [3, 0, 3, 3]),
        (lifecycle::BLOCKED, [3, 3, 3, 3]),
        (lifecycle::WRITTEN_BACK, [3, 3, 0, 3]),
        (lifecycle::TEARDOWN, [3, 3, 3, 0]),
    ];
    for (stage, answers) in stages {
        machine.records[0].lifecycle = stage;
        let calls = [
            Call::KeyConfig { domain },
            Call::FlushDone { domain },
            Call::KeyFree { domain },
            Call::Reclaim { page: D },
        ];
        assert_eq!(calls.map(|call| number(&machine, call)), answers);
    }
}

#[test]
fn readpage_of_every_type() {
    let mut machine = tree();
    for (frame, kind, owner) in [
        (0, frame_type::TDR, 0),
        (1, frame_type::TDCX, D),
        (5, frame_type::EPT, D),
        (8, frame_type::REG, D),
        (25, frame_type::EPT, hpa(20)),
        (500, frame_type::NDA, 0),
    ] {
        let answer = machine.call(Call::ReadPage { page: hpa(frame) });
        assert_eq!(answer.number, 0);
        assert_eq!(answer.readout, Readout::Page { kind, owner });
    }
}
