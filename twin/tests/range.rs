//! Answer 13: every range at both its ends.

mod common;

use common::{hpa, refuse, tree, with, D, GIB};
use reefnettle_twin::{
    entry_state, frame_type, lifecycle, op_state, Call, Entry, Frame, Machine, Record, Table,
};

const EPOCH: u64 = (1 << 32) - 1;

/// Changes the tree by hand and says whether it stays in range. Calls,
/// set_marks and reset must agree.
fn judge(name: &str, in_range: bool, change: impl FnOnce(&mut Machine)) {
    let machine = with(&tree(), change);
    assert_eq!(machine.in_range(), in_range, "{name}");
    let calls = [
        Call::ReadPage { page: hpa(1000) },
        Call::Track { domain: 1 },
        Call::Create {
            page: hpa(1000),
            key: 99,
        },
        Call::CacheWb,
    ];
    for call in calls {
        let mut machine = machine.clone();
        if in_range {
            assert_ne!(machine.call(call).number, 13, "{name}");
        } else {
            refuse(&mut machine, call, 13);
        }
    }
    let expected = if in_range { 0 } else { 13 };
    let mut marked = machine.clone();
    assert_eq!(marked.set_marks(0.5, 0.25).number, expected, "{name}");
    assert!(in_range || marked == machine, "{name}");
    // A wrong mark is judged only after all that is stored.
    let mut marked = machine.clone();
    let expected = if in_range { 1 } else { 13 };
    assert_eq!(marked.set_marks(0.0, 0.0).number, expected, "{name}");
    assert!(marked == machine, "{name}");
    // Reset reads nothing stored.
    let mut reset = machine.clone();
    assert_eq!(reset.reset().number, 0, "{name}");
    assert!(reset == Machine::with_sizes(GIB, 1024, 4, 12), "{name}");
}

/// Sets a place to each number in turn: in range are those from `low` to
/// `high`, both ends and just beyond them are tried.
fn ends(name: &str, low: u64, high: u64, place: impl Fn(&mut Machine) -> &mut u64) {
    let mut numbers = vec![
        (low, true),
        (high, true),
        (high + 1, false),
        (high + (1 << 32), false),
        (u64::MAX, false),
    ];
    if low > 0 {
        numbers.push((low - 1, false));
        numbers.push((0, false));
    }
    for (number, in_range) in numbers {
        judge(&format!("{name} {number}"), in_range, |m| {
            *place(m) = number;
        });
    }
}

fn frame_of(kind: u64) -> Frame {
    Frame {
        kind,
        ..Frame::default()
    }
}

#[test]
fn sizes_and_base() {
    let judge = |base, frames, records, tables, in_range: bool| {
        let expected = if in_range { 0 } else { 13 };
        let fresh = Machine::with_sizes(base, frames, records, tables);
        let page = base;
        let mut machine = fresh.clone();
        assert_eq!(machine.reset().number, expected);
        assert_eq!(machine.call(Call::ReadPage { page }).number, expected);
        assert_eq!(machine.set_marks(1.0, 0.0).number, expected);
        assert!(machine == fresh);
    };
    for frames in [512, 1024, 2048, 4096, 8192, 16384] {
        judge(GIB, frames, 4, 12, true);
    }
    for frames in [0, 1, 256, 511, 513, 768, 1023, 1536, 16383, 16385, 32768] {
        judge(GIB, frames, 4, 12, false);
    }
    for (records, in_range) in [(0, false), (1, true), (64, true), (65, false)] {
        judge(GIB, 512, records, 12, in_range);
    }
    for (tables, in_range) in [(0, false), (3, false), (4, true), (256, true), (257, false)] {
        judge(GIB, 512, 4, tables, in_range);
    }
    for base in [GIB, 2 * GIB, 3 * GIB, (1 << 46) - GIB, 1 << 46] {
        judge(base, 512, 4, 12, true);
    }
    let bases = [
        0,
        1,
        4096,
        GIB / 2,
        GIB - 1,
        GIB + 1,
        GIB + 4096,
        GIB * 3 / 2,
    ];
    for base in bases {
        judge(base, 512, 4, 12, false);
    }
    for base in [(1 << 46) + GIB, (1 << 46) + 1, 1 << 47, 1 << 63] {
        judge(base, 512, 4, 12, false);
    }
}

#[test]
fn a_refused_reset_changes_nothing() {
    let mut machine = tree();
    machine.base += 1;
    let before = machine.clone();
    assert_eq!(machine.reset().number, 13);
    assert!(machine == before);
}

#[test]
fn frames() {
    judge("as it is", true, |_| {});
    for kind in 0..=4 {
        judge(&format!("kind {kind}"), true, |m| {
            m.frames[1023] = frame_of(kind);
        });
    }
    for kind in [5, 6, 255, 256, 1 << 32, u64::MAX] {
        judge(&format!("kind {kind}"), false, |m| {
            m.frames[1023] = frame_of(kind);
        });
    }
    // Last owner, number and epoch of each type.
    let limits = [
        (frame_type::NDA, 0, 0, 0),
        (frame_type::TDR, 0, 3, 0),
        (frame_type::TDCX, 1023, 0, 0),
        (frame_type::EPT, 1023, 11, EPOCH),
        (frame_type::REG, 1023, 0, EPOCH),
    ];
    for (kind, owner, number, epoch) in limits {
        for frame in [0, 500, 1023] {
            let name = format!("kind {kind} frame {frame}");
            ends(&format!("{name} owner"), 0, owner, |m| {
                m.frames[frame] = frame_of(kind);
                &mut m.frames[frame].owner
            });
            ends(&format!("{name} number"), 0, number, |m| {
                m.frames[frame] = frame_of(kind);
                &mut m.frames[frame].number
            });
            ends(&format!("{name} epoch"), 0, epoch, |m| {
                m.frames[frame] = frame_of(kind);
                &mut m.frames[frame].epoch
            });
        }
    }
}

#[test]
fn records() {
    for number in [0, 1] {
        ends("key", 32, 95, |m| &mut m.records[number].key);
        ends("lifecycle", 0, 4, |m| &mut m.records[number].lifecycle);
        ends("op state", 0, 2, |m| &mut m.records[number].op_state);
        ends("child count", 0, 1024, |m| {
            &mut m.records[number].child_count
        });
        ends("epoch", 1, EPOCH, |m| &mut m.records[number].epoch);
        for slot in 0..4 {
            ends("listed page", 0, 1023, |m| {
                &mut m.records[number].pages[slot]
            });
        }
        ends("page count", 0, 4, |m| {
            m.records[number].pages = [0; 4];
            &mut m.records[number].page_count
        });
    }
    // Pages that aren't listed hold 0; listed ones may repeat.
    for count in 0..=4 {
        for slot in 0..4 {
            judge("unlisted page", slot < count as usize, |m| {
                m.records[0].page_count = count;
                m.records[0].pages = [0; 4];
                m.records[0].pages[slot] = 1;
            });
        }
    }
    judge("repeated pages", true, |m| m.records[0].pages = [7; 4]);
    // A record of a domain at its end is looked into.
    for stage in [
        lifecycle::BLOCKED,
        lifecycle::TEARDOWN,
        lifecycle::WRITTEN_BACK,
    ] {
        judge(&format!("lifecycle {stage}"), false, |m| {
            m.records[0].lifecycle = stage;
            m.records[0].key = 31;
        });
        judge(&format!("lifecycle {stage}"), true, |m| {
            m.records[0].lifecycle = stage;
            m.records[0].op_state = op_state::RUNNABLE;
        });
    }
}

#[test]
fn entries() {
    type Place = fn(&mut Machine, usize) -> &mut Entry;
    let places: [Place; 3] = [
        |m, index| &mut m.records[1].root[index],
        |m, index| &mut m.tables[2].entries[index],
        |m, index| &mut m.tables[4].entries[index],
    ];
    for place in places {
        for index in [1, 256, 510, 511] {
            for state in 0..=8 {
                for frame in [0, 1, 1023, 1024, 65_535, 65_536, u32::MAX] {
                    let in_range = match state {
                        entry_state::FREE => frame == 0,
                        1..=6 => frame < 1024,
                        _ => false,
                    };
                    judge(&format!("state {state} frame {frame}"), in_range, |m| {
                        *place(m, index) = Entry { state, frame };
                    });
                }
            }
            for state in [255, 256, 65_536, u32::MAX] {
                judge(&format!("state {state}"), false, |m| {
                    *place(m, index) = Entry { state, frame: 0 };
                });
            }
        }
    }
}

#[test]
fn unused_stock_is_not_looked_into() {
    let junk = Entry {
        state: u32::MAX,
        frame: u32::MAX,
    };
    judge("junk in stock", true, |m| {
        m.records[3] = Record {
            in_use: false,
            key: u64::MAX,
            lifecycle: 9,
            op_state: 9,
            page_count: 99,
            pages: [u64::MAX; 4],
            child_count: u64::MAX,
            epoch: 0,
            root: [junk; 512],
        };
        m.tables[11] = Table {
            in_use: false,
            entries: [junk; 512],
        };
    });
    judge("an all-zero record in use", false, |m| {
        m.records[3].in_use = true;
    });
    judge("an all-zero table in use", true, |m| {
        m.tables[11].in_use = true;
    });
    judge("junk in a table in use", false, |m| {
        m.tables[11].in_use = true;
        m.tables[11].entries[511] = junk;
    });
}

#[test]
fn junk_is_wiped_when_stock_is_taken() {
    let junk = Entry {
        state: 99,
        frame: 9999,
    };
    let mut machine = with(&tree(), |m| {
        m.records[2].root = [junk; 512];
        m.records[2].pages = [u64::MAX; 4];
        m.records[2].child_count = 77;
        m.tables[5].entries = [junk; 512];
    });
    let create = Call::Create {
        page: hpa(50),
        key: 40,
    };
    assert_eq!(machine.call(create).number, 0);
    let expected = Record {
        in_use: true,
        key: 40,
        epoch: 1,
        ..Record::default()
    };
    assert!(machine.records[2] == expected);
    let septadd = Call::SeptAdd {
        domain: D,
        gpa: 4 << 20,
        level: 1,
        page: hpa(51),
    };
    assert_eq!(machine.call(septadd).number, 0);
    assert_eq!(machine.frames[51].number, 5);
    assert_eq!(machine.tables[5].entries, [Entry::FREE; 512]);
    assert!(machine.in_range());
}

#[test]
fn being_a_tdr_is_not_13s_business() {
    judge("owner that is no TDR", true, |m| m.frames[8].owner = 999);
    judge("entry that names nothing", true, |m| {
        m.tables[2].entries[9] = Entry {
            state: entry_state::MAPPED,
            frame: 999,
        };
    });
    judge("upper level leaf", true, |m| {
        m.tables[0].entries[9] = Entry {
            state: entry_state::PENDING,
            frame: 8,
        };
    });
    judge("lowest level table", true, |m| {
        m.tables[2].entries[9] = Entry {
            state: entry_state::NL_BLOCKED,
            frame: 8,
        };
    });
    judge("TDR with an unused record", true, |m| {
        m.frames[999] = Frame {
            kind: frame_type::TDR,
            number: 3,
            ..Frame::default()
        };
    });
}
