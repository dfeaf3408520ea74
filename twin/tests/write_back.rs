//! The caches are written back before a key is freed: cachewb, which sweeps all
//! domains at once, and what waits for it.

mod common;

use common::{accept, build, calls_on_d, ended, hpa, live, refuse, tree, with, D, E};
use reefnettle_twin::{lifecycle, op_state, replay_machine, Call, Frame, Machine, Record};

/// D, E and a third domain, each initialized.
fn three() -> Machine {
    let mut machine = live();
    build(&mut machine, 20, 33);
    build(&mut machine, 40, 34);
    machine
}

/// The machine after these calls, each of which is accepted.
fn after(mut machine: Machine, calls: &[Call]) -> Machine {
    for &call in calls {
        accept(&mut machine, call);
    }
    machine
}

/// The tree with D blocked and written back.
fn written_back() -> Machine {
    after(tree(), &[Call::FlushDone { domain: D }, Call::CacheWb])
}

/// The lifecycle of each record.
fn stages(machine: &Machine) -> Vec<u64> {
    machine.records.iter().map(|r| r.lifecycle).collect()
}

/// A copy with these lifecycles in the first records, and nothing else changed.
fn with_stages(machine: &Machine, stages: &[u64]) -> Machine {
    with(machine, |m| {
        for (record, &stage) in m.records.iter_mut().zip(stages) {
            record.lifecycle = stage;
        }
    })
}

#[test]
fn one_domain_is_blocked_before_the_write_back_and_one_after() {
    let [flush_d, flush_e] = [D, E].map(|domain| Call::FlushDone { domain });
    let [free_d, free_e] = [D, E].map(|domain| Call::KeyFree { domain });
    let mut machine = after(tree(), &[flush_d, Call::CacheWb, flush_e]);
    assert_eq!(stages(&machine)[..2], [4, 2]);
    refuse(&mut machine, free_e, 3);
    accept(&mut machine, free_d);
    refuse(&mut machine, free_e, 3);
    // It needs a write-back of its own, which leaves D in teardown.
    accept(&mut machine, Call::CacheWb);
    assert_eq!(stages(&machine)[..2], [3, 4]);
    refuse(&mut machine, free_d, 3);
    accept(&mut machine, free_e);
    assert_eq!(stages(&machine)[..2], [3, 3]);
}

#[test]
fn several_domains_are_written_back_at_once() {
    let [flush_d, flush_e] = [D, E].map(|domain| Call::FlushDone { domain });
    let before = after(three(), &[flush_d, flush_e]);
    let machine = after(before.clone(), &[Call::CacheWb]);
    assert!(machine == with_stages(&before, &[4, 4, 1]));
    let free = [D, E].map(|domain| Call::KeyFree { domain });
    assert_eq!(stages(&after(machine, &free))[..3], [3, 3, 1]);
}

#[test]
fn a_key_is_freed_only_when_written_back() {
    let free = Call::KeyFree { domain: D };
    for (stage, number) in [(0, 3), (1, 3), (2, 3), (3, 3), (4, 0)] {
        let mut machine = with_stages(&tree(), &[stage]);
        match number {
            0 => accept(&mut machine, free),
            _ => drop(refuse(&mut machine, free, number)),
        }
    }
    let machine = after(written_back(), &[free]);
    assert!(machine == with_stages(&written_back(), &[lifecycle::TEARDOWN]));
}

#[test]
fn a_domain_written_back_is_as_blocked_as_before() {
    for op_state in [op_state::INITIALIZED, op_state::RUNNABLE] {
        let mut machine = with(&written_back(), |m| m.records[0].op_state = op_state);
        for call in calls_on_d() {
            refuse(&mut machine, call, 3);
        }
        // Its frames, of every type, stay until the key is free.
        for frame in [0, 1, 5, 8] {
            refuse(&mut machine, Call::Reclaim { page: hpa(frame) }, 3);
        }
    }
}

#[test]
fn a_domain_written_back_keeps_its_key() {
    let (page, key) = (hpa(50), 32);
    let again = Call::Create { page, key };
    let mut machine = written_back();
    refuse(&mut machine, again, 10);
    accept(&mut machine, Call::KeyFree { domain: D });
    accept(&mut machine, again);
    // One that no TDR names keeps it too.
    let mut orphan = with(&written_back(), |m| m.frames[0] = Frame::default());
    refuse(&mut orphan, again, 10);
}

#[test]
fn nothing_changes_where_no_domain_is_blocked() {
    for mut machine in [replay_machine(), tree(), ended(), written_back()] {
        let before = machine.clone();
        accept(&mut machine, Call::CacheWb);
        assert!(machine == before);
    }
}

#[test]
fn blocked_records_in_use_are_swept_and_no_others() {
    let mut machine = Machine::with_sizes(D, 512, 16, 4);
    assert_eq!(machine.reset().number, 0);
    // Each lifecycle in use, where no TDR names it, and any code unused.
    for stage in 0..=4 {
        machine.records[stage as usize] = Record {
            in_use: true,
            key: 32 + stage,
            lifecycle: stage,
            epoch: 1,
            ..Record::default()
        };
    }
    for code in 0..=7 {
        machine.records[8 + code as usize].lifecycle = code;
    }
    let before = machine.clone();
    accept(&mut machine, Call::CacheWb);
    assert!(machine == with(&before, |m| m.records[2].lifecycle = 4));
}

#[test]
fn only_13_refuses_it() {
    // What contradicts something else is another call's business.
    let mut machine = with(&written_back(), |m| {
        m.records[1].in_use = false;
        m.records[2] = m.records[0].clone();
        m.records[2].lifecycle = lifecycle::BLOCKED;
        m.records[0].child_count = 0;
        m.frames[5].owner = 999;
        m.tables[0].in_use = false;
    });
    let before = machine.clone();
    accept(&mut machine, Call::CacheWb);
    assert!(machine == with(&before, |m| m.records[2].lifecycle = 4));

    let spoils: [fn(&mut Machine); 6] = [
        |m| m.base += 4096,
        |m| m.gauge.raise = 0.0,
        |m| m.frames[1023].kind = 5,
        |m| m.records[1].lifecycle = 5,
        |m| m.records[1].key = 96,
        |m| m.tables[0].entries[0].state = 7,
    ];
    let blocked = after(tree(), &[Call::FlushDone { domain: D }]);
    for spoil in spoils {
        refuse(&mut with(&blocked, spoil), Call::CacheWb, 13);
    }
}

#[test]
fn the_fill_is_stored_as_at_every_call() {
    let blocked = after(tree(), &[Call::FlushDone { domain: D }]);
    for machine in [blocked, tree()] {
        let fill = machine.gauge.fill;
        let stale = with(&machine, |m| {
            m.gauge.raise = fill;
            m.gauge.clear = fill;
            m.gauge.fill = 0.0;
        });
        let machine = after(stale, &[Call::CacheWb]);
        assert_eq!(machine.gauge.fill, fill);
        assert!(machine.gauge.lamp);
    }
}

#[test]
fn a_domain_without_keys_is_written_back_too() {
    let domain = D;
    let calls = [
        Call::Create { page: D, key: 32 },
        Call::FlushDone { domain },
        Call::CacheWb,
        Call::KeyFree { domain },
        Call::Reclaim { page: D },
        Call::CacheWb,
    ];
    let machine = after(replay_machine(), &calls);
    // The record went back in teardown, and is left as it is.
    assert_eq!(stages(&machine), [lifecycle::TEARDOWN, 0, 0, 0]);
    assert_eq!(machine.used_frames(), 0);
}
