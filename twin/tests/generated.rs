//! Generated scripts: what they reach, and what holds after each line.

use std::collections::BTreeSet;

use reefnettle_twin::{
    entry_state, frame_type, generate, generate_on, lifecycle, parse, replay, replay_machine, Call,
    Entry, Kind, Machine, Readout, Record, FRAME_BYTES, REPLAY_BASE, REPLAY_CLEAR, REPLAY_RAISE,
};

fn lines(script: &[u8]) -> Vec<&[u8]> {
    let mut lines: Vec<&[u8]> = script.split(|&byte| byte == b'\n').collect();
    if lines.last().is_some_and(|last| last.is_empty()) {
        lines.pop();
    }
    lines
}

/// Frames found by a fresh walk, with the type each must have. Blocked branches
/// are walked too.
fn walk(machine: &Machine, entries: &[Entry], level: u64, found: &mut Vec<(u64, u64)>) {
    for entry in entries {
        match entry.state {
            entry_state::FREE => assert_eq!(entry.frame, 0),
            entry_state::NL_MAPPED | entry_state::NL_BLOCKED => {
                assert!(level > 0);
                found.push((entry.frame.into(), frame_type::EPT));
                let frame = machine.frames[entry.frame as usize];
                assert_eq!(frame.kind, frame_type::EPT);
                let table = &machine.tables[frame.number as usize];
                assert!(table.in_use);
                walk(machine, &table.entries, level - 1, found);
            }
            _ => {
                assert_eq!(level, 0);
                found.push((entry.frame.into(), frame_type::REG));
            }
        }
    }
}

fn frames_by_walk(machine: &Machine, record: &Record) -> Vec<(u64, u64)> {
    let mut found = Vec::new();
    for &page in &record.pages[..record.page_count as usize] {
        found.push((page, frame_type::TDCX));
    }
    walk(machine, &record.root, 3, &mut found);
    found.sort_unstable();
    found
}

fn frames_by_owner(machine: &Machine, tdr: usize) -> Vec<(u64, u64)> {
    let mut owned = Vec::new();
    for (number, frame) in machine.frames.iter().enumerate() {
        let has_owner = frame.kind >= frame_type::TDCX;
        if has_owner && frame.owner == tdr as u64 {
            owned.push((number as u64, frame.kind));
        }
    }
    owned
}

/// The ownership promise: for each domain that holds its key, a fresh walk
/// finds just the frames recorded as its own, each once and with its type, and
/// their number is the child count. Then what keeps the stock in step.
fn check_ownership(machine: &Machine) {
    let mut records = Vec::new();
    let mut tables = Vec::new();
    let mut tdrs = Vec::new();
    for (number, frame) in machine.frames.iter().enumerate() {
        if frame.kind == frame_type::TDR {
            records.push(frame.number);
            tdrs.push(number as u64);
            let record = &machine.records[frame.number as usize];
            assert!(record.in_use);
            let owned = frames_by_owner(machine, number);
            assert_eq!(record.child_count, owned.len() as u64);
            if record.lifecycle != lifecycle::TEARDOWN {
                // Equal to a list of distinct frames, so each is found once.
                assert_eq!(frames_by_walk(machine, record), owned);
            }
        }
        if frame.kind == frame_type::EPT {
            tables.push(frame.number);
        }
    }
    for frame in &machine.frames {
        assert!(frame.kind < frame_type::TDCX || tdrs.contains(&frame.owner));
    }
    records.sort_unstable();
    tables.sort_unstable();
    let used_records: Vec<u64> = (0..machine.records.len() as u64)
        .filter(|&n| machine.records[n as usize].in_use)
        .collect();
    let used_tables: Vec<u64> = (0..machine.tables.len() as u64)
        .filter(|&n| machine.tables[n as usize].in_use)
        .collect();
    assert_eq!(records, used_records);
    assert_eq!(tables, used_tables);
    let mut keys = BTreeSet::new();
    for record in &machine.records {
        if record.in_use && record.lifecycle != lifecycle::TEARDOWN {
            assert!(keys.insert(record.key));
        }
    }
    let used = machine.frames.iter().filter(|f| f.kind != frame_type::NDA);
    assert_eq!(used.count(), machine.used_frames());
}

/// A fresh machine of the largest sizes, with the replay's marks.
fn largest_machine() -> Machine {
    let mut machine = Machine::with_sizes(REPLAY_BASE, 16384, 64, 256);
    assert!(machine.reset().is_accepted());
    assert!(machine.set_marks(REPLAY_RAISE, REPLAY_CLEAR).is_accepted());
    machine
}

/// Runs a script of that machine, and looks at it once in so many lines.
fn check_script(mut machine: Machine, script: &[u8], once_in: usize) -> Machine {
    check_ownership(&machine);
    for (number, line) in lines(script).into_iter().enumerate() {
        if let Some(call) = parse(line) {
            machine.call_unchecked(call);
        }
        if number % once_in == 0 {
            check_ownership(&machine);
        }
    }
    machine
}

#[test]
fn ownership_after_every_line() {
    for kind in Kind::ALL {
        for seed in 0..4 {
            check_script(replay_machine(), &generate(seed, 4_000, kind), 1);
        }
    }
}

#[test]
fn ownership_at_the_largest_sizes() {
    for kind in Kind::ALL {
        let script = generate_on(largest_machine(), 1, 10_000, kind);
        let machine = check_script(largest_machine(), &script, 50);
        assert!(machine.in_range(), "{}", kind.name());
    }
}

#[test]
fn checked_and_unchecked_calls_agree() {
    for kind in Kind::ALL {
        let script = generate(77, 2_000, kind);
        let mut machine = replay_machine();
        for line in lines(&script) {
            let Some(call) = parse(line) else { continue };
            let before = machine.clone();
            let mut checked = machine.clone();
            let answer = machine.call_unchecked(call);
            assert_eq!(checked.call(call), answer);
            assert!(checked == machine);
            assert!(answer.number < 12, "{call:?} {answer:?}");
            assert!(answer.is_accepted() || machine == before);
            if answer.is_accepted() {
                let fill = machine.used_frames() as f64 / 1024.0;
                assert_eq!(machine.gauge.fill.to_bits(), fill.to_bits());
            }
            assert_eq!(
                matches!(answer.readout, Readout::Stop { .. }),
                answer.number == 6 || answer.number == 7
            );
        }
    }
}

fn answers(script: &[u8]) -> [usize; 16] {
    let mut output = Vec::new();
    replay(script, &mut output).unwrap();
    let mut counts = [0; 16];
    for line in String::from_utf8(output).unwrap().lines() {
        let fields: Vec<&str> = line.split('\t').collect();
        if fields[0] == "line" {
            counts[fields[3].parse::<usize>().unwrap()] += 1;
        }
    }
    counts
}

#[test]
fn every_answer_occurs_in_every_kind() {
    for kind in Kind::ALL {
        let mut counts = [0; 16];
        for seed in 1..=3 {
            let some = answers(&generate(seed, 10_000, kind));
            assert_eq!(some.iter().sum::<usize>(), 10_000);
            for (sum, count) in counts.iter_mut().zip(some) {
                *sum += count;
            }
        }
        for (answer, &count) in counts.iter().enumerate() {
            let expected = answer <= 11 || answer == 15;
            assert_eq!(count > 0, expected, "{} {answer}", kind.name());
        }
    }
}

/// How often cachewb and keyfree met what makes a difference to them.
#[derive(Debug, Default)]
struct WriteBacks {
    /// Blocked domains that a cachewb met: none, one, more.
    swept: [u64; 3],
    freed: u64,
    /// Keys of blocked domains asked for.
    too_soon: u64,
    /// The same while another domain is written back.
    blocked_after: u64,
}

impl WriteBacks {
    /// Notes a call on the machine before it, and its answer.
    fn note(&mut self, machine: &Machine, call: Call, answer: u8) {
        let in_stage = |stage| {
            let records = machine.records.iter();
            let in_stage = records.filter(|r| r.in_use && r.lifecycle == stage);
            in_stage.count()
        };
        match (call, answer) {
            (Call::CacheWb, _) => self.swept[in_stage(lifecycle::BLOCKED).min(2)] += 1,
            (Call::KeyFree { .. }, 0) => self.freed += 1,
            (Call::KeyFree { domain }, 3) => {
                let tdr = (domain - REPLAY_BASE) / FRAME_BYTES;
                let record = machine.frames[tdr as usize].number as usize;
                if machine.records[record].lifecycle == lifecycle::BLOCKED {
                    self.too_soon += 1;
                    self.blocked_after += u64::from(in_stage(lifecycle::WRITTEN_BACK) > 0);
                }
            }
            _ => {}
        }
    }
}

#[test]
fn every_kind_writes_back_and_frees_keys_too_soon() {
    for kind in Kind::ALL {
        let mut met = WriteBacks::default();
        for seed in 1..=3 {
            let script = generate(seed, 10_000, kind);
            let mut machine = replay_machine();
            for call in lines(&script).into_iter().filter_map(parse) {
                let noted = matches!(call, Call::CacheWb | Call::KeyFree { .. });
                let before = noted.then(|| machine.clone());
                let answer = machine.call_unchecked(call).number;
                if let Some(before) = before {
                    met.note(&before, call, answer);
                }
            }
        }
        let [none, one, more] = met.swept;
        let once = [none, one, met.freed, met.too_soon].map(|count| count > 0);
        assert_eq!(once, [true; 4], "{} {met:?}", kind.name());
        // Where many domains end, more than one does so at a time.
        if kind == Kind::Churn {
            assert!(more > 0 && met.blocked_after > 0, "{met:?}");
        }
    }
}

#[test]
fn full_scripts_light_the_lamp_and_put_it_out() {
    for seed in 1..=5 {
        let script = generate(seed, 10_000, Kind::Full);
        let mut machine = replay_machine();
        let mut lit = 0;
        let mut put_out = 0;
        for call in lines(&script).into_iter().filter_map(parse) {
            let before = machine.gauge.lamp;
            machine.call_unchecked(call);
            match (before, machine.gauge.lamp) {
                (false, true) => {
                    assert_eq!(machine.used_frames(), 768);
                    lit += 1;
                }
                (true, false) => {
                    assert_eq!(machine.used_frames(), 511);
                    put_out += 1;
                }
                _ => {}
            }
        }
        assert!(lit > 0 && put_out > 0, "{seed}: {lit} {put_out}");
    }
}

#[test]
fn scripts_have_their_length_and_follow_from_the_seed() {
    for kind in Kind::ALL {
        assert_eq!(Kind::from_name(kind.name()), Some(kind));
        assert!(generate(1, 0, kind).is_empty());
        for length in [1, 2, 500, 10_050] {
            let script = generate(9, length, kind);
            assert_eq!(script, generate(9, length, kind));
            let ended = script.ends_with(b"\n");
            let feeds = script.iter().filter(|&&byte| byte == b'\n').count();
            assert_eq!(feeds as u64 + u64::from(!ended), length);
        }
        assert_ne!(generate(1, 100, kind), generate(2, 100, kind));
    }
    assert_eq!(Kind::from_name("other"), None);
}
