//! Hand-made sequences of asks, with each answer from 0 to 14: a line a step,
//! with the answer, all that is read out, the frames in use and the lamp. The
//! lines beside this file were written from the paper. Frames 512, records 2,
//! tables 4; the domain is at frame 0 where nothing else is said.

mod common;

use reefnettle_compare::{
    number, Answer, Door, Gauge, Gpa, Hpa, Key, Level, Outcome, Parts, Request, FRAME_BYTES,
};

const LINES: &str = include_str!("sequences.lines");

const BASE: Hpa = Hpa(1 << 30);

/// A record's scalars: key 32, keys configured, initialized, control pages 4;
/// children 4 and epoch 2^32 - 2, or children 512 and epoch 1.
const NEXT_TO_LAST: u64 = 4611686016280052896;
const ALL_CHILDREN: u64 = 1090536608;

/// Those of a new domain with key 32 that is blocked.
const BLOCKED: u64 = 1073742112;

enum Step {
    /// Asked, and told by a line.
    Told(Request),
    /// Asked only: an earlier sequence has told it.
    Quiet(Request),
    /// A word written by hand: a frame's, the first record's scalars, the
    /// stock's first.
    Frame(usize, u64),
    Record(u64),
    Stock(u64),
    /// Marks that no setting gives, with a lit lamp.
    OddMarks,
    /// A reset at another base, told.
    ResetAt(Hpa),
}

fn ask(request: Request) -> Step {
    Step::Told(request)
}

/// The hpa of a frame, of the window or not.
fn at(frame: u64) -> Hpa {
    Hpa(BASE.0 + FRAME_BYTES * frame)
}

fn on_domain(call: u64, domain: Hpa) -> Request {
    Request {
        call,
        domain,
        ..Request::default()
    }
}

fn on_frame(call: u64, frame: Hpa) -> Request {
    Request {
        call,
        frame,
        ..Request::default()
    }
}

fn on_tree(call: u64, gpa: Gpa, level: Level) -> Request {
    Request {
        gpa,
        level,
        ..on_domain(call, at(0))
    }
}

fn set_marks(raise: f64, clear: f64) -> Request {
    Request {
        call: number::SET_MARKS,
        raise,
        clear,
        ..Request::default()
    }
}

fn create(frame: Hpa, key: Key) -> Request {
    Request {
        key,
        ..on_frame(number::CREATE, frame)
    }
}

fn keyconfig(domain: Hpa) -> Request {
    on_domain(number::KEYCONFIG, domain)
}

fn addcx(domain: Hpa, frame: Hpa) -> Request {
    Request {
        frame,
        ..on_domain(number::ADDCX, domain)
    }
}

fn init(domain: Hpa) -> Request {
    on_domain(number::INIT, domain)
}

fn septadd(gpa: Gpa, level: Level, frame: Hpa) -> Request {
    Request {
        frame,
        ..on_tree(number::SEPTADD, gpa, level)
    }
}

fn pageadd(gpa: Gpa, frame: Hpa) -> Request {
    Request {
        frame,
        ..on_tree(number::PAGEADD, gpa, Level(0))
    }
}

fn finalize(domain: Hpa) -> Request {
    on_domain(number::FINALIZE, domain)
}

fn pageaug(gpa: Gpa, frame: Hpa) -> Request {
    Request {
        frame,
        ..on_tree(number::PAGEAUG, gpa, Level(0))
    }
}

fn block(gpa: Gpa, level: Level) -> Request {
    on_tree(number::BLOCK, gpa, level)
}

fn track(domain: Hpa) -> Request {
    on_domain(number::TRACK, domain)
}

fn unblock(gpa: Gpa, level: Level) -> Request {
    on_tree(number::UNBLOCK, gpa, level)
}

fn pageremove(gpa: Gpa) -> Request {
    on_tree(number::PAGEREMOVE, gpa, Level(0))
}

fn septremove(gpa: Gpa, level: Level) -> Request {
    on_tree(number::SEPTREMOVE, gpa, level)
}

fn flushdone(domain: Hpa) -> Request {
    on_domain(number::FLUSHDONE, domain)
}

fn cachewb() -> Request {
    Request {
        call: number::CACHEWB,
        ..Request::default()
    }
}

fn keyfree(domain: Hpa) -> Request {
    on_domain(number::KEYFREE, domain)
}

fn reclaim(frame: Hpa) -> Request {
    on_frame(number::RECLAIM, frame)
}

fn readpage(frame: Hpa) -> Request {
    on_frame(number::READPAGE, frame)
}

fn readentry(gpa: Gpa, level: Level) -> Request {
    on_tree(number::READENTRY, gpa, level)
}

/// A reset, then the steps.
fn fresh(steps: Vec<Step>) -> Vec<Step> {
    let mut all = vec![ask(Request::default())];
    all.extend(steps);
    all
}

/// A domain at frame 0, key 32, control pages at frames 1 to 4, initialized;
/// then the steps.
fn built(steps: Vec<Step>) -> Vec<Step> {
    let mut all = vec![create(at(0), Key(32)), keyconfig(at(0))];
    all.extend((1..=4).map(|page| addcx(at(0), at(page))));
    all.push(init(at(0)));
    fresh(all.into_iter().map(Step::Quiet).chain(steps).collect())
}

/// A domain, and what its frames are.
fn build() -> Vec<Step> {
    fresh(vec![
        ask(create(at(0), Key(32))),
        ask(keyconfig(at(0))),
        ask(addcx(at(0), at(1))),
        ask(addcx(at(0), at(2))),
        ask(addcx(at(0), at(3))),
        ask(addcx(at(0), at(4))),
        ask(init(at(0))),
        ask(readpage(at(1))),
        ask(readpage(at(0))),
        ask(readpage(at(5))),
    ])
}

/// Operands out of range; then the last frame and the last key.
fn operands() -> Vec<Step> {
    fresh(vec![
        ask(create(Hpa(1073741825), Key(32))),
        ask(create(Hpa(262144), Key(32))),
        ask(create(at(512), Key(32))),
        ask(create(at(0), Key(31))),
        ask(create(at(0), Key(96))),
        ask(create(at(511), Key(95))),
        ask(Request {
            domain: at(511),
            ..block(Gpa(2093056), Level(1))
        }),
        ask(Request {
            domain: at(511),
            ..block(Gpa(0), Level(4))
        }),
        ask(Request {
            domain: at(511),
            ..septadd(Gpa(0), Level(0), at(1))
        }),
    ])
}

/// Frames of the wrong type.
fn kinds() -> Vec<Step> {
    fresh(vec![
        ask(create(at(0), Key(32))),
        ask(create(at(0), Key(33))),
        ask(keyconfig(at(1))),
        ask(reclaim(at(1))),
        ask(keyconfig(at(0))),
        ask(addcx(at(0), at(0))),
    ])
}

/// Lifecycles, and too few control pages.
fn life() -> Vec<Step> {
    fresh(vec![
        ask(create(at(0), Key(32))),
        ask(addcx(at(0), at(1))),
        ask(init(at(0))),
        ask(keyfree(at(0))),
        ask(keyconfig(at(0))),
        ask(keyconfig(at(0))),
        ask(init(at(0))),
        ask(finalize(at(0))),
        ask(flushdone(at(0))),
        ask(flushdone(at(0))),
    ])
}

/// Four control pages, and op states.
fn states() -> Vec<Step> {
    built(vec![
        ask(addcx(at(0), at(5))),
        ask(init(at(0))),
        ask(pageaug(Gpa(0), at(8))),
        ask(finalize(at(0))),
        ask(pageadd(Gpa(0), at(8))),
        ask(finalize(at(0))),
    ])
}

/// Walks that stop, entries in the wrong state, and reads.
fn walk() -> Vec<Step> {
    built(vec![
        ask(pageadd(Gpa(0), at(8))),
        ask(septadd(Gpa(0), Level(3), at(5))),
        ask(pageadd(Gpa(0), at(8))),
        ask(septadd(Gpa(0), Level(2), at(6))),
        ask(septadd(Gpa(0), Level(1), at(7))),
        ask(pageadd(Gpa(0), at(8))),
        ask(pageadd(Gpa(0), at(9))),
        ask(pageadd(Gpa(4096), at(8))),
        ask(readentry(Gpa(0), Level(0))),
        ask(readentry(Gpa(0), Level(3))),
        ask(readentry(Gpa(4096), Level(0))),
        ask(readpage(at(8))),
    ])
}

/// A page of a runnable domain blocked, unblocked, blocked again and removed.
fn tracks() -> Vec<Step> {
    built(vec![
        ask(septadd(Gpa(0), Level(3), at(5))),
        ask(septadd(Gpa(0), Level(2), at(6))),
        ask(septadd(Gpa(0), Level(1), at(7))),
        ask(pageadd(Gpa(0), at(8))),
        Step::Quiet(finalize(at(0))),
        ask(block(Gpa(0), Level(0))),
        ask(block(Gpa(0), Level(0))),
        ask(pageremove(Gpa(0))),
        ask(unblock(Gpa(0), Level(0))),
        ask(track(at(0))),
        ask(unblock(Gpa(0), Level(0))),
        ask(block(Gpa(0), Level(0))),
        ask(pageremove(Gpa(0))),
        ask(track(at(0))),
        ask(pageremove(Gpa(0))),
        ask(readentry(Gpa(0), Level(0))),
        ask(readpage(at(8))),
    ])
}

/// A runnable domain's table whose first entry is FREE and whose second is not,
/// then emptied and removed.
fn remains() -> Vec<Step> {
    built(vec![
        ask(septadd(Gpa(0), Level(3), at(5))),
        ask(septadd(Gpa(0), Level(2), at(6))),
        ask(septadd(Gpa(0), Level(1), at(7))),
        ask(pageadd(Gpa(4096), at(8))),
        Step::Quiet(finalize(at(0))),
        ask(block(Gpa(0), Level(1))),
        ask(readentry(Gpa(4096), Level(0))),
        ask(septremove(Gpa(0), Level(1))),
        ask(track(at(0))),
        ask(septremove(Gpa(0), Level(1))),
        ask(unblock(Gpa(0), Level(1))),
        ask(block(Gpa(4096), Level(0))),
        ask(track(at(0))),
        ask(pageremove(Gpa(4096))),
        ask(block(Gpa(0), Level(1))),
        ask(track(at(0))),
        ask(septremove(Gpa(0), Level(1))),
        ask(readentry(Gpa(0), Level(1))),
    ])
}

/// What is blocked before finalize: untracked it may go then, and not after it.
fn building() -> Vec<Step> {
    built(vec![
        Step::Quiet(septadd(Gpa(0), Level(3), at(5))),
        Step::Quiet(septadd(Gpa(0), Level(2), at(6))),
        Step::Quiet(septadd(Gpa(0), Level(1), at(7))),
        Step::Quiet(pageadd(Gpa(0), at(8))),
        Step::Quiet(pageadd(Gpa(4096), at(9))),
        ask(pageremove(Gpa(0))),
        ask(block(Gpa(0), Level(0))),
        ask(unblock(Gpa(0), Level(0))),
        ask(block(Gpa(0), Level(0))),
        ask(pageremove(Gpa(0))),
        ask(block(Gpa(4096), Level(0))),
        ask(finalize(at(0))),
        ask(pageremove(Gpa(4096))),
        ask(unblock(Gpa(4096), Level(0))),
        ask(track(at(0))),
        ask(pageremove(Gpa(4096))),
    ])
}

/// A pending page, blocked and unblocked.
fn augments() -> Vec<Step> {
    built(vec![
        ask(septadd(Gpa(0), Level(3), at(5))),
        ask(septadd(Gpa(0), Level(2), at(6))),
        ask(septadd(Gpa(0), Level(1), at(7))),
        ask(finalize(at(0))),
        ask(pageaug(Gpa(2093056), at(8))),
        ask(readentry(Gpa(2093056), Level(0))),
        ask(block(Gpa(2093056), Level(0))),
        ask(readentry(Gpa(2093056), Level(0))),
        ask(track(at(0))),
        ask(unblock(Gpa(2093056), Level(0))),
        ask(readentry(Gpa(2093056), Level(0))),
    ])
}

/// A key that isn't free before the write-back; then every frame of the domain
/// reclaimed, its TDR last.
fn teardown() -> Vec<Step> {
    built(vec![
        ask(septadd(Gpa(0), Level(3), at(5))),
        ask(reclaim(at(5))),
        ask(flushdone(at(0))),
        ask(reclaim(at(5))),
        ask(keyfree(at(0))),
        ask(cachewb()),
        ask(reclaim(at(5))),
        ask(keyfree(at(0))),
        ask(keyfree(at(0))),
        ask(reclaim(at(0))),
        ask(reclaim(at(5))),
        ask(reclaim(at(1))),
        ask(reclaim(at(2))),
        ask(reclaim(at(3))),
        ask(reclaim(at(4))),
        ask(reclaim(at(0))),
        ask(readpage(at(0))),
    ])
}

/// A key is taken until keyfree, and a record until its TDR is reclaimed.
fn keys() -> Vec<Step> {
    fresh(vec![
        ask(create(at(0), Key(32))),
        ask(create(at(1), Key(32))),
        ask(create(at(1), Key(33))),
        ask(create(at(2), Key(33))),
        ask(create(at(2), Key(34))),
        ask(flushdone(at(0))),
        ask(create(at(2), Key(32))),
        ask(cachewb()),
        ask(create(at(2), Key(32))),
        ask(keyfree(at(0))),
        ask(create(at(2), Key(32))),
        ask(reclaim(at(0))),
        ask(create(at(2), Key(32))),
    ])
}

/// Two domains, one blocked before a write-back and one after it; and a
/// write-back where none is blocked.
fn two() -> Vec<Step> {
    fresh(vec![
        ask(create(at(0), Key(32))),
        ask(create(at(1), Key(33))),
        ask(cachewb()),
        ask(flushdone(at(0))),
        ask(cachewb()),
        ask(flushdone(at(1))),
        ask(keyfree(at(1))),
        ask(keyfree(at(0))),
        ask(keyfree(at(1))),
        ask(cachewb()),
        ask(keyfree(at(0))),
        ask(keyfree(at(1))),
        ask(reclaim(at(1))),
        ask(reclaim(at(0))),
    ])
}

/// A domain that is blocked and written back: nothing but keyfree suits it.
fn written() -> Vec<Step> {
    built(vec![
        Step::Quiet(septadd(Gpa(0), Level(3), at(5))),
        Step::Quiet(flushdone(at(0))),
        ask(cachewb()),
        ask(cachewb()),
        ask(keyconfig(at(0))),
        ask(addcx(at(0), at(6))),
        ask(init(at(0))),
        ask(septadd(Gpa(0), Level(2), at(6))),
        ask(finalize(at(0))),
        ask(block(Gpa(0), Level(3))),
        ask(track(at(0))),
        ask(readentry(Gpa(0), Level(3))),
        ask(flushdone(at(0))),
        ask(reclaim(at(5))),
        ask(create(at(6), Key(32))),
        ask(keyfree(at(0))),
    ])
}

/// A blocked record is left where it is unused, and swept where it is in use,
/// though no TDR names it. Lifecycle 5 is none.
fn sweeps() -> Vec<Step> {
    fresh(vec![
        Step::Record(BLOCKED),
        ask(cachewb()),
        Step::Stock(16),
        Step::Frame(0, 1),
        ask(keyfree(at(0))),
        Step::Frame(0, 0),
        ask(cachewb()),
        Step::Frame(0, 1),
        ask(keyfree(at(0))),
        Step::Record(BLOCKED + (3 << 7)),
        ask(cachewb()),
    ])
}

/// All four tables taken; one given back and taken again.
fn tables() -> Vec<Step> {
    built(vec![
        ask(septadd(Gpa(0), Level(3), at(5))),
        ask(septadd(Gpa(549755813888), Level(3), at(6))),
        ask(septadd(Gpa(1099511627776), Level(3), at(7))),
        ask(septadd(Gpa(1649267441664), Level(3), at(8))),
        ask(septadd(Gpa(2199023255552), Level(3), at(9))),
        ask(block(Gpa(549755813888), Level(3))),
        ask(track(at(0))),
        ask(septremove(Gpa(549755813888), Level(3))),
        ask(septadd(Gpa(2199023255552), Level(3), at(9))),
    ])
}

/// The epoch one below its limit, and at it.
fn limits() -> Vec<Step> {
    built(vec![
        Step::Record(NEXT_TO_LAST),
        ask(track(at(0))),
        ask(track(at(0))),
    ])
}

/// A type 5, a spare bit, a record of zeros in use; a word of an unused record is not looked at.
fn ranges() -> Vec<Step> {
    fresh(vec![
        Step::Frame(511, 5),
        ask(readpage(at(0))),
        ask(readpage(Hpa(1))),
        Step::Frame(511, 0),
        ask(readpage(at(0))),
        Step::Stock(64),
        ask(readpage(at(0))),
        Step::Stock(16),
        ask(readpage(at(0))),
        Step::Stock(0),
        Step::Record(127),
        ask(create(at(0), Key(32))),
    ])
}

/// An EPT owned by a control page, a child count at the frames, a TDR whose record is unused.
fn owners() -> Vec<Step> {
    built(vec![
        ask(septadd(Gpa(0), Level(3), at(5))),
        Step::Frame(5, 11),
        ask(septadd(Gpa(0), Level(2), at(6))),
        ask(block(Gpa(0), Level(3))),
        ask(reclaim(at(5))),
        Step::Frame(5, 3),
        ask(septadd(Gpa(0), Level(2), at(6))),
        Step::Record(ALL_CHILDREN),
        ask(septadd(Gpa(0), Level(1), at(7))),
        Step::Stock(3),
        ask(keyconfig(at(0))),
        ask(reclaim(at(0))),
    ])
}

/// Raise mark 2 of 512 frames, clear mark 1 of 512.
fn lamp() -> Vec<Step> {
    fresh(vec![
        ask(set_marks(0.00390625, 0.001953125)),
        ask(create(at(0), Key(32))),
        ask(create(at(1), Key(33))),
        ask(flushdone(at(1))),
        ask(cachewb()),
        ask(keyfree(at(1))),
        ask(reclaim(at(1))),
        ask(flushdone(at(0))),
        ask(cachewb()),
        ask(keyfree(at(0))),
        ask(reclaim(at(0))),
    ])
}

/// Marks out of rule when set are 1, and when lent 13; the setting does not look at the lent ones.
fn marks() -> Vec<Step> {
    fresh(vec![
        ask(create(at(0), Key(32))),
        ask(set_marks(0.001, 0.0)),
        Step::OddMarks,
        ask(keyconfig(at(0))),
        ask(set_marks(0.00390625, 0.0)),
        ask(keyconfig(at(0))),
    ])
}

/// A base of one frame.
fn base() -> Vec<Step> {
    built(vec![Step::ResetAt(Hpa(4096)), ask(readpage(at(4)))])
}

fn sequences() -> Vec<(&'static str, Vec<Step>)> {
    vec![
        ("build", build()),
        ("operands", operands()),
        ("kinds", kinds()),
        ("life", life()),
        ("states", states()),
        ("walk", walk()),
        ("tracks", tracks()),
        ("remains", remains()),
        ("building", building()),
        ("augments", augments()),
        ("teardown", teardown()),
        ("keys", keys()),
        ("two", two()),
        ("written", written()),
        ("sweeps", sweeps()),
        ("tables", tables()),
        ("limits", limits()),
        ("ranges", ranges()),
        ("owners", owners()),
        ("lamp", lamp()),
        ("marks", marks()),
        ("base", base()),
    ]
}

/// The ask's answer. A refusal must leave every word and the gauge as they were.
fn answered(door: &mut Door, parts: &mut Parts, request: Request) -> Answer {
    let Outcome { answer, lent } = door.ask(parts, &request).unwrap();
    assert!(
        answer.number == 0 || lent == *parts,
        "{request:?} changed something"
    );
    *parts = lent;
    answer
}

/// What is told of a step; nothing if it isn't asked, or only asked.
fn taken(door: &mut Door, parts: &mut Parts, step: Step) -> Option<Answer> {
    match step {
        Step::Told(request) => return Some(answered(door, parts, request)),
        Step::Quiet(request) => drop(answered(door, parts, request)),
        Step::Frame(frame, word) => parts.frames[frame] = word,
        Step::Record(word) => parts.domains[0] = word,
        Step::Stock(word) => parts.stock[0] = word,
        Step::OddMarks => {
            parts.gauge = Gauge {
                raise: 0.0,
                clear: 0.0,
                fill: parts.gauge.fill,
                lamp: true,
            }
        }
        Step::ResetAt(base) => {
            parts.base = base;
            let answer = answered(door, parts, Request::default());
            parts.base = BASE;
            return Some(answer);
        }
    }
    None
}

fn line(sequence: &str, step: usize, answer: Answer, parts: &Parts) -> String {
    let Answer {
        number,
        kind,
        owner,
        level,
        state,
        hpa,
    } = answer;
    let used = parts.frames.iter().filter(|word| *word & 7 != 0).count();
    let fields = [
        ("step", step as u64),
        ("answer", number),
        ("type", kind),
        ("owner", owner.0),
        ("level", level.0),
        ("state", state),
        ("hpa", hpa.0),
        ("used", used as u64),
        ("lamp", parts.gauge.lamp as u64),
    ];
    fields
        .iter()
        .fold(format!("sequence\t{sequence}"), |line, (unit, number)| {
            format!("{line}\t{unit}\t{number}")
        })
}

#[test]
fn the_sequences_are_answered_as_the_paper_says() {
    // One set of words for all: each sequence begins with a reset.
    let mut parts = Parts {
        base: BASE,
        frames: vec![0; 512],
        domains: vec![0; 10],
        stock: vec![0; 1],
        entries: vec![0; 3072],
        gauge: Gauge::FRESH,
    };
    let mut door = common::open_door();
    let mut expected = LINES.lines();
    let mut met = [false; 15];
    for (name, steps) in sequences() {
        let mut told = 0;
        for step in steps {
            let Some(answer) = taken(&mut door, &mut parts, step) else {
                continue;
            };
            let ours = line(name, told, answer, &parts);
            assert_eq!(Some(ours.as_str()), expected.next());
            met[answer.number as usize] = true;
            told += 1;
        }
    }
    assert_eq!(expected.next(), None);
    assert_eq!(met, [true; 15], "an answer from 0 to 14 was never met");
}
