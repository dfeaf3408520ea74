//! The limits of window, addresses and marks, those of the lamp, and which table
//! or record is taken. What is expected was written from the paper. Keys, levels
//! and epochs at their limits are in `sequences.rs` and `edges.rs`, the last
//! record and table of the largest sizes in `largest.rs`.

mod common;
mod words;

use reefnettle_compare::{
    number, Answer, Door, Gauge, Gpa, Hpa, Key, Level, Parts, Request, FRAME_BYTES,
};
use words::{
    at, frame, put_entry, scalars, tree, BASE, EPT, MAPPED, NL_MAPPED, REG, ROOT, TDCX, TDR,
};

/// The replay program's frames.
const FRAMES: usize = 1024;

/// The most frames of a window.
const LARGEST: usize = 16384;

/// Records 1 and tables 4, all unused; as many frames as said are in use.
fn window(base: Hpa, frames: usize, used: usize) -> Parts {
    let mut lent = Parts {
        base,
        frames: vec![0; frames],
        domains: vec![0; 5],
        stock: vec![0],
        entries: vec![0; 512 * 5],
        gauge: Gauge::FRESH,
    };
    lent.frames[..used].fill(frame(TDCX, 0, 0, 0));
    lent
}

fn on_frame(call: u64, frame: Hpa) -> Request {
    Request {
        call,
        frame,
        ..Request::default()
    }
}

fn on_tree(call: u64, gpa: Gpa, level: Level) -> Request {
    Request {
        call,
        domain: at(0),
        gpa,
        level,
        ..Request::default()
    }
}

fn set_marks(raise: f64, clear: f64) -> Request {
    Request {
        call: number::SET_MARKS,
        raise,
        clear,
        ..Request::default()
    }
}

/// An answer with zeros read out.
fn bare(number: u64) -> Answer {
    Answer {
        number,
        ..Answer::default()
    }
}

/// Base, frames, and what a reset answers. Frames 512 pass in `sequences.rs`.
const WINDOWS: [(Hpa, usize, u64); 10] = [
    (BASE, 256, 13),
    (BASE, 768, 13),
    (BASE, 1024, 0),
    (BASE, 16383, 13),
    (BASE, 16384, 0),
    (BASE, 32768, 13),
    (Hpa(0), FRAMES, 13),
    (Hpa(BASE.0 + FRAME_BYTES), FRAMES, 13),
    (Hpa(1 << 46), FRAMES, 0),
    (Hpa((1 << 46) + (1 << 30)), FRAMES, 13),
];

#[test]
fn a_reset_takes_frames_and_base_within_their_limits() {
    let mut door = common::open_door();
    for (base, frames, answer) in WINDOWS {
        let lent = window(base, frames, 0);
        let reset = door.ask(&lent, &Request::default()).unwrap();
        assert_eq!(reset.answer, bare(answer), "{base:?}, frames {frames}");
    }
}

/// Frames, the last one's hpa, and the hpa behind it.
const LAST_FRAMES: [(usize, Hpa, Hpa); 2] = [
    (FRAMES, Hpa(1077932032), Hpa(1077936128)),
    (LARGEST, Hpa(1140846592), Hpa(1140850688)),
];

#[test]
fn an_hpa_names_a_frame_of_the_window() {
    let mut door = common::open_door();
    let read = |kind, owner| Answer {
        kind,
        owner,
        ..Answer::default()
    };
    for (frames, last, behind) in LAST_FRAMES {
        // The first frame is the last one's control page, and the last the first one's page.
        let mut lent = window(BASE, frames, 0);
        lent.frames[0] = frame(TDCX, frames as u64 - 1, 0, 0);
        lent.frames[frames - 1] = frame(REG, 0, 0, 0);
        for (hpa, answer) in [
            (Hpa(1073737728), bare(1)),
            (BASE, read(TDCX, last)),
            (last, read(REG, BASE)),
            (behind, bare(1)),
        ] {
            let readpage = on_frame(number::READPAGE, hpa);
            let ours = door.ask(&lent, &readpage).unwrap().answer;
            assert_eq!(ours, answer, "frames {frames}, {hpa:?}");
        }
    }
}

#[test]
fn a_gpa_has_an_index_at_each_level() {
    let arrives = |level, state: u32, frame| Answer {
        level,
        state: state.into(),
        hpa: at(frame),
        ..Answer::default()
    };
    let (page, last) = (Level(0), Gpa((1 << 47) - FRAME_BYTES));
    let to_last = [255, 511, 511, 511];
    let (table, second) = (Level(1), Gpa(1 << 21));
    let to_second = [0, 0, 1, 0];
    let mut door = common::open_door();
    // No other entry leads on.
    for (gpa, level, way, answer) in [
        (last, page, to_last, arrives(page, MAPPED, 8)),
        (Gpa(1 << 47), page, to_last, bare(1)),
        (second, table, to_second, arrives(table, NL_MAPPED, 7)),
        (Gpa(second.0 - FRAME_BYTES), table, to_second, bare(1)),
    ] {
        let readentry = on_tree(number::READENTRY, gpa, level);
        let ours = door.ask(&tree(way), &readentry).unwrap().answer;
        assert_eq!(ours, answer, "{gpa:?}, {level:?}");
    }
}

/// Raise mark, clear mark, and what their setting answers in frames 1024.
const MARKS: [(f64, f64, u64); 12] = [
    (0.75, 0.5, 0),
    (1.0, 1.0, 0),
    (1.0000000000000002, 0.5, 1),
    (0.0009765625, 0.0, 0), // k is 1
    (0.00048828125, 0.0, 1),
    (f64::NAN, 0.5, 1),
    (0.75, f64::NAN, 1),
    (0.75, -0.0, 1),
    (f64::INFINITY, 0.5, 1),
    (-0.75, 0.0, 1),
    (0.5, 0.75, 1),
    (0.0, 0.0, 1),
];

#[test]
fn marks_in_rule_are_set_and_others_refused() {
    let mut door = common::open_door();
    let lent = window(BASE, FRAMES, 0);
    for (raise, clear, answer) in MARKS {
        let mut gauge = Gauge::FRESH;
        if answer == 0 {
            (gauge.raise, gauge.clear) = (raise, clear);
        }
        let set = door.ask(&lent, &set_marks(raise, clear)).unwrap();
        assert_eq!(set.answer, bare(answer), "raise {raise}, clear {clear}");
        assert_eq!(set.lent.gauge, gauge, "raise {raise}, clear {clear}");
    }
}

/// The program's marks, and the fill of so many of the frames.
fn gauge(used: usize, frames: usize, lamp: bool) -> Gauge {
    Gauge {
        raise: 0.75,
        clear: 0.5,
        fill: used as f64 / frames as f64,
        lamp,
    }
}

/// The gauge after an ask that is accepted, in a window of which some is in use.
fn gauge_after(door: &mut Door, request: Request, window: Parts, gauge: Gauge) -> Gauge {
    let lent = Parts { gauge, ..window };
    let asked = door.ask(&lent, &request).unwrap();
    assert_eq!(asked.answer.number, 0);
    asked.lent.gauge
}

/// Frames, those at the raise mark, and those at the clear mark.
const LAMPS: [(usize, usize, usize); 2] = [(FRAMES, 768, 512), (LARGEST, 12288, 8192)];

#[test]
fn the_lamp_is_lit_at_raise_and_put_out_below_clear() {
    let mut door = common::open_door();
    for (frames, raise, clear) in LAMPS {
        for (used, lamp) in [(raise - 1, false), (raise, true)] {
            let set = set_marks(0.75, 0.5);
            let before = gauge(0, frames, !lamp);
            let after = gauge_after(&mut door, set, window(BASE, frames, used), before);
            assert_eq!(after, gauge(used, frames, lamp));
        }
        let mut before = gauge(raise - 1, frames, false);
        for (used, lamp) in [
            (raise - 1, false),
            (raise, true),
            (clear, true),
            (clear - 1, false),
            (raise - 1, false),
        ] {
            let readpage = on_frame(number::READPAGE, BASE);
            let after = gauge_after(&mut door, readpage, window(BASE, frames, used), before);
            assert_eq!(after, gauge(used, frames, lamp));
            before = after;
        }
    }
}

#[test]
fn a_reset_leaves_a_fresh_gauge() {
    let mut door = common::open_door();
    let (used, before) = (window(BASE, FRAMES, 768), gauge(768, FRAMES, true));
    let after = gauge_after(&mut door, Request::default(), used, before);
    assert_eq!(after, Gauge::FRESH);
    assert_eq!(after.fill.to_bits(), 0, "the fill is +0");
}

/// Lent tables and roots are full of this, in use or not.
const ENTRY: u32 = MAPPED | 8 << 3;

/// Frame 9 and a block are taken: the block is in use and wiped, its neighbours
/// stay.
fn with_taken(lent: &Parts, block: usize, frame_word: u64) -> Parts {
    let mut after = lent.clone();
    after.frames[9] = frame_word;
    after.stock[0] |= 1 << block;
    after.entries[512 * block..][..512].fill(0);
    after.gauge.fill = 10.0 / 512.0;
    after
}

/// Whether the ask takes what it should: accepted, else 11 and nothing changed.
fn assert_takes(door: &mut Door, request: &Request, lent: &Parts, taken: Option<Parts>) {
    let asked = door.ask(lent, request).unwrap();
    let number = if taken.is_some() { 0 } else { 11 };
    assert_eq!(asked.answer, bare(number), "stock {:b}", lent.stock[0]);
    let after = taken.as_ref().unwrap_or(lent);
    assert!(asked.lent == *after, "stock {:b}", lent.stock[0]);
}

#[test]
fn the_lowest_unused_table_is_taken_and_wiped() {
    let mut door = common::open_door();
    let septadd = Request {
        frame: at(9),
        ..on_tree(number::SEPTADD, Gpa(255 << 39), Level(3))
    };
    for (in_use, lowest) in [
        (0b0000, Some(0)),
        (0b0001, Some(1)),
        (0b0111, Some(3)),
        (0b1111, None),
        (0b1101, Some(1)),
    ] {
        let mut lent = tree([1, 2, 3, 4]);
        lent.stock[0] = 1 << ROOT | in_use;
        lent.entries[..512 * ROOT].fill(ENTRY);
        let taken = lowest.map(|table| {
            let mut after = with_taken(&lent, table, frame(EPT, 0, table as u64, 0));
            after.domains[0] = scalars(32, 1, 1, 4, 9, 1);
            put_entry(&mut after, ROOT, 255, NL_MAPPED, 9);
            after
        });
        assert_takes(&mut door, &septadd, &lent, taken);
    }
}

#[test]
fn the_lowest_unused_record_is_taken_and_wiped() {
    let mut door = common::open_door();
    let create = Request {
        key: Key(34),
        ..on_frame(number::CREATE, at(9))
    };
    for (in_use, lowest) in [
        (0b00, Some(0)),
        (0b01, Some(1)),
        (0b10, Some(0)),
        (0b11, None),
    ] {
        let mut lent = tree([1, 2, 3, 4]);
        lent.domains
            .extend([scalars(33, 1, 1, 4, 8, 1), 1, 2, 3, 4]);
        lent.stock[0] = in_use << ROOT | 0b1111;
        lent.entries = vec![ENTRY; 512 * 6];
        let taken = lowest.map(|record| {
            let mut after = with_taken(&lent, ROOT + record, frame(TDR, 0, record as u64, 0));
            let words = [scalars(34, 0, 0, 0, 0, 1), 0, 0, 0, 0];
            after.domains[5 * record..][..5].copy_from_slice(&words);
            after
        });
        assert_takes(&mut door, &create, &lent, taken);
    }
}

#[test]
fn a_table_given_back_is_unused_and_left_as_it_is() {
    let mut lent = tree([1, 2, 3, 4]);
    lent.domains[0] = scalars(32, 3, 1, 4, 8, 1); // in teardown
    let mut after = lent.clone();
    after.frames[6] = 0;
    after.domains[0] = scalars(32, 3, 1, 4, 7, 1);
    after.stock[0] = 1 << ROOT | 0b101;
    after.gauge.fill = 8.0 / 512.0;
    let reclaim = on_frame(number::RECLAIM, at(6));
    let given_back = common::open_door().ask(&lent, &reclaim).unwrap();
    assert_eq!(given_back.answer, bare(0));
    assert!(given_back.lent == after);
}
