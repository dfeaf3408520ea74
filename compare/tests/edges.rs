//! Cases on the edge of answer 13 and of the walk, on a small lent state as it
//! is and with one place changed. What is expected was written from the paper.

mod common;
mod words;

use reefnettle_compare::{number, Answer, Gpa, Hpa, Level, Parts, Request};
use words::{at, frame, put_entry, scalars, EPT, MAPPED, NL_MAPPED, REG, ROOT, TDCX, TDR};

// A frame type and states that no word of the small state has.
const NDA: u64 = 0;
const FREE: u32 = 0;
const NL_BLOCKED: u32 = 4;
const PENDING_BLOCKED: u32 = 6;

/// Entry 1 of the root, 2, 3 and 4 of the tables below.
const PAGE: Gpa = Gpa(1 << 39 | 2 << 30 | 3 << 21 | 4 << 12);

fn put_page(lent: &mut Parts, listed: u64, page: u64) {
    lent.domains[0] = scalars(32, 1, 1, listed, 8, 1);
    lent.domains[4] = page;
}

fn small() -> Parts {
    words::tree([1, 2, 3, 4])
}

/// Looks at every lent word and reads the TDR.
fn read_tdr() -> Request {
    Request {
        call: number::READPAGE,
        frame: at(0),
        ..Request::default()
    }
}

/// What is changed, how, and whether the state is still in range.
type Case = (&'static str, fn(&mut Parts), bool);

const CASES: [Case; 44] = [
    ("nothing", |_| {}, true),
    ("base", |p| p.base.0 += 4096, false),
    // frames: an epoch, a number, an owner that the type lacks or that is too large
    ("TDR, epoch 1", |p| p.frames[0] = frame(TDR, 0, 0, 1), false),
    (
        "TDR, record 1",
        |p| p.frames[0] = frame(TDR, 0, 1, 0),
        false,
    ),
    ("TDR, owner 1", |p| p.frames[0] = frame(TDR, 1, 0, 0), false),
    ("owner 511", |p| p.frames[1] = frame(TDCX, 511, 0, 0), true),
    ("owner 512", |p| p.frames[1] = frame(TDCX, 512, 0, 0), false),
    ("table 3", |p| p.frames[7] = frame(EPT, 0, 3, 0), true),
    ("table 4", |p| p.frames[7] = frame(EPT, 0, 4, 0), false),
    (
        "REG, number 1",
        |p| p.frames[8] = frame(REG, 0, 1, 0),
        false,
    ),
    (
        "last epoch",
        |p| p.frames[8] = frame(REG, 0, 0, 4294967295),
        true,
    ),
    (
        "frame's epoch 2^32",
        |p| p.frames[8] = frame(REG, 0, 0, 4294967296),
        false,
    ),
    (
        "NDA, epoch 1",
        |p| p.frames[511] = frame(NDA, 0, 0, 1),
        false,
    ),
    ("type 5", |p| p.frames[511] = frame(5, 0, 0, 0), false),
    ("bit 63 of frame 0", |p| p.frames[0] ^= 1 << 63, false),
    ("bit 63 of frame 511", |p| p.frames[511] ^= 1 << 63, false),
    // the record's scalars
    ("bit 63 of record 0", |p| p.domains[0] ^= 1 << 63, false),
    (
        "key 32",
        |p| p.domains[0] = scalars(32, 1, 1, 4, 8, 1),
        true,
    ),
    (
        "key 96",
        |p| p.domains[0] = scalars(96, 1, 1, 4, 8, 1),
        false,
    ),
    (
        "life 4",
        |p| p.domains[0] = scalars(95, 4, 1, 4, 8, 1),
        true,
    ),
    (
        "life 5",
        |p| p.domains[0] = scalars(95, 5, 1, 4, 8, 1),
        false,
    ),
    ("op 3", |p| p.domains[0] = scalars(95, 3, 3, 4, 8, 1), false),
    (
        "listed 5",
        |p| p.domains[0] = scalars(95, 3, 2, 5, 8, 1),
        false,
    ),
    (
        "children 513",
        |p| p.domains[0] = scalars(95, 3, 2, 4, 513, 1),
        false,
    ),
    (
        "record's epoch 2^32",
        |p| p.domains[0] = scalars(95, 3, 2, 4, 512, 4294967296),
        false,
    ),
    (
        "record's epoch 0",
        |p| p.domains[0] = scalars(95, 3, 2, 4, 512, 0),
        false,
    ),
    (
        "most of all",
        |p| p.domains[0] = scalars(95, 3, 2, 4, 512, 4294967295),
        true,
    ),
    // the last control page, listed or not
    ("page 0", |p| put_page(p, 4, 0), true),
    ("page 511", |p| put_page(p, 4, 511), true),
    ("page 512", |p| put_page(p, 4, 512), false),
    ("unlisted page 0", |p| put_page(p, 3, 0), true),
    ("unlisted page 4", |p| put_page(p, 3, 4), false),
    // entries: table 0 and the root are in use, table 3 isn't
    ("FREE with a frame", |p| put_entry(p, 0, 0, FREE, 1), false),
    ("the same, last", |p| put_entry(p, 0, 511, FREE, 1), false),
    (
        "the same, root",
        |p| put_entry(p, ROOT, 511, FREE, 1),
        false,
    ),
    ("the same, unused", |p| put_entry(p, 3, 511, FREE, 1), true),
    ("state 7, unused", |p| put_entry(p, 3, 0, 7, 512), true),
    (
        "state 6, frame 511",
        |p| put_entry(p, 0, 511, PENDING_BLOCKED, 511),
        true,
    ),
    (
        "state 6, frame 512",
        |p| put_entry(p, 0, 511, PENDING_BLOCKED, 512),
        false,
    ),
    ("state 7", |p| put_entry(p, 0, 511, 7, 1), false),
    // the stock: blocks 0 to 4 have a bit, the others are spare
    ("table 3 in use", |p| p.stock[0] |= 1 << 3, true),
    ("bit 5 of the stock", |p| p.stock[0] |= 1 << 5, false),
    ("bit 63 of the stock", |p| p.stock[0] |= 1 << 63, false),
    ("a word more of stock", |p| p.stock.push(0), false),
];

#[test]
fn answer_13_is_given_exactly_out_of_range() {
    let mut door = common::open_door();
    for (what, change, in_range) in CASES {
        let mut lent = small();
        change(&mut lent);
        let answer = door.ask(&lent, &read_tdr()).unwrap().answer;
        assert_eq!(answer.number, if in_range { 0 } else { 13 }, "{what}");
    }
}

#[test]
fn the_fill_counts_the_frames_that_arent_nda() {
    let mut door = common::open_door();
    let mut used = |lent: Parts| {
        let read = door.ask(&lent, &read_tdr()).unwrap();
        assert_eq!(read.answer.number, 0);
        read.lent.gauge.fill * 512.0
    };
    assert_eq!(used(small()), 9.0);
    let mut lent = small();
    lent.frames[8] = frame(NDA, 0, 0, 0);
    assert_eq!(used(lent), 8.0);
}

/// What an entry reads: accepted, with its level, state and frame.
fn arrives(level: u64, state: u32, frame: u64) -> Answer {
    Answer {
        level: Level(level),
        state: state.into(),
        hpa: at(frame),
        ..Answer::default()
    }
}

/// A walk that stops above its level: 6, with the level and state there.
fn stops(level: u64, state: u32) -> Answer {
    Answer {
        number: 6,
        level: Level(level),
        state: state.into(),
        ..Answer::default()
    }
}

/// A frame on the way that isn't the domain's table: 14.
fn foreign() -> Answer {
    Answer {
        number: 14,
        ..Answer::default()
    }
}

/// Reads the entry on the page's way at each level, from the root's down.
fn walks(change: fn(&mut Parts), answers: [Answer; 4]) {
    let mut door = common::open_door();
    for (level, answer) in [3, 2, 1, 0].into_iter().zip(answers) {
        let mut lent = small();
        change(&mut lent);
        let low = 12 + 9 * level;
        let request = Request {
            call: number::READENTRY,
            domain: at(0),
            gpa: Gpa(PAGE.0 >> low << low),
            level: Level(level),
            ..Request::default()
        };
        let read = door.ask(&lent, &request).unwrap().answer;
        assert_eq!(read, answer, "level {level}");
    }
}

#[test]
fn a_walk_goes_down_to_the_page() {
    walks(
        |_| {},
        [
            arrives(3, NL_MAPPED, 5),
            arrives(2, NL_MAPPED, 6),
            arrives(1, NL_MAPPED, 7),
            arrives(0, MAPPED, 8),
        ],
    );
}

#[test]
fn a_walk_stops_at_what_leads_to_no_table() {
    let root = arrives(3, NL_MAPPED, 5);
    let none = Answer {
        hpa: Hpa(0),
        ..arrives(3, FREE, 0)
    };
    walks(
        |p| put_entry(p, ROOT, 1, FREE, 0),
        [none, stops(3, FREE), stops(3, FREE), stops(3, FREE)],
    );
    walks(
        |p| put_entry(p, 0, 2, NL_BLOCKED, 6),
        [
            root,
            arrives(2, NL_BLOCKED, 6),
            stops(2, NL_BLOCKED),
            stops(2, NL_BLOCKED),
        ],
    );
    walks(
        |p| put_entry(p, 1, 3, MAPPED, 8),
        [
            root,
            arrives(2, NL_MAPPED, 6),
            arrives(1, MAPPED, 8),
            stops(1, MAPPED),
        ],
    );
}

#[test]
fn a_walk_follows_no_table_that_isnt_the_domains() {
    let changes: [fn(&mut Parts); 3] = [
        |p| p.frames[6] = frame(EPT, 1, 1, 0), // owned by a control page
        |p| p.frames[6] = frame(REG, 0, 0, 0), // a page
        |p| p.stock[0] ^= 1 << 1,              // its table unused
    ];
    for change in changes {
        walks(
            change,
            [
                arrives(3, NL_MAPPED, 5),
                arrives(2, NL_MAPPED, 6),
                foreign(),
                foreign(),
            ],
        );
    }
}
