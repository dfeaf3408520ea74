//! The last record and the last table at the largest sizes, the lowest unused
//! one wherever it may be there, and the sweep of all records. What is expected
//! was written from the paper.

mod common;
#[allow(dead_code)] // the tree of its example is for other tests
mod words;

use reefnettle_compare::{number, Answer, Door, Gauge, Gpa, Key, Level, Parts, Request};
use words::{at, frame, put_entry, scalars, BASE, EPT, NL_MAPPED, TDCX, TDR};

const FRAMES: usize = 16384;
const RECORDS: usize = 64;
const TABLES: usize = 256;

/// The domain in frame 16383, and the frame that its table comes to.
const DOMAIN: u64 = 16383;
const ADDED: u64 = 16378;

/// A fresh window of so many records and tables, with the stock in use as said:
/// tables are empty, records in teardown, so that their key is free.
fn stocked(records: usize, tables: usize, in_use: impl Fn(usize) -> bool) -> Parts {
    let blocks = tables + records;
    let mut lent = Parts {
        base: BASE,
        frames: vec![0; FRAMES],
        domains: [scalars(32, 3, 0, 0, 0, 1), 0, 0, 0, 0].repeat(records),
        stock: vec![0; (blocks + 63) / 64],
        entries: vec![0; 512 * blocks],
        gauge: Gauge::FRESH,
    };
    for block in (0..blocks).filter(|&block| in_use(block)) {
        lent.stock[block / 64] |= 1 << (block % 64);
    }
    lent
}

/// The same with a live domain in frame 0 and record 0, whose control pages are
/// frames 1 to 4.
fn with_domain(mut lent: Parts) -> Parts {
    lent.frames[0] = frame(TDR, 0, 0, 0);
    lent.frames[1..5].fill(frame(TDCX, 0, 0, 0));
    lent.domains[..5].copy_from_slice(&[scalars(32, 1, 1, 4, 4, 1), 1, 2, 3, 4]);
    lent
}

fn create(frame: u64) -> Request {
    Request {
        call: number::CREATE,
        frame: at(frame),
        key: Key(95),
        ..Request::default()
    }
}

fn of_domain(call: u64, frame: u64) -> Request {
    Request {
        call,
        domain: at(DOMAIN),
        gpa: Gpa(255 << 39),
        level: Level(3),
        frame: at(frame),
        ..Request::default()
    }
}

/// The words after a call that is accepted.
fn accepted(door: &mut Door, lent: &Parts, request: Request) -> Parts {
    let asked = door.ask(lent, &request).unwrap();
    assert_eq!(asked.answer, Answer::default(), "{request:?}");
    asked.lent
}

fn calls(door: &mut Door, lent: Parts, calls: &[(u64, u64)]) -> Parts {
    calls.iter().fold(lent, |lent, &(call, frame)| {
        accepted(door, &lent, of_domain(call, frame))
    })
}

/// The window in which record 63 and table 255 alone are left.
fn all_but_the_last() -> Parts {
    let last = [TABLES - 1, TABLES + RECORDS - 1];
    stocked(RECORDS, TABLES, |block| !last.contains(&block))
}

/// The domain takes record 63, and then table 255 below entry 255 of its root.
fn last_ones_taken(door: &mut Door) -> Parts {
    let created = accepted(door, &all_but_the_last(), create(DOMAIN));
    let built = [
        (number::KEYCONFIG, 0),
        (number::ADDCX, 16382),
        (number::ADDCX, 16381),
        (number::ADDCX, 16380),
        (number::ADDCX, 16379),
        (number::INIT, 0),
        (number::SEPTADD, ADDED),
    ];
    calls(door, created, &built)
}

#[test]
fn the_last_record_and_the_last_table_are_taken() {
    let taken = last_ones_taken(&mut common::open_door());
    let mut expected = all_but_the_last();
    expected.frames[16379..16383].fill(frame(TDCX, DOMAIN, 0, 0));
    expected.frames[DOMAIN as usize] = frame(TDR, 0, 63, 0);
    expected.frames[ADDED as usize] = frame(EPT, DOMAIN, 255, 0);
    let record = [scalars(95, 1, 1, 4, 5, 1), 16382, 16381, 16380, 16379];
    expected.domains[5 * 63..].copy_from_slice(&record);
    expected.stock = vec![u64::MAX; 5];
    put_entry(&mut expected, TABLES + 63, 255, NL_MAPPED, ADDED as u32);
    expected.gauge.fill = 6.0 / 16384.0;
    assert!(taken == expected);
}

#[test]
fn none_is_left_behind_the_last() {
    let mut door = common::open_door();
    let taken = last_ones_taken(&mut door);
    let septadd = Request {
        gpa: Gpa(0),
        ..of_domain(number::SEPTADD, 0)
    };
    let key_33 = Request {
        key: Key(33),
        ..create(0)
    };
    for request in [septadd, key_33] {
        let asked = door.ask(&taken, &request).unwrap();
        assert_eq!(asked.answer.number, 11, "{request:?}");
        assert!(asked.lent == taken);
    }
}

#[test]
fn the_last_table_is_given_back_and_taken_again() {
    let mut door = common::open_door();
    let taken = last_ones_taken(&mut door);
    let removed = [
        (number::BLOCK, 0),
        (number::TRACK, 0),
        (number::SEPTREMOVE, 0),
    ];
    let removed = calls(&mut door, taken.clone(), &removed);
    let mut unused = vec![u64::MAX; 5];
    unused[3] >>= 1;
    assert_eq!(removed.stock, unused);
    let again = calls(&mut door, removed, &[(number::SEPTADD, ADDED)]);
    assert_eq!(again.stock, taken.stock);
    assert_eq!(again.frames, taken.frames);
}

#[test]
fn the_last_record_is_given_back_with_all_frames() {
    let mut door = common::open_door();
    let taken = last_ones_taken(&mut door);
    let mut teardown = vec![
        (number::FLUSHDONE, 0),
        (number::CACHEWB, 0),
        (number::KEYFREE, 0),
    ];
    teardown.extend((ADDED..=DOMAIN).map(|frame| (number::RECLAIM, frame)));
    let ended = calls(&mut door, taken, &teardown);
    let before = all_but_the_last();
    assert_eq!(ended.stock, before.stock);
    assert_eq!(ended.frames, before.frames);
    assert_eq!(ended.gauge, before.gauge);
}

#[test]
fn key_95_passes_and_96_does_not() {
    let mut door = common::open_door();
    for (key, answer) in [(95, 0), (96, 1)] {
        let request = Request {
            key: Key(key),
            ..create(DOMAIN)
        };
        let asked = door.ask(&all_but_the_last(), &request).unwrap();
        assert_eq!(asked.answer.number, answer, "key {key}");
    }
}

/// Records, tables, and what a reset answers.
const SIZES: [(usize, usize, u64); 4] = [
    (RECORDS, TABLES, 0),
    (RECORDS + 1, TABLES, 13),
    (RECORDS, TABLES + 1, 13),
    (1, 4, 0),
];

#[test]
fn a_reset_takes_records_and_tables_within_their_limits() {
    let mut door = common::open_door();
    for (records, tables, answer) in SIZES {
        let lent = stocked(records, tables, |_| true);
        let reset = door.ask(&lent, &Request::default()).unwrap();
        let number = reset.answer.number;
        assert_eq!(number, answer, "records {records}, tables {tables}");
    }
}

/// The number in the word of frame 9, once it was taken; none at answer 11.
fn number_taken(door: &mut Door, request: &Request, lent: &Parts) -> Option<usize> {
    let asked = door.ask(lent, request).unwrap();
    match asked.answer.number {
        0 => Some((asked.lent.frames[9] >> 17 & 0xff) as usize),
        number => {
            assert_eq!(number, 11);
            assert!(asked.lent == *lent);
            None
        }
    }
}

/// Each place for the lowest unused one, nothing behind it in use and all of it.
/// The records begin with a word of the stock, or in the midst of one.
#[test]
fn the_lowest_unused_one_is_found_in_a_full_word_and_across_words() {
    let mut door = common::open_door();
    let septadd = Request {
        domain: BASE,
        ..of_domain(number::SEPTADD, 9)
    };
    for (records, tables) in [(RECORDS, TABLES), (RECORDS, TABLES - 4)] {
        for all_behind in [false, true] {
            for lowest in 0..=tables {
                let lent = stocked(records, tables, |block| {
                    block == tables || block < lowest || all_behind && block > lowest
                });
                let found = number_taken(&mut door, &septadd, &with_domain(lent));
                assert_eq!(found, (lowest < tables).then_some(lowest));
            }
            for lowest in 1..=records {
                let lent = stocked(records, tables, |block| {
                    block < tables + lowest || all_behind && block > tables + lowest
                });
                let found = number_taken(&mut door, &create(9), &with_domain(lent));
                assert_eq!(found, (lowest < records).then_some(lowest));
            }
        }
    }
}

/// Every record is blocked; in use are all, each second, each third, the first
/// and the last, or the first alone. The records begin with a word of the stock,
/// or in the midst of one.
#[test]
fn all_records_in_use_are_swept_and_no_others() {
    let mut door = common::open_door();
    let cachewb = Request {
        call: number::CACHEWB,
        ..Request::default()
    };
    let [blocked, written_back] = [2, 4].map(|life| scalars(95, life, 2, 0, 7, 3));
    for tables in [TABLES, TABLES - 4] {
        for step in [1, 2, 3, RECORDS - 1, RECORDS] {
            let in_use = |record: usize| record % step == 0;
            let mut lent = stocked(RECORDS, tables, |block| {
                block < tables || in_use(block - tables)
            });
            lent.domains = [blocked, 0, 0, 0, 0].repeat(RECORDS);
            let mut expected = lent.clone();
            for record in (0..RECORDS).filter(|&record| in_use(record)) {
                expected.domains[5 * record] = written_back;
            }
            let swept = accepted(&mut door, &lent, cachewb);
            assert!(swept == expected, "tables {tables}, step {step}");
            let again = accepted(&mut door, &swept, cachewb);
            assert!(again == expected, "tables {tables}, step {step}");
        }
    }
}
