//! Words and numbers that C has too are those of the header.

use std::fmt::Display;
use std::fs;
use std::path::Path;

use reefnettle::{
    EntryState, FrameType, Gpa, Key, Level, Lifecycle, OpState, Refusal, Sizes, Window,
    CONTROL_PAGES, FRAME_BYTES, RECORD_WORDS, TABLE_ENTRIES, VERSION,
};

fn header() -> String {
    // Cargo runs tests in the package's folder.
    let repository = Path::new("..");
    fs::read_to_string(repository.join("include/reefnettle.h")).unwrap()
}

/// What stands between two texts, the first of them where it first stands.
fn between<'a>(text: &'a str, begin: &str, end: &str) -> &'a str {
    let (_, rest) = text.split_once(begin).expect(begin);
    rest.split_once(end).expect(end).0
}

/// The strings of a C array. Strings with no comma between them are one.
fn strings(array: &str) -> Vec<String> {
    let mut strings = vec![String::new()];
    // The text is by turns outside and inside of quotes. No sentence has a quote.
    for (turn, text) in array.split('"').enumerate() {
        if turn % 2 == 1 {
            strings.last_mut().unwrap().push_str(text);
        } else if text.contains(',') {
            strings.push(String::new());
        }
    }
    strings
}

const REFUSALS: [Refusal; 15] = [
    Refusal::Operand,
    Refusal::WrongFrame,
    Refusal::Lifecycle,
    Refusal::ControlPages,
    Refusal::OpState,
    Refusal::WalkStopped {
        level: Level(2),
        state: EntryState::Free,
    },
    Refusal::WrongState {
        level: Level(0),
        state: EntryState::Mapped,
    },
    Refusal::NotTracked,
    Refusal::PagesRemain,
    Refusal::KeyTaken,
    Refusal::NoStock,
    Refusal::EpochLimit,
    Refusal::OutOfRange,
    Refusal::Contradiction,
    Refusal::Unreadable,
];

#[test]
fn refusals_have_the_headers_sentences() {
    let header = header();
    let function = between(&header, "*reefnettle_answer_text(", "\n}");
    let sentences = strings(between(function, "{\n        ", "};"));
    assert_eq!(sentences[0], "accepted");
    assert_eq!(sentences.len(), 1 + REFUSALS.len());
    for (refusal, (number, sentence)) in REFUSALS.iter().zip((0..).zip(sentences).skip(1)) {
        assert_eq!(refusal.number(), number);
        assert_eq!(refusal.sentence(), sentence);
    }
}

#[test]
fn refusals_are_displayed_with_what_is_read_out() {
    let texts = REFUSALS.map(|refusal| refusal.to_string());
    assert_eq!(texts[2], "the domain's lifecycle is wrong for the call");
    assert_eq!(
        texts[6],
        "the entry's state is wrong for the call, at level 0 state 2"
    );
}

/// The number that the header defines a name as.
fn defined(header: &str, name: &str) -> u64 {
    let text = between(header, &format!("#define REEFNETTLE_{name} "), "\n");
    let text = text.split(' ').next().unwrap();
    match text.strip_prefix("UINT64_C(0x") {
        Some(hexadecimal) => u64::from_str_radix(hexadecimal.trim_end_matches(')'), 16).unwrap(),
        None => text.parse().unwrap(),
    }
}

#[test]
fn limits_are_the_headers() {
    let header = header();
    let (least, most) = (Sizes::LEAST, Sizes::MOST);
    for (name, number) in [
        ("FRAMES_LEAST", least.frames),
        ("FRAMES_MOST", most.frames),
        ("RECORDS_LEAST", least.records),
        ("RECORDS_MOST", most.records),
        ("TABLES_LEAST", least.tables),
        ("TABLES_MOST", most.tables),
        ("TABLE_ENTRIES", TABLE_ENTRIES),
        ("RECORD_WORDS", RECORD_WORDS),
        ("CONTROL_PAGES", CONTROL_PAGES),
        ("LEVEL_MOST", Level::MOST.0),
    ] {
        assert_eq!(defined(&header, name), number as u64, "{name}");
    }
    for (name, number) in [
        ("VERSION", VERSION),
        ("FRAME_BYTES", FRAME_BYTES),
        ("BASE_BYTES_STEP", Window::BASE_LEAST.0),
        ("BASE_BYTES_LEAST", Window::BASE_LEAST.0),
        ("BASE_BYTES_MOST", Window::BASE_MOST.0),
        ("KEY_LEAST", Key::LEAST.0),
        ("KEY_MOST", Key::MOST.0),
        ("GPA_BYTES_END", Gpa::END.0),
    ] {
        assert_eq!(defined(&header, name), number, "{name}");
    }
}

/// Wants each case named in the header with the same number, and no more there.
fn named_in_the_header<T: Display>(group: &str, of_number: fn(u64) -> Option<T>) {
    let header = header();
    let mut count = 0;
    while let Some(case) = of_number(count) {
        let name = case.to_string().replace(' ', "_").to_uppercase();
        let line = format!("\n    REEFNETTLE_{group}_{name} = {count}");
        assert!(header.contains(&line), "{line}");
        count += 1;
    }
    let next = format!("\n    REEFNETTLE_{group}_");
    assert_eq!(header.matches(&next).count() as u64, count, "{group}");
}

#[test]
fn types_and_states_are_the_headers() {
    named_in_the_header("TYPE", FrameType::of_number);
    named_in_the_header("STATE", EntryState::of_number);
    named_in_the_header("LIFECYCLE", Lifecycle::of_number);
    named_in_the_header("OP_STATE", OpState::of_number);
}
