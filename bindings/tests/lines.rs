//! Lines of the script, readable and not.

use reefnettle::raw::number;
use reefnettle::{Call, Hpa, Refusal};

/// Reads a line that has a blank for each tab.
fn read(line: &str) -> Result<Call, Refusal> {
    line.replace(' ', "\t").parse()
}

/// A line for each name, and the call that it is.
const LINES: [(&str, &str); 19] = [
    (
        "create hpa 2 key 5",
        "Create { frame: Hpa(2), key: Key(5) }",
    ),
    ("keyconfig hpa 1", "KeyConfig { domain: Hpa(1) }"),
    (
        "addcx hpa 1 hpa 2",
        "AddCx { domain: Hpa(1), frame: Hpa(2) }",
    ),
    ("init hpa 1", "Init { domain: Hpa(1) }"),
    (
        "septadd hpa 1 gpa 3 level 4 hpa 2",
        "SeptAdd { domain: Hpa(1), gpa: Gpa(3), level: Level(4), frame: Hpa(2) }",
    ),
    (
        "pageadd hpa 1 gpa 3 hpa 2",
        "PageAdd { domain: Hpa(1), gpa: Gpa(3), frame: Hpa(2) }",
    ),
    ("finalize hpa 1", "Finalize { domain: Hpa(1) }"),
    (
        "pageaug hpa 1 gpa 3 hpa 2",
        "PageAug { domain: Hpa(1), gpa: Gpa(3), frame: Hpa(2) }",
    ),
    (
        "block hpa 1 gpa 3 level 4",
        "Block { domain: Hpa(1), gpa: Gpa(3), level: Level(4) }",
    ),
    ("track hpa 1", "Track { domain: Hpa(1) }"),
    (
        "unblock hpa 1 gpa 3 level 4",
        "Unblock { domain: Hpa(1), gpa: Gpa(3), level: Level(4) }",
    ),
    (
        "pageremove hpa 1 gpa 3",
        "PageRemove { domain: Hpa(1), gpa: Gpa(3) }",
    ),
    (
        "septremove hpa 1 gpa 3 level 4",
        "SeptRemove { domain: Hpa(1), gpa: Gpa(3), level: Level(4) }",
    ),
    ("flushdone hpa 1", "FlushDone { domain: Hpa(1) }"),
    ("cachewb", "CacheWb"),
    ("keyfree hpa 1", "KeyFree { domain: Hpa(1) }"),
    ("reclaim hpa 2", "Reclaim { frame: Hpa(2) }"),
    ("readpage hpa 2", "ReadPage { frame: Hpa(2) }"),
    (
        "readentry hpa 1 gpa 3 level 4",
        "ReadEntry { domain: Hpa(1), gpa: Gpa(3), level: Level(4) }",
    ),
];

#[test]
fn every_name_is_read() {
    for (line, call) in LINES {
        assert_eq!(format!("{:?}", read(line).unwrap()), call);
    }
}

#[test]
fn every_call_of_the_script_has_a_line() {
    let calls = number::CREATE..=number::CACHEWB;
    assert_eq!(LINES.len(), calls.count());
}

#[test]
fn every_call_is_written_as_its_line() {
    for (line, _) in LINES {
        let call = read(line).unwrap();
        let written = call.to_string();
        assert_eq!(written, line.replace(' ', "\t"));
        assert_eq!(written.parse(), Ok(call));
    }
}

#[test]
fn what_scripts_lack_is_written_but_not_read() {
    let marks = Call::SetMarks {
        raise: 0.75,
        clear: 0.5,
    };
    for (call, line) in [
        (Call::Reset, "reset"),
        (marks, "marks\traise\t0.75\tclear\t0.5"),
    ] {
        assert_eq!(call.to_string(), line);
        assert_eq!(line.parse::<Call>(), Err(Refusal::Unreadable));
    }
}

#[test]
fn other_lines_are_not() {
    let frame = Hpa(u64::MAX);
    assert_eq!(
        read("readpage hpa 18446744073709551615"),
        Ok(Call::ReadPage { frame })
    );
    for line in [
        "",
        "reset",
        "readpage",
        "readpage hpa",
        "readpage 0",
        "readpage hpa 18446744073709551616",
        "readpage hpa 00",
        "readpage hpa 01",
        "readpage hpa +1",
        "readpage hpa -1",
        "readpage hpa 0x1",
        "readpage hpa 1\r",
        "readpage hpa ",
        "readpage  hpa 1",
        "readpage hpa 1 ",
        "readpage gpa 1",
        "readpage hpa 1 hpa 1",
        "Readpage hpa 1",
        "readpage hpa ١",
        " readpage hpa 1",
        "cachewb ",
        "cachewb 0",
        "cachewb hpa",
        "cachewb hpa 1",
        "cachewb\r",
        " cachewb",
        "Cachewb",
        "cachewbs",
    ] {
        assert_eq!(read(line), Err(Refusal::Unreadable), "{line:?}");
    }
}

#[test]
fn the_longest_readable_line_is_within_the_limit() {
    let most = u64::MAX;
    let line = format!("septadd hpa {most} gpa {most} level {most} hpa {most}");
    assert_eq!(line.len(), 109);
    assert!(read(&line).is_ok());
}
