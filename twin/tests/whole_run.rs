//! The paper's whole run, and the script around it.

use std::io::{self, Read};

use reefnettle_twin::{parse, replay, Call};

fn run(script: impl AsRef<[u8]>) -> String {
    let mut output = Vec::new();
    replay(script.as_ref(), &mut output).unwrap();
    String::from_utf8(output).unwrap()
}

/// The answers' numbers.
fn answers(script: impl AsRef<[u8]>) -> Vec<u64> {
    let output = run(script);
    let lines = output.lines().filter(|line| line.starts_with("line"));
    lines
        .map(|line| line.split('\t').nth(3).unwrap().parse().unwrap())
        .collect()
}

#[test]
fn the_whole_run() {
    let script = "\
create hpa 1073741824 key 32
create hpa 1073745920 key 32
create hpa 1073741824 key 33
create hpa 262144 key 33
create pfn 262144 key 33
keyconfig hpa 1073741824
addcx hpa 1073741824 hpa 1073745920
readpage hpa 1073745920
init hpa 1073741824
";
    let expected = "\
bytes 4096 frames 1024
line 1 answer 0
line 2 answer 10
line 3 answer 2
line 4 answer 1
line 5 answer 15
line 6 answer 0
line 7 answer 0
line 8 answer 0 type 2 owner 1073741824
line 9 answer 4
used 2 lamp 0
";
    let script = script.replace(' ', "\t");
    let expected = expected.replace(' ', "\t");
    assert_eq!(run(&script), expected);
    // A last line may lack its LF.
    assert_eq!(run(script.trim_end()), expected);
}

#[test]
fn read_outs() {
    let script = "\
create hpa 1073741824 key 32
keyconfig hpa 1073741824
addcx hpa 1073741824 hpa 1073745920
addcx hpa 1073741824 hpa 1073750016
addcx hpa 1073741824 hpa 1073754112
addcx hpa 1073741824 hpa 1073758208
init hpa 1073741824
readentry hpa 1073741824 gpa 0 level 2
block hpa 1073741824 gpa 549755813888 level 3
readentry hpa 1073741824 gpa 0 level 3
septadd hpa 1073741824 gpa 0 level 3 hpa 1073762304
readentry hpa 1073741824 gpa 0 level 3
readpage hpa 1073762304
readpage hpa 1073741824
readpage hpa 1073766400
";
    let expected = "\
bytes 4096 frames 1024
line 1 answer 0
line 2 answer 0
line 3 answer 0
line 4 answer 0
line 5 answer 0
line 6 answer 0
line 7 answer 0
line 8 answer 6 level 3 state 0
line 9 answer 7 level 3 state 0
line 10 answer 0 level 3 state 0 hpa 0
line 11 answer 0
line 12 answer 0 level 3 state 1 hpa 1073762304
line 13 answer 0 type 3 owner 1073741824
line 14 answer 0 type 1 owner 0
line 15 answer 0 type 0 owner 0
used 6 lamp 0
";
    assert_eq!(run(script.replace(' ', "\t")), expected.replace(' ', "\t"));
}

#[test]
fn a_key_is_freed_after_the_write_back() {
    let script = "\
create hpa 1073741824 key 32
cachewb
keyfree hpa 1073741824
flushdone hpa 1073741824
keyfree hpa 1073741824
cachewb
create hpa 1073745920 key 32
keyfree hpa 1073741824
create hpa 1073745920 key 32
cachewb
";
    let script = script.replace(' ', "\t");
    assert_eq!(answers(&script), [0, 0, 3, 0, 3, 0, 10, 0, 0, 0]);
    // The name alone may be the last of the script, without its LF.
    assert_eq!(run(script.trim_end()), run(&script));
}

#[test]
fn an_empty_script() {
    assert_eq!(run(""), "bytes\t4096\tframes\t1024\nused\t0\tlamp\t0\n");
}

#[test]
fn every_name_is_read() {
    let lines = [
        ("create\thpa\t1\tkey\t2", Call::Create { page: 1, key: 2 }),
        ("keyconfig\thpa\t1", Call::KeyConfig { domain: 1 }),
        ("addcx\thpa\t1\thpa\t2", Call::AddCx { domain: 1, page: 2 }),
        ("init\thpa\t1", Call::Init { domain: 1 }),
        (
            "septadd\thpa\t1\tgpa\t2\tlevel\t3\thpa\t4",
            Call::SeptAdd {
                domain: 1,
                gpa: 2,
                level: 3,
                page: 4,
            },
        ),
        (
            "pageadd\thpa\t1\tgpa\t2\thpa\t3",
            Call::PageAdd {
                domain: 1,
                gpa: 2,
                page: 3,
            },
        ),
        ("finalize\thpa\t1", Call::Finalize { domain: 1 }),
        (
            "pageaug\thpa\t1\tgpa\t2\thpa\t3",
            Call::PageAug {
                domain: 1,
                gpa: 2,
                page: 3,
            },
        ),
        (
            "block\thpa\t1\tgpa\t2\tlevel\t3",
            Call::Block {
                domain: 1,
                gpa: 2,
                level: 3,
            },
        ),
        ("track\thpa\t1", Call::Track { domain: 1 }),
        (
            "unblock\thpa\t1\tgpa\t2\tlevel\t3",
            Call::Unblock {
                domain: 1,
                gpa: 2,
                level: 3,
            },
        ),
        (
            "pageremove\thpa\t1\tgpa\t2",
            Call::PageRemove { domain: 1, gpa: 2 },
        ),
        (
            "septremove\thpa\t1\tgpa\t2\tlevel\t3",
            Call::SeptRemove {
                domain: 1,
                gpa: 2,
                level: 3,
            },
        ),
        ("flushdone\thpa\t1", Call::FlushDone { domain: 1 }),
        ("cachewb", Call::CacheWb),
        ("keyfree\thpa\t1", Call::KeyFree { domain: 1 }),
        ("reclaim\thpa\t1", Call::Reclaim { page: 1 }),
        ("readpage\thpa\t1", Call::ReadPage { page: 1 }),
        (
            "readentry\thpa\t1\tgpa\t2\tlevel\t3",
            Call::ReadEntry {
                domain: 1,
                gpa: 2,
                level: 3,
            },
        ),
    ];
    for (line, call) in lines {
        assert_eq!(parse(line.as_bytes()), Some(call), "{line}");
        assert_eq!(call.line(), line.as_bytes());
    }
}

#[test]
fn lines_that_are_unreadable() {
    let lines: [&[u8]; 55] = [
        b"",
        b"\t",
        b" ",
        b"\r",
        b"\0",
        b"track",
        b"track\t",
        b"track\thpa",
        b"track\thpa\t",
        b"track\thpa\t1\t",
        b"track\thpa\t1\thpa\t1",
        b"track\thpa\t1\r",
        b"track\thpa\t1 ",
        b" track\thpa\t1",
        b"\ttrack\thpa\t1",
        b"track\t\thpa\t1",
        b"track\thpa\t\t1",
        b"track hpa 1",
        b"track\thpa 1",
        b"Track\thpa\t1",
        b"TRACK\thpa\t1",
        b"tracks\thpa\t1",
        b"trac\thpa\t1",
        b"track\tHPA\t1",
        b"track\tgpa\t1",
        b"track\tpfn\t1",
        b"track\t1",
        b"track\t1\thpa",
        b"track\thpa\t01",
        b"track\thpa\t00",
        b"track\thpa\t+1",
        b"track\thpa\t-1",
        b"track\thpa\t0x1",
        b"track\thpa\t1.0",
        b"track\thpa\t18446744073709551616",
        b"track\thpa\t99999999999999999999",
        b"track\thpa\t100000000000000000000",
        b"track\thpa\t1\0",
        b"track\thpa\t\xd9\xa3",
        b"track\thpa\t\xff",
        b"create\thpa\t1073741824",
        b"create\tkey\t32\thpa\t1073741824",
        b"reset",
        b"set-marks",
        b"cachewb\t",
        b"cachewb ",
        b"cachewb\r",
        b"cachewb\0",
        b"cachewb\t0",
        b"cachewb\thpa\t1073741824",
        b"\tcachewb",
        b" cachewb",
        b"cachew",
        b"cachewbs",
        b"CACHEWB",
    ];
    for line in lines {
        assert_eq!(parse(line), None, "{line:?}");
        let script = [line, b"\n"].concat();
        assert_eq!(answers(&script), [15], "{line:?}");
    }
}

#[test]
fn numbers_at_their_ends() {
    let track = |number: &str| parse(format!("track\thpa\t{number}").as_bytes());
    assert_eq!(track("0"), Some(Call::Track { domain: 0 }));
    assert_eq!(
        track("18446744073709551615"),
        Some(Call::Track { domain: u64::MAX })
    );
    assert_eq!(track("18446744073709551616"), None);
    assert_eq!(
        answers("track\thpa\t18446744073709551615\ntrack\thpa\t18446744073709551616\n"),
        [1, 15]
    );
}

#[test]
fn long_lines_are_one_line_each() {
    let good = "readpage\thpa\t1073741824";
    for length in [
        119, 120, 121, 122, 300, 16_383, 16_384, 16_385, 40_000, 100_000,
    ] {
        for fill in ["0", "\t", " "] {
            let long = good.to_string() + &fill.repeat(length - good.len());
            let script = format!("{good}\n{long}\n{good}\n{long}");
            assert_eq!(answers(&script), [0, 15, 0, 15], "{length}");
        }
    }
}

#[test]
fn what_counts_as_a_line() {
    let good = "readpage\thpa\t1073741824";
    assert_eq!(answers("\n"), [15]);
    assert_eq!(answers("\n\n"), [15, 15]);
    assert_eq!(answers(format!("{good}\n\n{good}")), [0, 15, 0]);
    assert_eq!(answers(format!("\n{good}\n")), [15, 0]);
    assert_eq!(answers(good), [0]);
    assert_eq!(answers("x"), [15]);
}

#[test]
fn unreadable_lines_are_numbered() {
    let output = run("\nx\nreadpage\thpa\t0\n");
    assert_eq!(
        output,
        "bytes\t4096\tframes\t1024\nline\t1\tanswer\t15\nline\t2\tanswer\t15\n\
         line\t3\tanswer\t1\nused\t0\tlamp\t0\n"
    );
}

#[test]
fn line_10001_ends_the_reading() {
    let good = "readpage\thpa\t1073741824\n";
    let create = "create\thpa\t1073741824\tkey\t32\n";
    let full = good.repeat(10_000);
    assert_eq!(answers(&full), [0; 10_000]);
    // No LF after line 10000.
    assert_eq!(answers(full.trim_end()), [0; 10_000]);
    // Line 10001 isn't run; what follows isn't read.
    for rest in [
        create.to_string(),
        create.repeat(3),
        "\n".into(),
        "x".into(),
    ] {
        let output = run(full.clone() + &rest);
        let mut last = output.lines().rev();
        assert_eq!(last.next(), Some("used\t0\tlamp\t0"), "{rest}");
        assert_eq!(last.next(), Some("line\t10001\tanswer\t15"), "{rest}");
        assert_eq!(
            last.next(),
            Some("line\t10000\tanswer\t0\ttype\t0\towner\t0")
        );
        assert_eq!(output.lines().count(), 10_003);
    }
}

/// Hands out its bytes in portions of one size, and an interruption now and
/// then.
struct Trickle<'a> {
    rest: &'a [u8],
    portion: usize,
    reads: usize,
}

impl Read for Trickle<'_> {
    fn read(&mut self, buffer: &mut [u8]) -> io::Result<usize> {
        self.reads += 1;
        if self.reads.is_multiple_of(5) {
            return Err(io::ErrorKind::Interrupted.into());
        }
        let count = self.portion.min(self.rest.len()).min(buffer.len());
        buffer[..count].copy_from_slice(&self.rest[..count]);
        self.rest = &self.rest[count..];
        Ok(count)
    }
}

#[test]
fn portions_of_the_input_make_no_difference() {
    let mut script = Vec::new();
    for length in [1, 50, 118, 119, 120, 121, 122, 200, 500] {
        script.extend_from_slice(b"readpage\thpa\t1073741824\n");
        script.extend(vec![b'7'; length]);
        script.push(b'\n');
    }
    script.extend_from_slice(b"create\thpa\t1073741824\tkey\t32");
    let whole = run(&script);
    for portion in [1, 2, 3, 7, 64, 120, 121, 122, 1000] {
        let input = Trickle {
            rest: &script,
            portion,
            reads: 0,
        };
        let mut output = Vec::new();
        replay(input, &mut output).unwrap();
        assert_eq!(String::from_utf8(output).unwrap(), whole, "{portion}");
    }
}
