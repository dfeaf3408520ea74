//! The example manager, on plans good and bad and on metal that agrees, refuses
//! or breaks.

mod common;

#[allow(dead_code)]
#[path = "../examples/manager.rs"]
mod manager;

use std::env;
use std::fs::OpenOptions;
use std::io::{self, Write};
use std::path::{Path, PathBuf};
use std::process::{Command, Output, Stdio};

use manager::{conclude, manage, Answer, Complaint, Metal, StandIn};
use reefnettle::{Call, FrameType, Key, Model, Page, Parts, Record, Reply, Sizes, Window};

/// The manager, as a program. A whole `cargo test` builds the examples first, in
/// the folder beside the tests'; `tools/x86` runs it on any processor.
fn program() -> Command {
    // Under an emulator, `current_exe` is another's.
    let test = PathBuf::from(env::args_os().next().unwrap());
    let profile = test.parent().and_then(Path::parent).unwrap();
    let mut command = Command::new("../tools/x86");
    command.arg(profile.join("examples").join("manager"));
    command
}

/// Runs the manager on a plan that has a blank for each tab.
fn run(plan: &str) -> Output {
    let mut child = program()
        .stdin(Stdio::piped())
        .stdout(Stdio::piped())
        .stderr(Stdio::piped())
        .spawn()
        .unwrap();
    let script = plan.replace(' ', "\t");
    let mut stdin = child.stdin.take().unwrap();
    stdin.write_all(script.as_bytes()).unwrap();
    drop(stdin);
    child.wait_with_output().unwrap()
}

/// Runs the manager with these words.
fn run_with(words: &[&str]) -> Output {
    let mut command = program();
    command.args(words).stdin(Stdio::null()).output().unwrap()
}

fn text(bytes: &[u8]) -> &str {
    std::str::from_utf8(bytes).unwrap()
}

/// Wants the plan refused at a line, with an answer, before any metal.
fn refused(plan: &str, line: usize, answer: u64) {
    let output = run(plan);
    assert_eq!(output.status.code(), Some(1), "{plan}");
    assert_eq!(text(&output.stdout), "", "{plan}");
    let why = format!("manager: line {line} answer {answer}: ");
    assert!(text(&output.stderr).starts_with(&why), "{plan}");
    assert!(text(&output.stderr).ends_with("; no metal was touched\n"));
}

#[test]
fn a_good_plan_goes_on_to_metal() {
    let output = run("create hpa 1073741824 key 32\nkeyconfig hpa 1073741824");
    assert_eq!(output.status.code(), Some(0));
    assert_eq!(
        text(&output.stdout),
        "line\t1\tdone\tcreate\thpa\t1073741824\tkey\t32\n\
         line\t2\tdone\tkeyconfig\thpa\t1073741824\n"
    );
    assert_eq!(text(&output.stderr), "");
}

#[test]
fn an_empty_plan_is_carried_out() {
    let output = run("");
    assert_eq!(output.status.code(), Some(0));
    assert_eq!(text(&output.stdout), "");
}

#[test]
fn a_frame_number_for_an_address_touches_no_metal() {
    // Frame 262145 of bytes 4096 each lies at hpa 1073745920.
    let good = "create hpa 1073741824 key 32\ncreate hpa 1073745920 key 33\n";
    assert_eq!(run(good).status.code(), Some(0));
    let slip = "create hpa 1073741824 key 32\ncreate hpa 262145 key 33\n";
    refused(slip, 2, 1);
}

#[test]
fn an_unreadable_line_touches_no_metal() {
    refused("create hpa 1073741824 key 32\n\n", 2, 15);
    refused("create hpa 1073741824 key 32\r\n", 1, 15);
    refused("create pfn 262144 key 32\n", 1, 15);
}

#[test]
fn the_first_line_at_fault_is_named() {
    let plan = "create hpa 1073741824 key 31\nno call\n";
    refused(plan, 1, 1);
}

#[test]
fn a_plan_too_long_touches_no_metal() {
    let line = "readpage hpa 1073741824\n";
    let most = run(&line.repeat(10_000));
    assert_eq!(most.status.code(), Some(0));
    refused(&line.repeat(10_001), 10_001, 15);
}

#[test]
fn a_plan_that_is_not_there_is_no_plan() {
    for (words, why) in [
        (["no such file"].as_slice(), "manager: no such file: "),
        (&["."], "manager: Is a directory"),
        (&["a", "b"], "manager: usage: manager [PLAN]"),
    ] {
        let output = run_with(words);
        assert_eq!(output.status.code(), Some(2), "{words:?}");
        assert_eq!(text(&output.stdout), "");
        assert!(text(&output.stderr).starts_with(why), "{words:?}");
        assert!(text(&output.stderr).ends_with("; no metal was touched\n"));
    }
}

#[test]
fn what_was_done_is_told_even_if_it_cannot_be_written() {
    let managed = manage(&mut fresh(), plan(&PLAN).as_bytes());
    let full = OpenOptions::new().write(true).open("/dev/full").unwrap();
    let Complaint { status, why } = conclude(managed, full).unwrap_err();
    assert_eq!(status, 5);
    assert!(
        why.ends_with(&format!("; what was done:\n{}", told("done", 1..=4))),
        "{why}"
    );
}

/// A machine without domains.
fn fresh() -> StandIn {
    StandIn(Model::fresh(Window::BASE_LEAST, Sizes::PROGRAM).unwrap())
}

const PLAN: [&str; 4] = [
    "create hpa 1073741824 key 32",
    "keyconfig hpa 1073741824",
    "addcx hpa 1073741824 hpa 1073745920",
    "readpage hpa 1073745920",
];

fn plan(lines: &[&str]) -> String {
    lines.join("\n").replace(' ', "\t")
}

/// The report's lines for these lines of the plan.
fn told(fate: &str, lines: std::ops::RangeInclusive<usize>) -> String {
    let line = |line: usize| format!("line {line} {fate} {}\n", PLAN[line - 1]).replace(' ', "\t");
    lines.map(line).collect()
}

/// What the manager does with the plan on some metal: its report and complaint.
fn managed(metal: &mut impl Metal) -> (String, Result<(), Complaint>) {
    let mut out = Vec::new();
    let concluded = conclude(manage(metal, plan(&PLAN).as_bytes()), &mut out);
    (String::from_utf8(out).unwrap(), concluded)
}

fn complaint(status: u8, why: &str) -> Result<(), Complaint> {
    let why = why.into();
    Err(Complaint { status, why })
}

#[test]
fn metal_that_agrees_does_all() {
    let mut metal = fresh();
    assert_eq!(managed(&mut metal), (told("done", 1..=4), Ok(())));
    assert_eq!(metal.0.gauge().fill, 2.0 / 1024.0);
}

/// Metal that at one line gives what it likes, and is right otherwise.
struct Odd {
    metal: StandIn,
    line: usize,
    asked: usize,
    answer: fn() -> io::Result<Answer>,
}

impl Metal for Odd {
    fn tables(&mut self) -> io::Result<Parts> {
        self.metal.tables()
    }

    fn carry_out(&mut self, call: &Call) -> io::Result<Answer> {
        self.asked += 1;
        if self.asked == self.line {
            return (self.answer)();
        }
        self.metal.carry_out(call)
    }
}

fn odd_at(line: usize, answer: fn() -> io::Result<Answer>) -> Odd {
    Odd {
        metal: fresh(),
        line,
        asked: 0,
        answer,
    }
}

#[test]
fn metal_that_refuses_is_asked_no_more() {
    for line in 1..=4 {
        let mut metal = odd_at(line, || Ok(Err(2)));
        let (report, concluded) = managed(&mut metal);
        assert_eq!(metal.asked, line);
        let expected = if line == 4 {
            "answer\t0\ttype\t2\towner\t1073741824"
        } else {
            "answer\t0"
        };
        let failed = told("failed", line..=line).replace('\n', "\t");
        let failed = format!("{failed}expected\t{expected}\tgot\tanswer\t2\n");
        let [done, left] = [told("done", 1..=line - 1), told("left", line + 1..=4)];
        assert_eq!(report, done + &failed + &left);
        let why = format!("line {line}: metal answered otherwise than the model");
        assert_eq!(concluded, complaint(3, &why));
    }
}

#[test]
fn metal_that_reads_something_else_does_not_agree() {
    let (report, concluded) = managed(&mut odd_at(4, || {
        let (kind, owner) = (FrameType::Nda, None);
        Ok(Ok(Reply::Page(Page { kind, owner })))
    }));
    assert!(
        report.ends_with("\tgot\tanswer\t0\ttype\t0\towner\t0\n"),
        "{report}"
    );
    assert_eq!(concluded.unwrap_err().status, 3);
}

#[test]
fn metal_that_gives_no_answer_leaves_a_line_unknown() {
    let mut metal = odd_at(3, || {
        Err(io::Error::new(io::ErrorKind::Other, "the bus is gone"))
    });
    let (report, concluded) = managed(&mut metal);
    assert_eq!(metal.asked, 3);
    let [done, unknown, left] = [
        told("done", 1..=2),
        told("unknown", 3..=3),
        told("left", 4..=4),
    ];
    assert_eq!(report, done + &unknown + &left);
    assert_eq!(
        concluded,
        complaint(4, "line 3: metal gave no answer: the bus is gone")
    );
}

#[test]
fn a_plan_goes_on_from_the_tables_of_a_running_machine() {
    let running = || StandIn(Model::from_parts(common::running().unwrap()));
    let (report, concluded) = managed(&mut running());
    assert_eq!(report, "");
    let why = concluded.unwrap_err().why;
    assert!(why.starts_with("line 1 answer 2: "), "{why}"); // the frame is taken

    let lines = plan(&["finalize hpa 1073741824", "track hpa 1073741824"]);
    let mut metal = running();
    let mut out = Vec::new();
    let concluded = conclude(manage(&mut metal, lines.as_bytes()), &mut out);
    assert_eq!(concluded, Ok(()));
    assert_eq!(metal.0.parts().record(Record(0)).unwrap().epoch.0, 2);
}

#[test]
fn tables_out_of_range_touch_no_metal() {
    let mut parts = common::running().unwrap();
    let mut record = parts.record(Record(0)).unwrap();
    record.key = Key(96);
    parts.set_record(Record(0), record).unwrap();
    let (report, concluded) = managed(&mut StandIn(Model::from_parts(parts)));
    assert_eq!(report, "");
    let Complaint { status, why } = concluded.unwrap_err();
    assert_eq!(status, 2);
    assert!(why.starts_with("metal's tables, answer 13: "), "{why}");
}
