//! Runs of calls: every reply, word and gauge is that of single calls.

mod common;

use reefnettle::raw::Request;
use reefnettle::{Call, Key, Model, Refusal, Reply, Run, Sizes, Window};

/// A domain's life, a blank for each tab: frames 1 to 4 are its control pages,
/// 5 to 7 its tables, 8 and 9 its pages.
const LIFE: [&str; 24] = [
    "create hpa 1073741824 key 32",
    "keyconfig hpa 1073741824",
    "addcx hpa 1073741824 hpa 1073745920",
    "addcx hpa 1073741824 hpa 1073750016",
    "addcx hpa 1073741824 hpa 1073754112",
    "addcx hpa 1073741824 hpa 1073758208",
    "init hpa 1073741824",
    "septadd hpa 1073741824 gpa 0 level 3 hpa 1073762304",
    "septadd hpa 1073741824 gpa 0 level 2 hpa 1073766400",
    "septadd hpa 1073741824 gpa 0 level 1 hpa 1073770496",
    "pageadd hpa 1073741824 gpa 0 hpa 1073774592",
    "finalize hpa 1073741824",
    "pageaug hpa 1073741824 gpa 4096 hpa 1073778688",
    "readentry hpa 1073741824 gpa 4096 level 0",
    "block hpa 1073741824 gpa 4096 level 0",
    "track hpa 1073741824",
    "pageremove hpa 1073741824 gpa 4096",
    "readpage hpa 1073774592",
    "flushdone hpa 1073741824",
    "cachewb",
    "keyfree hpa 1073741824",
    "reclaim hpa 1073774592",
    "reclaim hpa 1073770496",
    "readpage hpa 1073770496",
];

/// Calls that a living domain refuses, each for another reason.
const REFUSED: [&str; 5] = [
    "create hpa 262144 key 33",
    "create hpa 1073741824 key 33",
    "keyconfig hpa 1073741824",
    "readentry hpa 1073741824 gpa 1073741824 level 1",
    "pageremove hpa 1073741824 gpa 0",
];

fn plan(lines: &[&str]) -> Vec<Call> {
    let read = |line: &&str| line.replace(' ', "\t").parse().unwrap();
    lines.iter().map(read).collect()
}

fn fresh() -> Model {
    Model::fresh(Window::BASE_LEAST, Sizes::PROGRAM).unwrap()
}

/// Wants a run to come to what single calls come to, wherever it ends. What the
/// single calls answer is given back.
fn as_single_calls(model: &Model, calls: &[Call]) -> Vec<Result<Reply, Refusal>> {
    let (mut single, mut answers) = (model.clone(), vec![]);
    for length in 0..=calls.len() {
        let mut ran = model.clone();
        let mut run = ran.run();
        let in_run: Vec<_> = calls[..length].iter().map(|call| run.ask(call)).collect();
        assert_eq!(run.gauge(), single.gauge());
        run.end();
        assert_eq!(in_run, answers);
        assert!(ran == single, "calls {length}");
        answers.extend(calls.get(length).map(|call| single.ask(call)));
    }
    answers
}

#[test]
fn a_life_is_the_same_in_a_run() {
    let answers = as_single_calls(&fresh(), &plan(&LIFE));
    assert!(answers.iter().all(Result::is_ok), "{answers:?}");
}

#[test]
fn refusals_are_the_same_in_a_run() {
    let mut calls = plan(&LIFE[..12]);
    calls.extend(plan(&REFUSED));
    calls.extend(plan(&LIFE[12..]));
    let answers = as_single_calls(&fresh(), &calls);
    let refused = answers.iter().filter(|answer| answer.is_err());
    assert_eq!(refused.count(), REFUSED.len());
}

#[test]
fn marks_and_resets_do_in_a_run_what_they_do_alone() {
    let frames = |used: usize| used as f64 / 1024.0;
    let mut calls = vec![Call::SetMarks {
        raise: frames(3),
        clear: frames(2),
    }];
    calls.extend(plan(&LIFE[..8]));
    let unruly = Call::SetMarks {
        raise: 0.3,
        clear: 0.1,
    };
    calls.extend([unruly, Call::Reset, Call::Reset]);
    calls.extend(plan(&LIFE[..3]));
    let answers = as_single_calls(&fresh(), &calls);
    assert_eq!(answers[9], Err(Refusal::Operand));
    assert!((0..answers.len()).all(|n| n == 9 || answers[n].is_ok()));

    let mut model = fresh();
    let mut run = model.run();
    let lamps = calls.iter().map(|call| {
        let _ = run.ask(call);
        run.gauge().lamp
    });
    // It is lit by the third frame in use, and out after the reset.
    let lit: Vec<usize> = (0..).zip(lamps).filter(|x| x.1).map(|x| x.0).collect();
    assert_eq!(lit, [4, 5, 6, 7, 8, 9]);
}

#[test]
fn out_of_range_every_call_is_refused_up_to_a_reset() {
    let mut parts = common::running().unwrap();
    parts.frames[1023] = 5; // there is no type 5
    let model = Model::from_parts(parts);
    let marks = Call::SetMarks {
        raise: 0.75,
        clear: 0.5,
    };
    let mut calls = plan(&LIFE);
    calls.push(marks);
    let answers = as_single_calls(&model, &calls);
    assert_eq!(answers, vec![Err(Refusal::OutOfRange); calls.len()]);
    let healed = [calls[0], Call::Reset, calls[0], calls[1]];
    let answers = as_single_calls(&model, &healed);
    let done = Ok(Reply::Done);
    assert_eq!(answers, [Err(Refusal::OutOfRange), done, done, done]);
}

#[test]
fn marks_out_of_range_are_refused_until_others_are_set() {
    let mut parts = common::running().unwrap();
    parts.gauge.raise = 0.3; // no whole frames of 1024
    let read = Call::ReadPage {
        frame: Window::BASE_LEAST,
    };
    let marks = Call::SetMarks {
        raise: 0.75,
        clear: 0.5,
    };
    let answers = as_single_calls(&Model::from_parts(parts), &[read, marks, read]);
    assert_eq!(answers[..2], [Err(Refusal::OutOfRange), Ok(Reply::Done)]);
    assert!(answers[2].is_ok());
}

#[test]
fn a_call_that_there_is_not_is_unreadable_in_a_run() {
    let mut model = fresh();
    let mut run = model.run();
    for call in [21, u64::MAX] {
        let request = Request {
            call,
            ..Request::default()
        };
        assert_eq!(run.ask_raw(request).number, Refusal::Unreadable.number());
    }
    run.end();
    assert_eq!(model, fresh());
}

#[test]
fn a_run_leaves_the_gauge_right_however_it_ends() {
    let create = Call::Create {
        frame: Window::BASE_LEAST,
        key: Key(32),
    };
    let ends: [fn(Run); 2] = [|run| run.end(), |_dropped| {}];
    for end in ends {
        let mut model = fresh();
        let mut run = model.run();
        run.ask(&create).unwrap();
        end(run);
        assert_eq!(model.gauge().fill, 1.0 / 1024.0);
    }
}

#[test]
fn single_calls_and_runs_come_by_turns() {
    let (mut model, mut single) = (fresh(), fresh());
    for calls in plan(&LIFE).chunks(3) {
        model.ask(&calls[0]).unwrap();
        let mut run = model.run();
        for call in &calls[1..] {
            run.ask(call).unwrap();
        }
        for call in calls {
            single.ask(call).unwrap();
        }
        assert_eq!(model, single);
    }
}
