//! Plans tried on a clone.

use reefnettle::{Call, FrameType, Hpa, Model, Page, Refusal, Reply, Sizes, Window};

fn fresh() -> Model {
    Model::fresh(Window::BASE_LEAST, Sizes::PROGRAM).unwrap()
}

/// A plan of lines that have a blank for each tab.
fn plan(lines: &[&str]) -> Vec<Call> {
    let read = |line: &&str| line.replace(' ', "\t").parse().unwrap();
    lines.iter().map(read).collect()
}

const GOOD: [&str; 4] = [
    "create hpa 1073741824 key 32",
    "keyconfig hpa 1073741824",
    "addcx hpa 1073741824 hpa 1073745920",
    "readpage hpa 1073745920",
];

#[test]
fn a_good_plan_leaves_the_model_and_moves_the_clone() {
    let model = fresh();
    let rehearsal = model.rehearse(&plan(&GOOD)).unwrap();
    assert_eq!(model, fresh());
    let page = Reply::Page(Page {
        kind: FrameType::Tdcx,
        owner: Some(Hpa(1073741824)),
    });
    let done = Reply::Done;
    assert_eq!(rehearsal.replies, [done, done, done, page]);

    let mut asked = fresh();
    for call in plan(&GOOD) {
        asked.ask(&call).unwrap();
    }
    assert_eq!(rehearsal.model, asked);
}

#[test]
fn a_plan_goes_on_from_what_was_adopted() {
    let [first, second] = [plan(&GOOD[..2]), plan(&GOOD[2..])];
    let mut model = fresh();
    let refused = model.rehearse(&second).unwrap_err();
    assert_eq!((refused.index, refused.refusal), (0, Refusal::WrongFrame));
    model = model.rehearse(&first).unwrap().model;
    model = model.rehearse(&second).unwrap().model;
    assert_eq!(model.gauge().fill, 2.0 / 1024.0);
}

#[test]
fn a_refused_call_is_named_and_the_model_left() {
    let calls = plan(&[GOOD[0], "create hpa 1073745920 key 32", GOOD[1]]);
    let model = fresh();
    let refused = model.rehearse(&calls).unwrap_err();
    assert_eq!((refused.index, refused.line()), (1, 2));
    assert_eq!(refused.call, calls[1]);
    assert_eq!(refused.refusal, Refusal::KeyTaken);
    assert_eq!(
        refused.to_string(),
        "line 2 answer 10: the key is taken: a domain before teardown has it"
    );
    assert_eq!(model, fresh());
}

#[test]
fn a_plan_may_set_marks_and_begin_afresh() {
    let marks = Call::SetMarks {
        raise: 2.0 / 1024.0,
        clear: 0.0,
    };
    let mut calls = vec![marks];
    calls.extend(plan(&GOOD));
    calls.push(Call::Reset);
    calls.extend(plan(&GOOD[..1]));
    let rehearsal = fresh().rehearse(&calls).unwrap();
    let mut asked = fresh();
    for call in &calls {
        asked.ask(call).unwrap();
    }
    assert_eq!(rehearsal.model, asked);
    assert_eq!(rehearsal.replies.len(), calls.len());
}

#[test]
fn what_is_out_of_range_is_refused_up_to_a_reset() {
    let mut parts = fresh().into_parts();
    parts.frames[7] = 5; // there is no type 5
    let model = Model::from_parts(parts);
    let refused = model.rehearse(&plan(&GOOD)).unwrap_err();
    let out_of_range = Refusal::OutOfRange;
    assert_eq!((refused.index, refused.refusal), (0, out_of_range));
    let mut calls = vec![Call::Reset];
    calls.extend(plan(&GOOD));
    assert!(model.rehearse(&calls).is_ok());
}

#[test]
fn an_empty_plan_comes_to_the_model_itself() {
    let rehearsal = fresh().rehearse(&[]).unwrap();
    assert_eq!((rehearsal.model, rehearsal.replies), (fresh(), vec![]));
}
