//! The whole run of the paper, line by line.

use reefnettle::{Call, FrameType, Hpa, Model, Page, Refusal, Reply, Sizes};

/// Each line and its answer, a blank for each tab.
const RUN: [(&str, Result<Reply, Refusal>); 9] = [
    ("create hpa 1073741824 key 32", Ok(Reply::Done)),
    ("create hpa 1073745920 key 32", Err(Refusal::KeyTaken)),
    ("create hpa 1073741824 key 33", Err(Refusal::WrongFrame)),
    ("create hpa 262144 key 33", Err(Refusal::Operand)),
    ("create pfn 262144 key 33", Err(Refusal::Unreadable)),
    ("keyconfig hpa 1073741824", Ok(Reply::Done)),
    ("addcx hpa 1073741824 hpa 1073745920", Ok(Reply::Done)),
    (
        "readpage hpa 1073745920",
        Ok(Reply::Page(Page {
            kind: FrameType::Tdcx,
            owner: Some(Hpa(1073741824)),
        })),
    ),
    ("init hpa 1073741824", Err(Refusal::ControlPages)),
];

#[test]
fn the_papers_run() -> Result<(), Refusal> {
    let mut model = Model::fresh(Hpa(1073741824), Sizes::PROGRAM)?;
    model.set_marks(0.75, 0.5)?;
    for (line, answer) in RUN {
        let call: Result<Call, Refusal> = line.replace(' ', "\t").parse();
        let before = model.clone();
        let asked = call.and_then(|call| model.ask(&call));
        assert_eq!(asked, answer, "{line}");
        assert!(asked.is_ok() || model == before, "{line} changed something");
    }
    let used = model.gauge().fill * 1024.0;
    assert_eq!((used, model.gauge().lamp), (2.0, false));
    Ok(())
}
