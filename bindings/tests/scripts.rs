//! The repository's scripts, by `Call` and `Model::ask`, against the answers
//! written by hand.

use std::fmt::Write;
use std::fs;
use std::path::Path;

use reefnettle::{Call, Model, Refusal, Reply, Sizes, Window};

/// An answer as the program writes it, the number and what is read out.
fn written(answer: Result<Reply, Refusal>) -> String {
    match answer {
        Ok(reply) => reply.to_string(),
        Err(refusal) => {
            let number = refusal.number();
            match refusal {
                Refusal::WalkStopped { level, state } | Refusal::WrongState { level, state } => {
                    let (level, state) = (level.0, state.number());
                    format!("answer\t{number}\tlevel\t{level}\tstate\t{state}")
                }
                _ => format!("answer\t{number}"),
            }
        }
    }
}

fn replay(script: &str) -> Result<String, Refusal> {
    let mut model = Model::fresh(Window::BASE_LEAST, Sizes::PROGRAM)?;
    model.set_marks(0.75, 0.5)?;
    let mut answers = String::from("bytes\t4096\tframes\t1024\n");
    for (line, text) in (1..).zip(script.split_terminator('\n')) {
        let call: Result<Call, Refusal> = text.parse();
        let answer = written(call.and_then(|call| model.ask(&call)));
        writeln!(answers, "line\t{line}\t{answer}").unwrap();
    }
    let (used, lamp) = (model.gauge().fill * 1024.0, u8::from(model.gauge().lamp));
    writeln!(answers, "used\t{used}\tlamp\t{lamp}").unwrap();
    Ok(answers)
}

#[test]
fn scripts_answer_as_written() {
    // Cargo runs tests in the package's folder.
    let repository = Path::new("..");
    for (script, answers) in [
        ("lessons/1-create.txt", "lessons/keys/1-create.answers"),
        ("lessons/2-pages.txt", "lessons/keys/2-pages.answers"),
        ("lessons/3-teardown.txt", "lessons/keys/3-teardown.answers"),
        ("tests/edges.txt", "tests/edges.answers"),
    ] {
        let read = |name| fs::read_to_string(repository.join(name)).unwrap();
        assert_eq!(replay(&read(script)), Ok(read(answers)), "{script}");
    }
}
