//! The twin's side of a comparison, and what differs between the two.

use std::fmt::Debug;

use reefnettle_compare::{number, Answer, Hpa, Level, Outcome, Parts, Request};
use reefnettle_twin::{Call, Machine, Readout};

use crate::layout;

/// The twin's side. What the twin has no words for is judged here: a call that
/// there isn't, lengths that fit no sizes, and spare bits of the stock.
pub fn ask_twin(lent: &Parts, request: &Request) -> Outcome {
    if request.call > number::LAST {
        return refused(lent, 15);
    }
    let Some(mut machine) = layout::unpack(lent) else {
        return refused(lent, 13);
    };
    if request.call != number::RESET && layout::has_spare_bits(lent) {
        return refused(lent, 13);
    }
    let answer = run_twin(&mut machine, request);
    Outcome {
        answer: numbers_of(answer),
        lent: match answer.is_accepted() {
            true => layout::pack(&machine),
            false => lent.clone(),
        },
    }
}

/// A refusal that reads nothing out changes nothing.
fn refused(lent: &Parts, number: u64) -> Outcome {
    Outcome {
        answer: Answer {
            number,
            ..Answer::default()
        },
        lent: lent.clone(),
    }
}

fn run_twin(machine: &mut Machine, request: &Request) -> reefnettle_twin::Answer {
    match request.call {
        number::RESET => machine.reset(),
        number::SET_MARKS => machine.set_marks(request.raise, request.clear),
        _ => machine.call(twin_call(request)),
    }
}

fn twin_call(request: &Request) -> Call {
    let (domain, page) = (request.domain.0, request.frame.0);
    let (gpa, level) = (request.gpa.0, request.level.0);
    match request.call {
        number::CREATE => {
            let key = request.key.0;
            Call::Create { page, key }
        }
        number::KEYCONFIG => Call::KeyConfig { domain },
        number::ADDCX => Call::AddCx { domain, page },
        number::INIT => Call::Init { domain },
        number::SEPTADD => Call::SeptAdd {
            domain,
            gpa,
            level,
            page,
        },
        number::PAGEADD => Call::PageAdd { domain, gpa, page },
        number::FINALIZE => Call::Finalize { domain },
        number::PAGEAUG => Call::PageAug { domain, gpa, page },
        number::BLOCK => Call::Block { domain, gpa, level },
        number::TRACK => Call::Track { domain },
        number::UNBLOCK => Call::Unblock { domain, gpa, level },
        number::PAGEREMOVE => Call::PageRemove { domain, gpa },
        number::SEPTREMOVE => Call::SeptRemove { domain, gpa, level },
        number::FLUSHDONE => Call::FlushDone { domain },
        number::KEYFREE => Call::KeyFree { domain },
        number::RECLAIM => Call::Reclaim { page },
        number::READPAGE => Call::ReadPage { page },
        number::READENTRY => Call::ReadEntry { domain, gpa, level },
        number::CACHEWB => Call::CacheWb,
        call => unreachable!("call {call} is none of the twin's"),
    }
}

/// The twin's answer in the library's numbers.
fn numbers_of(answer: reefnettle_twin::Answer) -> Answer {
    let plain = Answer {
        number: answer.number.into(),
        ..Answer::default()
    };
    match answer.readout {
        Readout::Zeros => plain,
        Readout::Stop { level, state } => Answer {
            level: Level(level),
            state,
            ..plain
        },
        Readout::Page { kind, owner } => Answer {
            kind,
            owner: Hpa(owner),
            ..plain
        },
        Readout::Entry { level, state, hpa } => Answer {
            level: Level(level),
            state,
            hpa: Hpa(hpa),
            ..plain
        },
    }
}

/// The first thing in which the sides differ.
pub fn difference(library: &Outcome, twin: &Outcome) -> Option<String> {
    let (ours, theirs) = (&library.lent, &twin.lent);
    let gauge = |lent: &Parts| {
        let gauge = &lent.gauge;
        let marks = [gauge.raise, gauge.clear, gauge.fill].map(f64::to_bits);
        (marks, gauge.lamp)
    };
    differ("answer", &library.answer, &twin.answer)
        .or_else(|| differ("base", &ours.base, &theirs.base))
        .or_else(|| differ_in("frames", &ours.frames, &theirs.frames))
        .or_else(|| differ_in("domains", &ours.domains, &theirs.domains))
        .or_else(|| differ_in("stock", &ours.stock, &theirs.stock))
        .or_else(|| differ_in("entries", &ours.entries, &theirs.entries))
        .or_else(|| differ("gauge's bits", &gauge(ours), &gauge(theirs)))
}

fn differ<T: PartialEq + Debug>(name: &str, library: &T, twin: &T) -> Option<String> {
    (library != twin).then(|| format!("{name}: library {library:?}, twin {twin:?}"))
}

fn differ_in<T: PartialEq + Debug>(name: &str, library: &[T], twin: &[T]) -> Option<String> {
    // Most often nothing does, and that is seen faster at once.
    if library == twin {
        return None;
    }
    let words = library.iter().zip(twin).enumerate();
    words
        .filter(|(_, (a, b))| a != b)
        .find_map(|(at, (a, b))| differ(&format!("{name}[{at}]"), a, b))
        .or_else(|| differ(&format!("words of {name}"), &library.len(), &twin.len()))
}
