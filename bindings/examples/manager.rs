//! A host manager in small: it takes the tables from metal, rehearses a plan of
//! calls on the model, and goes on to metal only if the model accepts every one.
//! There it stops at the first answer that isn't the model's.
//!
//! ```text
//! cargo run --example manager -- [PLAN]
//! ```
//!
//! The plan is a script of one call a line, from the file PLAN or from standard
//! input. A fresh machine stands in for metal here: a model of its own. Once metal
//! is touched, standard output has a line for each call of the plan: the line's
//! number, what became of it, and the call as the script has it.
//! What became of it is
//!
//! * `done`: metal answered as the model;
//! * `failed`: metal answered otherwise; both answers stand behind the call;
//! * `unknown`: metal gave no answer, so the call may be done or not;
//! * `left`: metal wasn't asked any more.
//!
//! | Status | What it says |
//! |---|---|
//! | 0 | all is done |
//! | 1 | a line is unreadable, or the model refuses it; no metal was touched |
//! | 2 | the plan or the tables can't be read, or are out of range; no metal was touched |
//! | 3 | metal answered otherwise than the model |
//! | 4 | metal gave no answer |
//! | 5 | standard output can't be written; standard error has what was done |

use std::env;
use std::fmt::{self, Display, Formatter};
use std::fs::File;
use std::io::{self, BufRead, BufReader, Write};
use std::process::ExitCode;

use reefnettle::{Call, Hpa, Model, Parts, Refusal, Rehearsal, Reply, Sizes};

/// A longer script isn't read.
const LINES_MOST: usize = 10_000;

/// Metal's answer: what it reads out if it accepts, else the number of its
/// refusal, which may be one that the model doesn't have.
pub type Answer = Result<Reply, u64>;

/// What carries calls out for good.
pub trait Metal {
    /// The tables as they stand before the plan.
    fn tables(&mut self) -> io::Result<Parts>;

    /// Carries out a call.
    fn carry_out(&mut self, call: &Call) -> io::Result<Answer>;
}

/// Stands in for metal: a model of its own.
pub struct StandIn(pub Model);

impl Metal for StandIn {
    fn tables(&mut self) -> io::Result<Parts> {
        Ok(self.0.parts().clone())
    }

    fn carry_out(&mut self, call: &Call) -> io::Result<Answer> {
        Ok(self.0.ask(call).map_err(Refusal::number))
    }
}

/// Why no metal was touched.
pub enum Trouble {
    Refused { line: usize, refusal: Refusal },
    Tables(Refusal),
    Io(io::Error),
}

impl Trouble {
    fn status(&self) -> u8 {
        match self {
            Trouble::Refused { .. } => 1,
            Trouble::Tables(_) | Trouble::Io(_) => 2,
        }
    }
}

impl From<io::Error> for Trouble {
    fn from(error: io::Error) -> Self {
        Trouble::Io(error)
    }
}

impl Display for Trouble {
    fn fmt(&self, f: &mut Formatter<'_>) -> fmt::Result {
        match self {
            Trouble::Refused { line, refusal } => {
                write!(f, "line {line} answer {}: {refusal}", refusal.number())?;
            }
            Trouble::Tables(refusal) => {
                write!(f, "metal's tables, answer {}: {refusal}", refusal.number())?;
            }
            Trouble::Io(error) => write!(f, "{error}")?,
        }
        f.write_str("; no metal was touched")
    }
}

/// Why metal was asked no more.
pub enum Stop {
    Differs { expected: Reply, got: Answer },
    NoAnswer(io::Error),
}

impl Stop {
    fn status(&self) -> u8 {
        match self {
            Stop::Differs { .. } => 3,
            Stop::NoAnswer(_) => 4,
        }
    }
}

impl Display for Stop {
    fn fmt(&self, f: &mut Formatter<'_>) -> fmt::Result {
        match self {
            Stop::Differs { .. } => f.write_str("metal answered otherwise than the model"),
            Stop::NoAnswer(error) => write!(f, "metal gave no answer: {error}"),
        }
    }
}

/// What became of a plan on metal.
#[derive(Default)]
pub struct Report {
    done: Vec<Call>,
    stop: Option<(Call, Stop)>,
    left: Vec<Call>,
}

impl Display for Report {
    fn fmt(&self, f: &mut Formatter<'_>) -> fmt::Result {
        for (line, call) in (1..).zip(&self.done) {
            writeln!(f, "line\t{line}\tdone\t{call}")?;
        }
        let line = self.done.len() + 1;
        match &self.stop {
            None => {}
            Some((call, Stop::NoAnswer(_))) => writeln!(f, "line\t{line}\tunknown\t{call}")?,
            Some((call, Stop::Differs { expected, got })) => {
                write!(
                    f,
                    "line\t{line}\tfailed\t{call}\texpected\t{expected}\tgot\t"
                )?;
                match got {
                    Ok(reply) => writeln!(f, "{reply}")?,
                    Err(number) => writeln!(f, "answer\t{number}")?,
                }
            }
        }
        for (line, call) in (line + 1..).zip(&self.left) {
            writeln!(f, "line\t{line}\tleft\t{call}")?;
        }
        Ok(())
    }
}

/// The calls of a plan, up to its first unreadable line if it has one.
struct Plan {
    calls: Vec<Call>,
    unreadable: Option<usize>,
}

fn read_plan(text: impl BufRead) -> io::Result<Plan> {
    let mut calls = Vec::new();
    for (line, text) in (1..).zip(text.split(b'\n')) {
        // No byte that isn't text can be read, whatever stands for it here.
        match String::from_utf8_lossy(&text?).parse() {
            Ok(call) if line <= LINES_MOST => calls.push(call),
            _ => {
                let unreadable = Some(line);
                return Ok(Plan { calls, unreadable });
            }
        }
    }
    let unreadable = None;
    Ok(Plan { calls, unreadable })
}

/// Wants every line accepted; else the first that isn't.
fn rehearse(model: &Model, plan: &Plan) -> Result<Rehearsal, Trouble> {
    let rehearsal = model.rehearse(&plan.calls).map_err(|refused| {
        let (line, refusal) = (refused.line(), refused.refusal);
        Trouble::Refused { line, refusal }
    })?;
    match plan.unreadable {
        Some(line) => {
            let refusal = Refusal::Unreadable;
            Err(Trouble::Refused { line, refusal })
        }
        None => Ok(rehearsal),
    }
}

/// Carries a call out; why not to go on, if metal doesn't answer as the model.
fn carry_out(metal: &mut impl Metal, call: &Call, expected: Reply) -> Option<Stop> {
    match metal.carry_out(call) {
        Ok(got) if got == Ok(expected) => None,
        Ok(got) => Some(Stop::Differs { expected, got }),
        Err(error) => Some(Stop::NoAnswer(error)),
    }
}

/// Carries the calls out, up to the first that gives a reason to stop.
fn carry_out_all(metal: &mut impl Metal, calls: Vec<Call>, expected: Vec<Reply>) -> Report {
    let mut report = Report::default();
    let mut plan = calls.into_iter().zip(expected);
    for (call, expected) in &mut plan {
        report.stop = carry_out(metal, &call, expected).map(|stop| (call, stop));
        if report.stop.is_some() {
            break;
        }
        report.done.push(call);
    }
    report.left = plan.map(|(call, _)| call).collect();
    report
}

/// Rehearses a plan on the model of the machine, then carries it out. A manager
/// that goes on from here adopts the rehearsal's model, or takes the tables from
/// metal anew if anything failed.
pub fn manage(metal: &mut impl Metal, plan: impl BufRead) -> Result<Report, Trouble> {
    let model = Model::import(metal.tables()?).map_err(Trouble::Tables)?;
    let plan = read_plan(plan)?;
    let rehearsal = rehearse(&model, &plan)?;
    Ok(carry_out_all(metal, plan.calls, rehearsal.replies))
}

/// What there is to complain of, and the status to exit with.
#[derive(Debug, PartialEq)]
pub struct Complaint {
    pub status: u8,
    pub why: String,
}

fn complaint(status: u8, why: String) -> Complaint {
    Complaint { status, why }
}

/// Writes what was done. If that can't be, the complaint has it.
pub fn conclude(managed: Result<Report, Trouble>, mut out: impl Write) -> Result<(), Complaint> {
    let report = managed.map_err(|trouble| complaint(trouble.status(), trouble.to_string()))?;
    write!(out, "{report}")
        .and_then(|()| out.flush())
        .map_err(|error| complaint(5, format!("{error}; what was done:\n{report}")))?;
    match &report.stop {
        None => Ok(()),
        Some((_, stop)) => {
            let line = report.done.len() + 1;
            Err(complaint(stop.status(), format!("line {line}: {stop}")))
        }
    }
}

/// The file that the command line names, else standard input.
fn open_plan() -> io::Result<Box<dyn BufRead>> {
    let mut words = env::args_os().skip(1);
    let Some(file) = words.next() else {
        return Ok(Box::new(io::stdin().lock()));
    };
    if words.next().is_some() {
        let usage = "usage: manager [PLAN]";
        return Err(io::Error::new(io::ErrorKind::InvalidInput, usage));
    }
    let named = |error: io::Error| {
        let why = format!("{}: {error}", file.to_string_lossy());
        io::Error::new(error.kind(), why)
    };
    Ok(Box::new(BufReader::new(File::open(&file).map_err(named)?)))
}

fn main() -> ExitCode {
    let sizes = Sizes {
        frames: 1024,
        records: 4,
        tables: 12,
    };
    let machine = Model::fresh(Hpa(1 << 30), sizes).expect("the sizes are within the limits");
    let plan = open_plan().map_err(Trouble::from);
    let managed = plan.and_then(|plan| manage(&mut StandIn(machine), plan));
    match conclude(managed, io::stdout().lock()) {
        Ok(()) => ExitCode::SUCCESS,
        Err(Complaint { status, why }) => {
            eprintln!("manager: {why}");
            ExitCode::from(status)
        }
    }
}
