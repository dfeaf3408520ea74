//! Compares the library with the twin: the same request on the same lent words,
//! then answer, read-outs, every word and every bit of the gauge.
//!
//! ```text
//! reefnettle-compare [--cases N] [--seed S] [--patience SECONDS] DOOR [WORD ...]
//! ```
//!
//! DOOR and its words are the command that starts the library's door, which
//! `compare/run` builds. The same seed gives the same cases. It fails where the
//! sides differ, if the door ends or gives no answer within the patience, and if
//! a window, an answer, an accepted call, a place of answer 14, a call on what
//! isn't tracked, in each op state, or something that cachewb sweeps or leaves
//! was never met.

mod damage;
mod floats;
mod layout;
mod places;
mod requests;
mod sides;
mod spoil;
mod sweeping;
mod tally;
mod tracking;
mod tree;

use std::env;
use std::process::{Command, ExitCode};
use std::time::Duration;

use reefnettle_compare::{number, Door, Parts, Request, PATIENCE};
use reefnettle_twin::{Machine, Rng};

use places::Place;
use requests::Requests;
use spoil::Spoil;
use sweeping::Sweep;
use tally::Tally;
use tracking::Untracked;

const USAGE: &str =
    "usage: reefnettle-compare [--cases N] [--seed S] [--patience SECONDS] DOOR [WORD ...]";

struct Options {
    cases: u64,
    seed: u64,
    patience: Duration,
    door: Command,
}

fn options() -> Option<Options> {
    let (mut cases, mut seed, mut patience) = (500_000, 1, PATIENCE);
    let mut arguments = env::args().skip(1);
    let program = loop {
        let word = arguments.next()?;
        if !word.starts_with("--") {
            break word;
        }
        let number = arguments.next()?.parse().ok()?;
        match word.as_str() {
            "--cases" => cases = number,
            "--seed" => seed = number,
            "--patience" => patience = Duration::from_secs(number),
            _ => return None,
        }
    };
    let mut door = Command::new(program);
    door.args(arguments);
    Some(Options {
        cases,
        seed,
        patience,
        door,
    })
}

/// The cases of one seed.
struct Comparison {
    door: Door,
    rng: Rng,
    tally: Tally,
}

/// Calls that need many others before them. Where tables are ready for one, it
/// is asked on more spoilt copies, so that its places of answer 14 are all met.
const SELDOM_READY: [u64; 4] = [
    number::UNBLOCK,
    number::PAGEREMOVE,
    number::SEPTREMOVE,
    number::RECLAIM,
];

/// What differs, the contradiction that isn't found, or what befell the door.
type Compared<T> = Result<T, String>;

impl Comparison {
    fn new(door: Door, seed: u64) -> Self {
        Comparison {
            door,
            rng: Rng::new(seed),
            tally: Tally::default(),
        }
    }

    /// From a reset of junk on, calls that bring domains on, and beside them
    /// what else can be lent and asked where each has come to.
    fn run_window(&mut self) -> Compared<()> {
        self.door.turn();
        let sizes = spoil::sizes(&mut self.rng, self.tally.windows());
        self.tally.note_window(sizes);
        let junk = spoil::junk(&mut self.rng, sizes);
        let reset = Request {
            call: number::RESET,
            ..Request::default()
        };
        let mut lent = self.compare(Spoil::Nothing, junk, &reset)?;
        for _ in 0..self.rng.below(250) {
            let machine = layout::unpack(&lent).expect("a reset was accepted");
            let request = Requests::new(&mut self.rng, &machine).likely();
            lent = self.compare(Spoil::Nothing, lent, &request)?;
            self.run_beside(&machine)?;
            if SELDOM_READY.contains(&request.call) {
                self.run_harmed(&machine, &request)?;
            }
        }
        Ok(())
    }

    /// Some calls in a row on a spoilt copy, which the first of them comes by.
    fn run_beside(&mut self, machine: &Machine) -> Compared<()> {
        let request = match self.rng.chance(700) {
            true => Requests::new(&mut self.rng, machine).likely(),
            false => Requests::new(&mut self.rng, machine).any(),
        };
        let spoil = Spoil::draw(&mut self.rng);
        let lent = spoil.spoilt(&mut self.rng, machine, &request);
        let mut lent = self.compare(spoil, lent, &request)?;
        for _ in 0..2 {
            let request = Requests::new(&mut self.rng, machine).any();
            lent = self.compare(spoil, lent, &request)?;
        }
        Ok(())
    }

    /// One call on several copies, each with a number changed that it comes by.
    fn run_harmed(&mut self, machine: &Machine, request: &Request) -> Compared<()> {
        for _ in 0..4 {
            let lent = Spoil::InRange.spoilt(&mut self.rng, machine, request);
            self.compare(Spoil::InRange, lent, request)?;
        }
        Ok(())
    }

    /// One case: the words after it, on which both sides agree.
    fn compare(&mut self, spoil: Spoil, lent: Parts, request: &Request) -> Compared<Parts> {
        let case = self.tally.cases + 1;
        let wrong = |what: String| format!("case {case}, {spoil:?}, {request:?}\n{what}");
        let library = self.door.ask(&lent, request);
        let library = library.map_err(|fault| wrong(fault.to_string()))?;
        let twin = sides::ask_twin(&lent, request);
        if let Some(difference) = sides::difference(&library, &twin) {
            return Err(wrong(difference));
        }
        let answer = twin.answer.number;
        let place = match answer {
            14 => layout::unpack(&lent).and_then(|machine| Place::find(&machine, request)),
            _ => None,
        };
        if answer == 14 && place.is_none() {
            return Err(wrong("no contradiction found".to_string()));
        }
        self.tally.note(spoil, request.call, answer, place);
        let untracked = Untracked::find(request, answer, || layout::unpack(&lent));
        if let Some(untracked) = untracked {
            self.tally.note_untracked(untracked);
        }
        for sweep in Sweep::find(request, answer, || layout::unpack(&lent)) {
            self.tally.note_sweep(sweep);
        }
        Ok(library.lent)
    }
}

/// Runs the cases; true if all that must be met was.
fn run(options: Options) -> Compared<bool> {
    let door = Door::open(options.door, options.patience).map_err(|fault| fault.to_string())?;
    let mut comparison = Comparison::new(door, options.seed);
    while comparison.tally.cases < options.cases {
        let window = comparison.run_window();
        window.map_err(|wrong| format!("seed {}, {wrong}", options.seed))?;
    }
    Ok(comparison.tally.report())
}

fn main() -> ExitCode {
    let Some(options) = options() else {
        eprintln!("{USAGE}");
        return ExitCode::from(2);
    };
    match run(options) {
        Ok(true) => ExitCode::SUCCESS,
        Ok(false) => ExitCode::FAILURE,
        Err(wrong) => {
            eprintln!("reefnettle-compare: {wrong}");
            ExitCode::FAILURE
        }
    }
}
