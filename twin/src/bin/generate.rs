//! Writes a script to standard output: `twin-generate SEED LINES KIND`.

use std::env;
use std::io::{self, Write};
use std::process::ExitCode;

use reefnettle_twin::{generate, Kind};

fn arguments() -> Option<(u64, u64, Kind)> {
    let mut arguments = env::args().skip(1);
    let seed = arguments.next()?.parse().ok()?;
    let lines = arguments.next()?.parse().ok()?;
    let kind = Kind::from_name(&arguments.next()?)?;
    arguments.next().is_none().then_some((seed, lines, kind))
}

fn main() -> ExitCode {
    let Some((seed, lines, kind)) = arguments() else {
        let kinds = Kind::ALL.map(Kind::name).join("|");
        eprintln!("usage: twin-generate SEED LINES {kinds}");
        return ExitCode::from(2);
    };
    match io::stdout().lock().write_all(&generate(seed, lines, kind)) {
        Ok(()) => ExitCode::SUCCESS,
        Err(error) => {
            eprintln!("twin-generate: {error}");
            ExitCode::FAILURE
        }
    }
}
