//! Replays a script from standard input and writes the answers to standard
//! output.

use std::io;
use std::process::ExitCode;

fn main() -> ExitCode {
    match reefnettle_twin::replay(io::stdin().lock(), io::stdout().lock()) {
        Ok(()) => ExitCode::SUCCESS,
        Err(error) => {
            eprintln!("twin-replay: {error}");
            ExitCode::FAILURE
        }
    }
}
