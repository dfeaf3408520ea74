//! The door that these tests ask through.

use std::env;
use std::process::Command;

use reefnettle_compare::{Door, PATIENCE};

const DOOR_VARIABLE: &str = "REEFNETTLE_DOOR";

/// The door that the environment names, run as programs for x86-64 are here.
pub fn open_door() -> Door {
    let Some(program) = env::var_os(DOOR_VARIABLE) else {
        panic!("{DOOR_VARIABLE} names no door: compare/run builds it and runs these tests");
    };
    // Cargo runs tests in the folder of their package.
    let mut command = Command::new("../tools/x86");
    command.arg(program);
    Door::open(command, PATIENCE).unwrap_or_else(|fault| panic!("{fault}"))
}
