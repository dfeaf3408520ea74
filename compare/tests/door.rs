//! A door that ends, is silent or is none is seen, and no file of it stays.

use std::fs;
use std::path::Path;
use std::process::Command;
use std::time::Duration;

use reefnettle_compare::{Door, Fault, PATIENCE};

/// What comes of a shell that does this for a door.
fn fault(deed: &str, patience: Duration) -> Fault {
    let mut command = Command::new("sh");
    command.args(["-c", deed]);
    match Door::open(command, patience) {
        Ok(_) => panic!("'{deed}' is no door"),
        Err(fault) => fault,
    }
}

#[test]
fn a_door_that_ends_is_seen() {
    let text = fault("exit 3", PATIENCE).to_string();
    assert_eq!(text, "the door has ended: exit status: 3");
    let text = fault("kill -SEGV $$", PATIENCE).to_string();
    assert!(text.starts_with("the door has ended: signal: 11"), "{text}");
}

#[test]
fn a_silent_door_is_ended() {
    let patience = Duration::from_millis(100);
    let text = fault("exec sleep 1000", patience).to_string();
    assert_eq!(text, "the door gave no answer in seconds 0.1");
}

#[test]
fn a_door_for_other_messages_is_refused() {
    // A word of bytes 8, the lowest first: 65, in letters "A".
    let text = fault(r"printf 'A\0\0\0\0\0\0\0'", PATIENCE).to_string();
    assert_eq!(
        text,
        "the door takes messages of bytes 65, not of bytes 144"
    );
}

#[test]
fn a_door_that_there_isnt_is_refused() {
    let fault = Door::open(Command::new("./no-such-door"), PATIENCE).err();
    assert!(matches!(fault, Some(Fault::System(_))), "{fault:?}");
}

#[test]
fn the_shared_file_loses_its_name() {
    let told = Path::new(env!("CARGO_TARGET_TMPDIR")).join("name-of-the-shared-file");
    let mut command = Command::new("sh");
    command.args(["-c", r#"test -f "$1" && printf %s "$1" >"$0""#]);
    command.arg(&told);
    let fault = Door::open(command, PATIENCE).err().unwrap();
    assert_eq!(fault.to_string(), "the door has ended: exit status: 0");
    let name = fs::read_to_string(told).unwrap();
    assert!(!Path::new(&name).exists(), "{name}");
}
