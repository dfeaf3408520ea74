//! A second implementation of the Reefnettle ownership tables.
//!
//! Written from the scope paper alone, in plain Rust, so that it can stand on
//! the other side of a comparison: same calls, same answers, same read-outs,
//! same script.
//!
//! * [`Machine`] holds the tables and the gauge; every field is public and can
//!   hold any number, so damaged tables can be set up by hand.
//! * [`Machine::call`] judges the stored numbers (answer 13) and then the call;
//!   [`Machine::call_unchecked`] leaves the first step out.
//! * [`replay`] runs a whole script; [`generate`] writes scripts.

#![forbid(unsafe_code)]
#![warn(missing_docs)]

mod answer;
mod calls;
mod gauge;
mod generate;
mod levels;
mod range;
mod replay;
mod rng;
mod script;
mod state;

pub use answer::{Answer, Readout, Refusal};
pub use calls::Call;
pub use gauge::Gauge;
pub use generate::{generate, generate_on, Kind};
pub use levels::{GPA_LIMIT, LEVEL_SHIFT, TOP_LEVEL};
pub use range::{BASE_ALIGNMENT, BASE_HIGHEST, BASE_LOWEST, EPOCH_LIMIT, KEY_HIGHEST, KEY_LOWEST};
pub use replay::{
    replay, replay_machine, MAX_LINES, REPLAY_BASE, REPLAY_CLEAR, REPLAY_FRAMES, REPLAY_RAISE,
    REPLAY_RECORDS, REPLAY_TABLES,
};
pub use rng::Rng;
pub use script::{parse, Operand, Unit, MAX_LINE};
pub use state::{
    entry_state, frame_type, lifecycle, op_state, Entry, Frame, Machine, Record, Table,
    CONTROL_PAGES, ENTRIES, FRAME_BYTES,
};
