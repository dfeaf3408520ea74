//! The library, asked through a door: a program of its own for x86-64, which
//! this one starts and talks to. So what asks may run on another processor.
//!
//! What is lent, asked and answered is as `include/reefnettle.h` has it.

#![forbid(unsafe_code)]

mod ask;
mod door;
mod lent;
mod shared;

pub use ask::{number, Answer, Request};
pub use door::{Door, Fault, Outcome, PATIENCE};
pub use lent::{Gauge, Gpa, Hpa, Key, Level, Parts, FRAME_BYTES};
