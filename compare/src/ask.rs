//! What is asked, and what is answered.

use crate::lent::{Gpa, Hpa, Key, Level};

/// Numbers of the calls.
pub mod number {
    pub const RESET: u64 = 0;
    pub const SET_MARKS: u64 = 1;
    pub const CREATE: u64 = 2;
    pub const KEYCONFIG: u64 = 3;
    pub const ADDCX: u64 = 4;
    pub const INIT: u64 = 5;
    pub const SEPTADD: u64 = 6;
    pub const PAGEADD: u64 = 7;
    pub const FINALIZE: u64 = 8;
    pub const PAGEAUG: u64 = 9;
    pub const BLOCK: u64 = 10;
    pub const TRACK: u64 = 11;
    pub const UNBLOCK: u64 = 12;
    pub const PAGEREMOVE: u64 = 13;
    pub const SEPTREMOVE: u64 = 14;
    pub const FLUSHDONE: u64 = 15;
    pub const KEYFREE: u64 = 16;
    pub const RECLAIM: u64 = 17;
    pub const READPAGE: u64 = 18;
    pub const READENTRY: u64 = 19;
    pub const CACHEWB: u64 = 20;

    /// No number above this one names a call.
    pub const LAST: u64 = CACHEWB;
}

/// A call and its operands.
#[derive(Clone, Copy, Debug, Default, PartialEq)]
pub struct Request {
    /// One of [`number`], or a number that names no call.
    pub call: u64,
    pub domain: Hpa,
    pub gpa: Gpa,
    pub level: Level,
    pub frame: Hpa,
    pub key: Key,
    pub raise: f64,
    pub clear: f64,
}

/// The answer's number and what is read out beside it.
#[derive(Clone, Copy, Debug, Default, PartialEq, Eq)]
pub struct Answer {
    pub number: u64,
    pub kind: u64,
    pub owner: Hpa,
    pub level: Level,
    pub state: u64,
    pub hpa: Hpa,
}

pub(crate) const REQUEST_WORDS: usize = 8;
pub(crate) const ANSWER_WORDS: usize = 6;

impl Request {
    /// The words of the struct, in the header's order.
    pub(crate) fn words(&self) -> [u64; REQUEST_WORDS] {
        [
            self.call,
            self.domain.0,
            self.gpa.0,
            self.level.0,
            self.frame.0,
            self.key.0,
            self.raise.to_bits(),
            self.clear.to_bits(),
        ]
    }
}

impl Answer {
    /// The answer whose struct has these words.
    pub(crate) fn of_words(words: [u64; ANSWER_WORDS]) -> Answer {
        let [number, kind, owner, level, state, hpa] = words;
        Answer {
            number,
            kind,
            owner: Hpa(owner),
            level: Level(level),
            state,
            hpa: Hpa(hpa),
        }
    }
}
