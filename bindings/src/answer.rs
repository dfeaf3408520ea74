//! What a call answers: a reading where it is accepted, or a refusal.

use std::error::Error;
use std::fmt::{self, Display, Formatter};

use crate::call::Call;
use crate::raw;
use crate::states::{EntryState, FrameType};
use crate::units::{Hpa, Level};

/// What an accepted readpage reads.
#[derive(Clone, Copy, Debug, PartialEq, Eq, Hash)]
pub struct Page {
    /// What the frame is.
    pub kind: FrameType,
    /// Address of the owning TDR, for TDCX, EPT and REG.
    pub owner: Option<Hpa>,
}

/// What an accepted readentry reads.
#[derive(Clone, Copy, Debug, PartialEq, Eq, Hash)]
pub struct Entry {
    /// Level of the entry.
    pub level: Level,
    /// State of the entry.
    pub state: EntryState,
    /// Address of the frame that it names, unless FREE.
    pub hpa: Option<Hpa>,
}

/// What any accepted call answers. It is displayed as a script's answer is, with
/// single tabs.
///
/// ```
/// use reefnettle::{FrameType, Hpa, Page, Reply};
///
/// let page = Page { kind: FrameType::Tdcx, owner: Some(Hpa(1073741824)) };
/// assert_eq!(Reply::Page(page).to_string(), "answer\t0\ttype\t2\towner\t1073741824");
/// ```
#[non_exhaustive]
#[derive(Clone, Copy, Debug, PartialEq, Eq, Hash)]
pub enum Reply {
    /// Accepted, and nothing to read.
    Done,
    /// Of a readpage.
    Page(Page),
    /// Of a readentry.
    Entry(Entry),
}

impl Display for Reply {
    fn fmt(&self, f: &mut Formatter<'_>) -> fmt::Result {
        f.write_str("answer\t0")?;
        match self {
            Reply::Done => Ok(()),
            Reply::Page(Page { kind, owner }) => {
                let owner = owner.unwrap_or_default().0;
                write!(f, "\ttype\t{}\towner\t{owner}", kind.number())
            }
            Reply::Entry(Entry { level, state, hpa }) => {
                let (level, state, hpa) = (level.0, state.number(), hpa.unwrap_or_default().0);
                write!(f, "\tlevel\t{level}\tstate\t{state}\thpa\t{hpa}")
            }
        }
    }
}

/// Why a call is refused. A refusal leaves tables and gauge untouched.
///
/// ```
/// use reefnettle::{Hpa, Key, Model, Refusal, Sizes, Window};
///
/// let mut model = Model::fresh(Window::BASE_LEAST, Sizes::PROGRAM)?;
/// let refusal = model.create(Hpa(262144), Key(32)).unwrap_err();
/// assert_eq!(refusal, Refusal::Operand);
/// assert_eq!(refusal.number(), 1);
/// println!("answer {}: {refusal}", refusal.number());
/// # Ok::<(), Refusal>(())
/// ```
#[non_exhaustive]
#[derive(Clone, Copy, Debug, PartialEq, Eq, Hash)]
pub enum Refusal {
    /// Answer 1: an operand or a setting of marks is out of rule.
    Operand,
    /// Answer 2: the domain's frame is no TDR, the frame isn't NDA where it must
    /// be, or an NDA frame is to be reclaimed.
    WrongFrame,
    /// Answer 3: the domain's lifecycle is wrong for the call.
    Lifecycle,
    /// Answer 4: too few control pages, or already all of them.
    ControlPages,
    /// Answer 5: the domain's op state is wrong for the call.
    OpState,
    /// Answer 6: the walk stopped above the level asked for.
    WalkStopped {
        /// Level of the entry where the walk stopped.
        level: Level,
        /// State of that entry.
        state: EntryState,
    },
    /// Answer 7: the entry's state is wrong for the call.
    WrongState {
        /// Level of the entry.
        level: Level,
        /// State of the entry.
        state: EntryState,
    },
    /// Answer 8: not tracked since it was blocked, in a runnable domain.
    NotTracked,
    /// Answer 9: a TDR has children, or a table an entry that isn't FREE.
    PagesRemain,
    /// Answer 10: a domain before teardown has the key.
    KeyTaken,
    /// Answer 11: no unused record or table is left.
    NoStock,
    /// Answer 12: the domain's epoch is at its limit.
    EpochLimit,
    /// Answer 13: sizes, base, a stored number or the gauge's marks are out of
    /// range.
    OutOfRange,
    /// Answer 14: the lent tables contradict one another.
    Contradiction,
    /// Answer 15: no line of a script, or no number of a call.
    Unreadable,
}

impl Refusal {
    /// The paper's number for this refusal.
    pub fn number(self) -> u64 {
        match self {
            Refusal::Operand => 1,
            Refusal::WrongFrame => 2,
            Refusal::Lifecycle => 3,
            Refusal::ControlPages => 4,
            Refusal::OpState => 5,
            Refusal::WalkStopped { .. } => 6,
            Refusal::WrongState { .. } => 7,
            Refusal::NotTracked => 8,
            Refusal::PagesRemain => 9,
            Refusal::KeyTaken => 10,
            Refusal::NoStock => 11,
            Refusal::EpochLimit => 12,
            Refusal::OutOfRange => 13,
            Refusal::Contradiction => 14,
            Refusal::Unreadable => 15,
        }
    }

    /// What this refusal means, in a sentence without a full stop. C has the same
    /// words, by `reefnettle_answer_text`.
    pub fn sentence(self) -> &'static str {
        match self {
            Refusal::Operand => {
                "an operand is out of rule: an hpa not on a frame or outside the window, a gpa \
                 too big or unaligned for its level, a level, a key, or a mark of the gauge"
            }
            Refusal::WrongFrame => {
                "the wrong frame: the domain's frame is no TDR, the frame isn't free where it \
                 must be, or a free frame is to be reclaimed"
            }
            Refusal::Lifecycle => "the domain's lifecycle is wrong for the call",
            Refusal::ControlPages => "control pages: fewer than 4, or already 4 at addcx",
            Refusal::OpState => "the domain's op state is wrong for the call",
            Refusal::WalkStopped { .. } => "the walk stopped above the level asked for",
            Refusal::WrongState { .. } => "the entry's state is wrong for the call",
            Refusal::NotTracked => {
                "not tracked: the domain is runnable, and its epoch hasn't moved on since the \
                 frame was blocked"
            }
            Refusal::PagesRemain => {
                "pages remain: a TDR has children, or a table has an entry that isn't FREE"
            }
            Refusal::KeyTaken => "the key is taken: a domain before teardown has it",
            Refusal::NoStock => "no unused record (create) or table (septadd) is left",
            Refusal::EpochLimit => "the domain's epoch is at its limit",
            Refusal::OutOfRange => {
                "what was lent is out of range: a size, the base, a stored number or code, or a \
                 mark of the gauge"
            }
            Refusal::Contradiction => "the lent tables contradict one another",
            Refusal::Unreadable => "unreadable: a script's line, or a number that names no call",
        }
    }
}

impl Display for Refusal {
    fn fmt(&self, f: &mut Formatter<'_>) -> fmt::Result {
        f.write_str(self.sentence())?;
        match self {
            Refusal::WalkStopped { level, state } | Refusal::WrongState { level, state } => {
                write!(f, ", at {level} state {}", state.number())
            }
            _ => Ok(()),
        }
    }
}

impl Error for Refusal {}

// From the numbers of the library. Its proved contract has no others than
// these, so a number outside the lists stops the program.

impl raw::Answer {
    /// The answer itself if it accepts, else the refusal.
    pub(crate) fn judged(self) -> Result<raw::Answer, Refusal> {
        Err(match self.number {
            0 => return Ok(self),
            1 => Refusal::Operand,
            2 => Refusal::WrongFrame,
            3 => Refusal::Lifecycle,
            4 => Refusal::ControlPages,
            5 => Refusal::OpState,
            6 => Refusal::WalkStopped {
                level: self.level,
                state: self.entry_state(),
            },
            7 => Refusal::WrongState {
                level: self.level,
                state: self.entry_state(),
            },
            8 => Refusal::NotTracked,
            9 => Refusal::PagesRemain,
            10 => Refusal::KeyTaken,
            11 => Refusal::NoStock,
            12 => Refusal::EpochLimit,
            13 => Refusal::OutOfRange,
            14 => Refusal::Contradiction,
            15 => Refusal::Unreadable,
            number => unreachable!("the library has no answer {number}"),
        })
    }

    /// What a call with this answer comes to.
    pub(crate) fn reply(self, call: &Call) -> Result<Reply, Refusal> {
        let answer = self.judged()?;
        Ok(match call {
            Call::ReadPage { .. } => Reply::Page(answer.page()),
            Call::ReadEntry { .. } => Reply::Entry(answer.entry()),
            _ => Reply::Done,
        })
    }

    pub(crate) fn page(self) -> Page {
        Page {
            kind: FrameType::of_number(self.kind).expect("the library has no other type"),
            owner: named(self.owner),
        }
    }

    pub(crate) fn entry(self) -> Entry {
        Entry {
            level: self.level,
            state: self.entry_state(),
            hpa: named(self.hpa),
        }
    }

    fn entry_state(self) -> EntryState {
        EntryState::of_number(self.state).expect("the library has no other state")
    }
}

/// The library reads out 0 where there is no address; the window begins far
/// above it.
fn named(hpa: Hpa) -> Option<Hpa> {
    (hpa != Hpa(0)).then_some(hpa)
}

#[cfg(test)]
mod tests {
    use super::*;

    #[test]
    fn refusals_have_the_numbers_of_their_answers() {
        for number in 1..=15 {
            let answer = raw::Answer {
                number,
                ..raw::Answer::default()
            };
            assert_eq!(answer.judged().unwrap_err().number(), number);
        }
    }
}
