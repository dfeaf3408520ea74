//! Answers: a number, and what is read out with it.

/// Why a call is refused.
#[derive(Clone, Copy, Debug, PartialEq, Eq)]
pub enum Refusal {
    /// 1: an operand, or a gauge setting, is out of rule.
    Operand,
    /// 2: D is no TDR, F isn't free, or a free frame is to be reclaimed.
    FrameType,
    /// 3: the domain's lifecycle is wrong.
    Lifecycle,
    /// 4: too few control pages, or already all of them.
    ControlPages,
    /// 5: the domain's op state is wrong.
    OpState,
    /// 6: the walk stopped at an entry that leads no further.
    WalkStopped {
        /// Level of the entry where the walk stopped.
        level: u64,
        /// State of that entry.
        state: u64,
    },
    /// 7: the entry's state is wrong.
    EntryState {
        /// Level of the entry.
        level: u64,
        /// State of the entry.
        state: u64,
    },
    /// 8: not tracked since it was blocked, in a runnable domain.
    NotTracked,
    /// 9: pages remain below.
    PagesRemain,
    /// 10: the key is taken.
    KeyTaken,
    /// 11: no unused record or table.
    NoStock,
    /// 12: the epoch is at its limit.
    EpochLimit,
    /// 13: sizes, base, a stored number or the gauge's marks are out of range.
    OutOfRange,
    /// 14: the tables contradict one another.
    Inconsistent,
}

impl Refusal {
    /// The paper's number for this refusal.
    pub fn number(self) -> u8 {
        match self {
            Refusal::Operand => 1,
            Refusal::FrameType => 2,
            Refusal::Lifecycle => 3,
            Refusal::ControlPages => 4,
            Refusal::OpState => 5,
            Refusal::WalkStopped { .. } => 6,
            Refusal::EntryState { .. } => 7,
            Refusal::NotTracked => 8,
            Refusal::PagesRemain => 9,
            Refusal::KeyTaken => 10,
            Refusal::NoStock => 11,
            Refusal::EpochLimit => 12,
            Refusal::OutOfRange => 13,
            Refusal::Inconsistent => 14,
        }
    }
}

/// The numbers read out with an answer.
#[derive(Clone, Copy, Debug, PartialEq, Eq)]
pub enum Readout {
    /// Nothing but zeros.
    Zeros,
    /// Where a walk stopped, or the entry whose state is wrong.
    Stop {
        /// Level of the entry.
        level: u64,
        /// State of the entry.
        state: u64,
    },
    /// An accepted readpage.
    Page {
        /// Type of the frame.
        kind: u64,
        /// The owner's hpa, 0 if there is none.
        owner: u64,
    },
    /// An accepted readentry.
    Entry {
        /// Level of the entry.
        level: u64,
        /// State of the entry.
        state: u64,
        /// The hpa it names, 0 if it is FREE.
        hpa: u64,
    },
}

/// What a call answers.
#[derive(Clone, Copy, Debug, PartialEq, Eq)]
pub struct Answer {
    /// 0 if accepted, else the refusal's number.
    pub number: u8,
    /// What is read out with it.
    pub readout: Readout,
}

impl Answer {
    /// True if the call was accepted.
    pub fn is_accepted(self) -> bool {
        self.number == 0
    }
}

impl From<Refusal> for Answer {
    fn from(refusal: Refusal) -> Self {
        let readout = match refusal {
            Refusal::WalkStopped { level, state } | Refusal::EntryState { level, state } => {
                Readout::Stop { level, state }
            }
            _ => Readout::Zeros,
        };
        Answer {
            number: refusal.number(),
            readout,
        }
    }
}

impl From<Readout> for Answer {
    fn from(readout: Readout) -> Self {
        Answer { number: 0, readout }
    }
}
