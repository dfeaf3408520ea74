//! The stored words with types: what a frame, a domain's record and an entry
//! hold. `docs/TABLES.md` of the repository has their bits.
//!
//! Packing and unpacking lose nothing: what was packed unpacks to itself, what
//! was unpacked packs to the same word. Neither judges more than it must; the
//! library judges the rest.

use crate::answer::Refusal;
use crate::sizes::{CONTROL_PAGES, RECORD_WORDS};
use crate::states::{EntryState, FrameType, Lifecycle, OpState};
use crate::units::{Epoch, Frame, Key, Record, Table};

/// A number's place in a word.
struct Field {
    low: u32,
    bits: u32,
}

impl Field {
    const fn new(low: u32, bits: u32) -> Field {
        Field { low, bits }
    }

    fn get(self, word: u64) -> u64 {
        (word >> self.low) & ((1 << self.bits) - 1)
    }

    /// The number in its place. A number that the field is too narrow for is out
    /// of every range too, so it gets the library's refusal.
    fn put(self, number: u64) -> Result<u64, Refusal> {
        if number >> self.bits != 0 {
            return Err(Refusal::OutOfRange);
        }
        Ok(number << self.low)
    }
}

// The topmost field of a word takes all the bits that are left.

const FRAME_KIND: Field = Field::new(0, 3);
const FRAME_OWNER: Field = Field::new(3, 14);
const FRAME_NUMBER: Field = Field::new(17, 8);
const FRAME_EPOCH: Field = Field::new(25, 39);

const RECORD_KEY: Field = Field::new(0, 7);
const RECORD_LIFECYCLE: Field = Field::new(7, 3);
const RECORD_OP_STATE: Field = Field::new(10, 2);
const RECORD_LISTED: Field = Field::new(12, 3);
const RECORD_CHILDREN: Field = Field::new(15, 15);
const RECORD_EPOCH: Field = Field::new(30, 34);

const ENTRY_STATE: Field = Field::new(0, 3);
const ENTRY_FRAME: Field = Field::new(3, 29);

/// What is stored of a frame, in one word.
///
/// A later version may add fields, so it is made by a function for each type, or
/// from a default (NDA, all zero) whose fields are then set.
///
/// ```
/// use reefnettle::{Epoch, Frame, FrameWord, Table};
///
/// let table = FrameWord::ept(Frame(5), Table(2)).blocked_at(Epoch(3));
/// assert_eq!(table.pack(), Ok(100925483));
/// assert_eq!(FrameWord::unpack(100925483), Ok(table));
/// ```
#[non_exhaustive]
#[derive(Clone, Copy, Debug, Default, PartialEq, Eq, Hash)]
pub struct FrameWord {
    /// What the frame is.
    pub kind: FrameType,
    /// Frame of the owning TDR, for TDCX, EPT and REG; else frame 0.
    pub owner: Frame,
    /// For a TDR its record, for an EPT its table; else 0.
    pub number: usize,
    /// Epoch at which an EPT or REG was last blocked; epoch 0 if it wasn't, and
    /// for other types.
    pub epoch: Epoch,
}

impl FrameWord {
    /// A free frame.
    pub fn nda() -> FrameWord {
        FrameWord::default()
    }

    /// The root page of the domain with this record.
    pub fn tdr(record: Record) -> FrameWord {
        FrameWord {
            kind: FrameType::Tdr,
            number: record.0,
            ..FrameWord::default()
        }
    }

    /// A control page of the domain whose TDR is `owner`.
    pub fn tdcx(owner: Frame) -> FrameWord {
        FrameWord {
            kind: FrameType::Tdcx,
            owner,
            ..FrameWord::default()
        }
    }

    /// A Secure EPT table of the domain whose TDR is `owner`.
    pub fn ept(owner: Frame, table: Table) -> FrameWord {
        FrameWord {
            kind: FrameType::Ept,
            owner,
            number: table.0,
            ..FrameWord::default()
        }
    }

    /// A page of the domain whose TDR is `owner`.
    pub fn reg(owner: Frame) -> FrameWord {
        FrameWord {
            kind: FrameType::Reg,
            owner,
            ..FrameWord::default()
        }
    }

    /// The same, last blocked at an epoch.
    pub fn blocked_at(self, epoch: Epoch) -> FrameWord {
        FrameWord { epoch, ..self }
    }

    /// The record of a TDR.
    pub fn record(self) -> Option<Record> {
        (self.kind == FrameType::Tdr).then_some(Record(self.number))
    }

    /// The table of an EPT.
    pub fn table(self) -> Option<Table> {
        (self.kind == FrameType::Ept).then_some(Table(self.number))
    }

    /// The word; [`Refusal::OutOfRange`] if a number has more bits than its field.
    pub fn pack(self) -> Result<u64, Refusal> {
        Ok(FRAME_KIND.put(self.kind.number())?
            | FRAME_OWNER.put(self.owner.0 as u64)?
            | FRAME_NUMBER.put(self.number as u64)?
            | FRAME_EPOCH.put(self.epoch.0)?)
    }

    /// What a word holds; [`Refusal::OutOfRange`] if there is no such type.
    pub fn unpack(word: u64) -> Result<FrameWord, Refusal> {
        Ok(FrameWord {
            kind: FrameType::of_number(FRAME_KIND.get(word)).ok_or(Refusal::OutOfRange)?,
            owner: Frame(FRAME_OWNER.get(word) as usize),
            number: FRAME_NUMBER.get(word) as usize,
            epoch: Epoch(FRAME_EPOCH.get(word)),
        })
    }
}

/// What is stored of a domain, in words 5. Its root's entries stand with the
/// tables.
///
/// A later version may add fields, so it is made by [`DomainRecord::new`], or
/// from a default (all zero), whose fields are then set.
///
/// ```
/// use reefnettle::{DomainRecord, Frame, Key, Lifecycle};
///
/// let mut record = DomainRecord::new(Key(32));
/// assert_eq!(record.pack()?, [1073741856, 0, 0, 0, 0]);
/// record.lifecycle = Lifecycle::KeysConfigured;
/// record.list(Frame(7))?;
/// assert_eq!(record.control_pages(), [Frame(7)]);
/// # Ok::<(), reefnettle::Refusal>(())
/// ```
#[non_exhaustive]
#[derive(Clone, Copy, Debug, Default, PartialEq, Eq, Hash)]
pub struct DomainRecord {
    /// The key. Its number stays here when it is freed.
    pub key: Key,
    /// How far the domain has come with its key.
    pub lifecycle: Lifecycle,
    /// How far it has come on its way to run.
    pub op_state: OpState,
    /// How many control pages are listed.
    pub listed: usize,
    /// How many frames it owns, its TDR not among them.
    pub children: usize,
    /// The epoch, from 1 on.
    pub epoch: Epoch,
    /// Places for the control pages. Frame 0 where none is listed.
    pub pages: [Frame; CONTROL_PAGES],
}

impl DomainRecord {
    /// A domain's record as `create` leaves it: HKID assigned, uninitialized,
    /// epoch 1.
    pub fn new(key: Key) -> DomainRecord {
        DomainRecord {
            key,
            epoch: Epoch(1),
            ..DomainRecord::default()
        }
    }

    /// The control pages that are listed.
    pub fn control_pages(&self) -> &[Frame] {
        &self.pages[..self.listed.min(CONTROL_PAGES)]
    }

    /// Lists one control page more; [`Refusal::ControlPages`] if all four are.
    /// The children aren't counted here.
    pub fn list(&mut self, page: Frame) -> Result<(), Refusal> {
        let place = self.pages.get_mut(self.listed);
        *place.ok_or(Refusal::ControlPages)? = page;
        self.listed += 1;
        Ok(())
    }

    /// The words; [`Refusal::OutOfRange`] if a number has more bits than its
    /// field.
    pub fn pack(self) -> Result<[u64; RECORD_WORDS], Refusal> {
        let scalars = RECORD_KEY.put(self.key.0)?
            | RECORD_LIFECYCLE.put(self.lifecycle.number())?
            | RECORD_OP_STATE.put(self.op_state.number())?
            | RECORD_LISTED.put(self.listed as u64)?
            | RECORD_CHILDREN.put(self.children as u64)?
            | RECORD_EPOCH.put(self.epoch.0)?;
        let [a, b, c, d] = self.pages.map(|page| page.0 as u64);
        Ok([scalars, a, b, c, d])
    }

    /// What the words hold; [`Refusal::OutOfRange`] if there is no such lifecycle
    /// or op state.
    pub fn unpack(words: [u64; RECORD_WORDS]) -> Result<DomainRecord, Refusal> {
        let [scalars, pages @ ..] = words;
        let lifecycle = Lifecycle::of_number(RECORD_LIFECYCLE.get(scalars));
        let op_state = OpState::of_number(RECORD_OP_STATE.get(scalars));
        Ok(DomainRecord {
            key: Key(RECORD_KEY.get(scalars)),
            lifecycle: lifecycle.ok_or(Refusal::OutOfRange)?,
            op_state: op_state.ok_or(Refusal::OutOfRange)?,
            listed: RECORD_LISTED.get(scalars) as usize,
            children: RECORD_CHILDREN.get(scalars) as usize,
            epoch: Epoch(RECORD_EPOCH.get(scalars)),
            pages: pages.map(|page| Frame(page as usize)),
        })
    }
}

/// What is stored of an entry, in one word.
///
/// ```
/// use reefnettle::{EntryState, EntryWord, Frame};
///
/// let entry = EntryWord { state: EntryState::NlMapped, frame: Frame(5) };
/// assert_eq!(entry.pack(), Ok(41));
/// assert_eq!(EntryWord::unpack(0), Ok(EntryWord::FREE));
/// ```
#[derive(Clone, Copy, Debug, Default, PartialEq, Eq, Hash)]
pub struct EntryWord {
    /// What the entry says of its frame.
    pub state: EntryState,
    /// The frame; frame 0 if FREE.
    pub frame: Frame,
}

impl EntryWord {
    /// An entry that names no frame.
    pub const FREE: EntryWord = EntryWord {
        state: EntryState::Free,
        frame: Frame(0),
    };

    /// The word; [`Refusal::OutOfRange`] if the frame has more bits than its
    /// field.
    pub fn pack(self) -> Result<u32, Refusal> {
        let word = ENTRY_STATE.put(self.state.number())? | ENTRY_FRAME.put(self.frame.0 as u64)?;
        Ok(word as u32) // the fields end at bit 31
    }

    /// What a word holds; [`Refusal::OutOfRange`] if there is no such state.
    pub fn unpack(word: u32) -> Result<EntryWord, Refusal> {
        let word = word.into();
        Ok(EntryWord {
            state: EntryState::of_number(ENTRY_STATE.get(word)).ok_or(Refusal::OutOfRange)?,
            frame: Frame(ENTRY_FRAME.get(word) as usize),
        })
    }
}
