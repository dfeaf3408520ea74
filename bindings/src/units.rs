//! Numbers with their units. The unit is in the type, so that no number is
//! taken for another.

use std::fmt::{self, Display, Formatter};

use crate::sizes::TABLE_ENTRIES;

/// Bytes in a frame.
pub const FRAME_BYTES: u64 = 4096;

/// A host physical address, in bytes.
#[repr(C)]
#[derive(Clone, Copy, Debug, Default, PartialEq, Eq, PartialOrd, Ord, Hash)]
pub struct Hpa(pub u64);

/// A guest physical address, in bytes.
#[repr(C)]
#[derive(Clone, Copy, Debug, Default, PartialEq, Eq, PartialOrd, Ord, Hash)]
pub struct Gpa(pub u64);

/// A frame's number in the window: frame 0 begins at the base. The stored words
/// name frames so, calls and answers never do; a [`Window`] converts.
///
/// ```compile_fail,E0308
/// # use reefnettle::{Frame, Key, Model, Sizes, Window};
/// let mut model = Model::fresh(Window::BASE_LEAST, Sizes::PROGRAM).unwrap();
/// model.create(Frame(0), Key(32)); // no address
/// ```
#[derive(Clone, Copy, Debug, Default, PartialEq, Eq, PartialOrd, Ord, Hash)]
pub struct Frame(pub usize);

/// A level of the Secure EPT, 0 (pages) to 3 (the root's entries). Another
/// number is an operand like any other, which the model refuses.
#[repr(transparent)]
#[derive(Clone, Copy, Debug, Default, PartialEq, Eq, PartialOrd, Ord, Hash)]
pub struct Level(pub usize);

/// A key (HKID), 32 to 95. Another number is an operand like any other, which
/// the model refuses.
#[repr(transparent)]
#[derive(Clone, Copy, Debug, Default, PartialEq, Eq, PartialOrd, Ord, Hash)]
pub struct Key(pub u64);

/// An epoch of a domain, 1 to 2^32 - 1; of a frame, 0 if it was never blocked.
#[derive(Clone, Copy, Debug, Default, PartialEq, Eq, PartialOrd, Ord, Hash)]
pub struct Epoch(pub u64);

/// A domain record's number in the stock.
#[derive(Clone, Copy, Debug, Default, PartialEq, Eq, PartialOrd, Ord, Hash)]
pub struct Record(pub usize);

/// A Secure EPT table's number in the stock.
#[derive(Clone, Copy, Debug, Default, PartialEq, Eq, PartialOrd, Ord, Hash)]
pub struct Table(pub usize);

// The limits. Both ends belong to each range.

impl Key {
    /// The lowest key.
    pub const LEAST: Key = Key(32);
    /// The highest key.
    pub const MOST: Key = Key(95);
}

impl Level {
    /// The level of the root's entries.
    pub const MOST: Level = Level(3);
}

impl Epoch {
    /// The last epoch.
    pub const MOST: Epoch = Epoch((1 << 32) - 1);
}

impl Gpa {
    /// The first address that is too big.
    pub const END: Gpa = Gpa(1 << 47);

    /// The entry's index for this address in a table of a level's entries; `None`
    /// above the highest level.
    ///
    /// ```
    /// use reefnettle::{Gpa, Level};
    ///
    /// assert_eq!(Gpa(5 << 12).index(Level(0)), Some(5));
    /// assert_eq!(Gpa(5 << 12).index(Level(1)), Some(0));
    /// assert_eq!(Gpa(0).index(Level(4)), None);
    /// ```
    pub fn index(self, level: Level) -> Option<usize> {
        if level > Level::MOST {
            return None;
        }
        let low_zero_bits = 12 + 9 * level.0;
        Some((self.0 >> low_zero_bits) as usize % TABLE_ENTRIES)
    }
}

/// Writes the unit before the number, as scripts do.
macro_rules! display_as {
    ($($unit:literal $number:ident),+) => {$(
        impl Display for $number {
            fn fmt(&self, f: &mut Formatter<'_>) -> fmt::Result {
                write!(f, concat!($unit, " {}"), self.0)
            }
        }
    )+};
}

display_as!("hpa" Hpa, "gpa" Gpa, "frame" Frame, "level" Level, "key" Key);
display_as!("epoch" Epoch, "record" Record, "table" Table);

/// A base and a number of frames: the only way between frames and addresses.
///
/// ```
/// use reefnettle::{Frame, Hpa, Window};
///
/// let window = Window { base: Window::BASE_LEAST, frames: 1024 };
/// assert_eq!(window.hpa(Frame(1)), Some(Hpa(1073745920)));
/// assert_eq!(window.frame(Hpa(1073745920)), Some(Frame(1)));
/// assert_eq!(window.frame(Hpa(1073745921)), None); // not on a frame
/// assert_eq!(window.hpa(Frame(1024)), None);
/// ```
#[derive(Clone, Copy, Debug, PartialEq, Eq, Hash)]
pub struct Window {
    /// Address of frame 0.
    pub base: Hpa,
    /// How many frames there are.
    pub frames: usize,
}

impl Window {
    /// The lowest base. A base is a multiple of it.
    pub const BASE_LEAST: Hpa = Hpa(1 << 30);
    /// The highest base.
    pub const BASE_MOST: Hpa = Hpa(1 << 46);

    /// The address of a frame, if the window has it.
    pub fn hpa(self, frame: Frame) -> Option<Hpa> {
        if frame.0 >= self.frames {
            return None;
        }
        let bytes = FRAME_BYTES.checked_mul(frame.0 as u64)?;
        self.base.0.checked_add(bytes).map(Hpa)
    }

    /// The frame that begins at an address, if the window has one.
    pub fn frame(self, hpa: Hpa) -> Option<Frame> {
        let bytes = hpa.0.checked_sub(self.base.0)?;
        let number = usize::try_from(bytes / FRAME_BYTES).ok()?;
        (bytes % FRAME_BYTES == 0 && number < self.frames).then_some(Frame(number))
    }
}
