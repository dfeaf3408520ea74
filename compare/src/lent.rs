//! What is lent, and numbers with their units.

/// Bytes in a frame.
pub const FRAME_BYTES: u64 = 4096;

/// A host physical address, in bytes.
#[derive(Clone, Copy, Debug, Default, PartialEq, Eq)]
pub struct Hpa(pub u64);

/// A guest physical address, in bytes.
#[derive(Clone, Copy, Debug, Default, PartialEq, Eq)]
pub struct Gpa(pub u64);

/// A level of the Secure EPT, or a number that is none.
#[derive(Clone, Copy, Debug, Default, PartialEq, Eq)]
pub struct Level(pub u64);

/// A key (HKID), or a number that is none.
#[derive(Clone, Copy, Debug, Default, PartialEq, Eq)]
pub struct Key(pub u64);

/// The fill gauge.
#[derive(Clone, Copy, Debug, PartialEq)]
pub struct Gauge {
    pub raise: f64,
    pub clear: f64,
    pub fill: f64,
    pub lamp: bool,
}

impl Gauge {
    /// The gauge that a reset leaves.
    pub const FRESH: Gauge = Gauge {
        raise: 1.0,
        clear: 0.0,
        fill: 0.0,
        lamp: false,
    };
}

/// All that is lent. `docs/TABLES.md` has the words, bit by bit.
#[derive(Clone, Debug, PartialEq)]
pub struct Parts {
    pub base: Hpa,
    pub frames: Vec<u64>,
    pub domains: Vec<u64>,
    pub stock: Vec<u64>,
    pub entries: Vec<u32>,
    pub gauge: Gauge,
}
