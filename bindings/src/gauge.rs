//! The fill gauge.

/// Two marks, the last fill and a lamp. Fill and marks are parts of the window:
/// 1.0 is all of its frames.
///
/// A mark must be, bit for bit, some k divided by the frames, the clear mark at
/// most the raise mark, and the raise mark above zero.
#[repr(C)]
#[derive(Clone, Copy, Debug, PartialEq)]
pub struct Gauge {
    /// At or above this fill the lamp is lit.
    pub raise: f64,
    /// Below this fill the lamp is put out.
    pub clear: f64,
    /// Fill after the last accepted call: the frames that aren't NDA, divided
    /// by all. No call looks at it.
    pub fill: f64,
    /// True while the lamp is lit.
    pub lamp: bool,
}

impl Gauge {
    /// The gauge that a reset leaves.
    pub const FRESH: Gauge = Gauge {
        raise: 1.0,
        clear: 0.0,
        fill: 0.0,
        lamp: false,
    };
}
