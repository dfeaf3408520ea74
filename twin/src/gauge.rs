//! The fill gauge.

/// Two marks, the last fill and a lamp.
#[derive(Clone, Copy, Debug)]
pub struct Gauge {
    /// At or above this fill the lamp is lit.
    pub raise: f64,
    /// Below this fill the lamp is put out.
    pub clear: f64,
    /// Fill after the last accepted call. Any bits may stand here.
    pub fill: f64,
    /// True while the lamp is lit.
    pub lamp: bool,
}

impl Gauge {
    /// The gauge that a reset leaves.
    pub const RESET: Gauge = Gauge {
        raise: 1.0,
        clear: 0.0,
        fill: 0.0,
        lamp: false,
    };

    /// True if the marks of this gauge are in rule for a window of `frames`.
    pub fn marks_in_rule(&self, frames: usize) -> bool {
        marks_in_rule(self.raise, self.clear, frames)
    }

    /// Takes note of the fill after an accepted call.
    pub(crate) fn note(&mut self, fill: f64) {
        self.fill = fill;
        if fill >= self.raise {
            self.lamp = true;
        } else if fill < self.clear {
            self.lamp = false;
        }
    }
}

impl Default for Gauge {
    fn default() -> Self {
        Gauge::RESET
    }
}

/// Two gauges are the same if they are so bit for bit.
impl PartialEq for Gauge {
    fn eq(&self, other: &Self) -> bool {
        let bits = |gauge: &Gauge| [gauge.raise, gauge.clear, gauge.fill].map(f64::to_bits);
        bits(self) == bits(other) && self.lamp == other.lamp
    }
}

impl Eq for Gauge {}

/// True if both marks are shares of `frames`, the clear mark is at most the
/// raise mark and the raise mark is above zero.
pub(crate) fn marks_in_rule(raise: f64, clear: f64, frames: usize) -> bool {
    is_share(raise, frames) && is_share(clear, frames) && clear <= raise && raise > 0.0
}

/// True if the mark is, bit for bit, some k from 0 to `frames` divided by
/// `frames`, a power of two.
fn is_share(mark: f64, frames: usize) -> bool {
    let whole = frames as f64;
    // Exact: the scaling is by a power of two.
    let k = (mark * whole).trunc();
    mark.is_sign_positive() && (0.0..=whole).contains(&k) && (k / whole).to_bits() == mark.to_bits()
}
