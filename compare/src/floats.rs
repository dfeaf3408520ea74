//! Numbers for the gauge, in rule and out of it.

use reefnettle_twin::Rng;

/// A mark of a window of so many frames, more often than not. It lies near the
/// used frames more often than elsewhere, so that fills come to both its sides.
pub fn mark(rng: &mut Rng, frames: usize, used: usize) -> f64 {
    if rng.chance(150) {
        return odd(rng, frames);
    }
    let k = match rng.below(3) {
        0 => rng.below(frames as u64 + 1),
        _ => (used as u64 + rng.below(4)).saturating_sub(1),
    };
    k as f64 / frames as f64
}

/// Any float, and most often one that is nearly a mark.
pub fn odd(rng: &mut Rng, frames: usize) -> f64 {
    const EXPONENT: u64 = 0x7ff << 52;
    const SIGN: u64 = 1 << 63;
    let share = rng.below(frames as u64 + 1) as f64 / frames.max(1) as f64;
    let payload = rng.below(1 << 52);
    let sign = if rng.chance(500) { SIGN } else { 0 };
    f64::from_bits(match rng.below(9) {
        0 => share.to_bits() + 1,
        1 => share.to_bits().saturating_sub(1),
        2 => share.to_bits() ^ 1 << rng.below(64),
        3 => (share + 0.5 / frames.max(1) as f64).to_bits(),
        4 => sign | EXPONENT | payload.max(1), // NaN
        5 => sign | EXPONENT,                  // infinite
        6 => sign | payload,                   // subnormal
        7 => sign,                             // zero
        _ => rng.bits(),
    })
}
