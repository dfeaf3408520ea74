//! Lent words written by hand, as `docs/TABLES.md` has them.

use reefnettle_compare::{Gauge, Hpa, Parts, FRAME_BYTES};

pub const BASE: Hpa = Hpa(1 << 30);

// Frame types.
pub const TDR: u64 = 1;
pub const TDCX: u64 = 2;
pub const EPT: u64 = 3;
pub const REG: u64 = 4;

// States of an entry.
pub const NL_MAPPED: u32 = 1;
pub const MAPPED: u32 = 2;

/// The root of record 0 is the block behind the four tables.
pub const ROOT: usize = 4;

/// A frame's word.
pub fn frame(kind: u64, owner: u64, number: u64, epoch: u64) -> u64 {
    kind | owner << 3 | number << 17 | epoch << 25
}

/// A record's word of scalars.
pub fn scalars(key: u64, life: u64, op: u64, listed: u64, children: u64, epoch: u64) -> u64 {
    key | life << 7 | op << 10 | listed << 12 | children << 15 | epoch << 30
}

pub fn at(frame: u64) -> Hpa {
    Hpa(BASE.0 + FRAME_BYTES * frame)
}

pub fn put_entry(lent: &mut Parts, block: usize, index: usize, state: u32, frame: u32) {
    lent.entries[512 * block + index] = state | frame << 3;
}

/// A state in range: frames 512, record 1, tables 4. Frame 0 is a TDR, 1 to 4
/// are its control pages, 5 to 7 its tables 0 to 2, one below the other, and 8
/// is its page. Table 3 is unused. The way to the page leads through these
/// entries, the root's first.
pub fn tree(way: [usize; 4]) -> Parts {
    let mut lent = Parts {
        base: BASE,
        frames: vec![0; 512],
        domains: vec![scalars(32, 1, 1, 4, 8, 1), 1, 2, 3, 4],
        stock: vec![1 << ROOT | 0b111],
        entries: vec![0; 512 * 5],
        gauge: Gauge::FRESH,
    };
    lent.frames[0] = frame(TDR, 0, 0, 0);
    lent.frames[1..5].fill(frame(TDCX, 0, 0, 0));
    for table in 0..3 {
        lent.frames[5 + table] = frame(EPT, 0, table as u64, 0);
    }
    lent.frames[8] = frame(REG, 0, 0, 0);
    put_entry(&mut lent, ROOT, way[0], NL_MAPPED, 5);
    put_entry(&mut lent, 0, way[1], NL_MAPPED, 6);
    put_entry(&mut lent, 1, way[2], NL_MAPPED, 7);
    put_entry(&mut lent, 2, way[3], MAPPED, 8);
    lent
}
