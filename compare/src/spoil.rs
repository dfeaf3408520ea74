//! What is done to reached tables before they are lent.

use reefnettle_compare::{Gauge, Hpa, Parts, Request};
use reefnettle_twin::{Machine, Rng, BASE_HIGHEST, BASE_LOWEST, ENTRIES, FRAME_BYTES};

use crate::damage::Damage;
use crate::floats;
use crate::layout::{self, RECORD_WORDS};

/// A way to spoil lent words, or not to.
#[derive(Clone, Copy, Debug, PartialEq, Eq, PartialOrd, Ord)]
pub enum Spoil {
    /// As they were reached.
    Nothing,
    /// Stored numbers changed to others in range.
    InRange,
    /// Any lifecycle in each record, in use or not.
    Lifecycles,
    /// A stored number out of range.
    OutOfRange,
    /// Bits turned in any words, spare ones of the stock too.
    StrayBits,
    /// Another length of a slice, other sizes, or another base.
    Sizes,
    /// Slices without words.
    Empty,
    /// Any bits in unused records and tables.
    Unused,
    /// Any bits in the gauge.
    Gauge,
}

impl Spoil {
    pub const ALL: [Spoil; 9] = [
        Spoil::Nothing,
        Spoil::InRange,
        Spoil::Lifecycles,
        Spoil::OutOfRange,
        Spoil::StrayBits,
        Spoil::Sizes,
        Spoil::Empty,
        Spoil::Unused,
        Spoil::Gauge,
    ];

    /// One of them; answer 14 has the most places to come by.
    pub fn draw(rng: &mut Rng) -> Spoil {
        Spoil::ALL[rng.weighted(&[20, 45, 8, 8, 6, 6, 1, 6, 8])]
    }

    /// The words of a machine, spoilt where a request comes by.
    pub fn spoilt(self, rng: &mut Rng, machine: &Machine, request: &Request) -> Parts {
        let mut machine = machine.clone();
        match self {
            Spoil::InRange => Damage::aimed(rng, &mut machine, request).in_range(),
            Spoil::Lifecycles => Damage::aimed(rng, &mut machine, request).change_lifecycles(),
            Spoil::OutOfRange => Damage::aimed(rng, &mut machine, request).out_of_range(),
            _ => {}
        }
        let mut lent = layout::pack(&machine);
        match self {
            Spoil::StrayBits => turn_bits(rng, &mut lent),
            Spoil::Sizes => change_sizes(rng, &mut lent),
            Spoil::Empty => empty(rng, &mut lent),
            Spoil::Unused => fill_unused(rng, &mut lent),
            Spoil::Gauge => lent.gauge = any_gauge(rng, &machine),
            _ => {}
        }
        lent
    }
}

fn turn_bits(rng: &mut Rng, lent: &mut Parts) {
    for _ in 0..=rng.below(2) {
        let words: &mut [u64] = match rng.below(4) {
            0 => &mut lent.frames,
            1 => &mut lent.domains,
            2 => &mut lent.stock,
            _ => {
                let at = rng.index(lent.entries.len());
                lent.entries[at] ^= 1 << rng.below(u32::BITS.into());
                continue;
            }
        };
        let at = rng.index(words.len());
        words[at] ^= 1 << rng.below(u64::BITS.into());
    }
}

fn change_sizes(rng: &mut Rng, lent: &mut Parts) {
    match rng.below(6) {
        0 => resize(rng, &mut lent.frames, 1),
        1 => resize(rng, &mut lent.domains, RECORD_WORDS),
        2 => resize(rng, &mut lent.stock, 1),
        3 => resize(rng, &mut lent.entries, ENTRIES),
        4 => lent.base = other_base(rng),
        _ => *lent = other_sizes(rng, lent),
    }
}

/// Gives a slice another length: by a word, by a unit of it, or by half.
fn resize<T: Copy + Default>(rng: &mut Rng, words: &mut Vec<T>, unit: usize) {
    let length = words.len();
    let less = [1, unit, length / 2].map(|words| length.saturating_sub(words));
    let more = [1, unit, length].map(|words| length + words);
    let lengths = [less, more].concat();
    words.resize(lengths[rng.index(lengths.len())], T::default());
}

/// A base that may be out of the limits, by too little or too much.
fn other_base(rng: &mut Rng) -> Hpa {
    let bases = [
        0,
        BASE_LOWEST / 2,
        BASE_LOWEST + FRAME_BYTES,
        BASE_LOWEST + rng.below(BASE_LOWEST),
        2 * BASE_LOWEST,
        BASE_HIGHEST,
        BASE_HIGHEST + BASE_LOWEST,
        u64::MAX - (BASE_LOWEST - 1),
        rng.bits(),
    ];
    Hpa(bases[rng.index(bases.len())])
}

/// Fresh tables whose lengths agree, one size out of the limits.
fn other_sizes(rng: &mut Rng, lent: &Parts) -> Parts {
    let (mut frames, mut records, mut tables) = (512, 1, 4);
    match rng.below(3) {
        0 => frames = [0, 1, 256, 511, 513, 768, 18432, 32768][rng.index(8)],
        1 => records = [0, 65, 128][rng.index(3)],
        _ => tables = [0, 3, 257, 512][rng.index(4)],
    }
    let machine = Machine::with_sizes(lent.base.0, frames, records, tables);
    layout::pack(&machine)
}

fn empty(rng: &mut Rng, lent: &mut Parts) {
    let which = 1 + rng.below(15);
    if which & 1 != 0 {
        lent.frames.clear();
    }
    if which & 2 != 0 {
        lent.domains.clear();
    }
    if which & 4 != 0 {
        lent.stock.clear();
    }
    if which & 8 != 0 {
        lent.entries.clear();
    }
}

/// Any bits in the words of unused stock.
fn fill_unused(rng: &mut Rng, lent: &mut Parts) {
    let blocks = lent.entries.len() / ENTRIES;
    let records = lent.domains.len() / RECORD_WORDS;
    for block in 0..blocks {
        if layout::in_use(lent, block) {
            continue;
        }
        let entries = &mut lent.entries[ENTRIES * block..][..ENTRIES];
        entries.fill_with(|| rng.bits() as u32);
        // The last blocks are roots, each with a record.
        if let Some(record) = (block + records).checked_sub(blocks) {
            let words = &mut lent.domains[RECORD_WORDS * record..][..RECORD_WORDS];
            words.fill_with(|| rng.bits());
        }
    }
}

fn any_gauge(rng: &mut Rng, machine: &Machine) -> Gauge {
    let (frames, used) = (machine.frames.len(), machine.used_frames());
    Gauge {
        raise: floats::mark(rng, frames, used),
        clear: floats::mark(rng, frames, used),
        fill: floats::odd(rng, frames),
        lamp: rng.chance(500),
    }
}

/// Frames, records and tables of a window.
pub type Sizes = (usize, usize, usize);

/// The least, the program's, others, some that fill the words of the stock to
/// the last bit, and the largest; each with its weight.
pub const SIZES: [(Sizes, u64); 10] = [
    ((512, 1, 4), 20),
    ((1024, 4, 12), 30),
    ((512, 3, 16), 30),
    ((2048, 2, 5), 8),
    ((4096, 16, 64), 3),
    ((512, 2, 62), 3),
    ((512, 2, 63), 3),
    ((16384, 1, 4), 1),
    ((512, 64, 256), 1),
    ((16384, 64, 256), 1),
];

/// Each in turn for the first windows, then any.
pub fn sizes(rng: &mut Rng, window: usize) -> Sizes {
    let any = rng.weighted(&SIZES.map(|(_, weight)| weight));
    SIZES.get(window).unwrap_or(&SIZES[any]).0
}

/// Any bits in all words, of sizes within the limits: what a reset may find.
pub fn junk(rng: &mut Rng, (frames, records, tables): Sizes) -> Parts {
    const STEPS: u64 = BASE_HIGHEST / BASE_LOWEST;
    let base = BASE_LOWEST * [1, STEPS, 1 + rng.below(STEPS)][rng.index(3)];
    let blocks = tables + records;
    Parts {
        base: Hpa(base),
        frames: (0..frames).map(|_| rng.bits()).collect(),
        domains: (0..RECORD_WORDS * records).map(|_| rng.bits()).collect(),
        stock: (0..layout::stock_words(blocks))
            .map(|_| rng.bits())
            .collect(),
        entries: (0..ENTRIES * blocks).map(|_| rng.bits() as u32).collect(),
        gauge: Gauge {
            raise: floats::odd(rng, frames),
            clear: floats::odd(rng, frames),
            fill: floats::odd(rng, frames),
            lamp: rng.chance(500),
        },
    }
}
