//! The lent words and the twin's tables, each made from the other as
//! `docs/TABLES.md` has them.

use reefnettle_compare::{Gauge, Hpa, Parts};
use reefnettle_twin::{Entry, Frame, Machine, Record, CONTROL_PAGES, ENTRIES};

pub const RECORD_WORDS: usize = 1 + CONTROL_PAGES;
const WORD_BITS: usize = 64;

/// Words of the stock for so many blocks.
pub fn stock_words(blocks: usize) -> usize {
    (blocks + WORD_BITS - 1) / WORD_BITS
}

/// The twin's tables for any words; `None` if the lengths fit no sizes at all,
/// in or out of the limits.
pub fn unpack(lent: &Parts) -> Option<Machine> {
    let (records, tables) = stock_sizes(lent)?;
    let mut machine = Machine::with_sizes(lent.base.0, 0, records, tables);
    machine.frames = lent.frames.iter().map(|&word| frame_of(word)).collect();
    let blocks = lent.entries.chunks_exact(ENTRIES).map(block_of);
    let mut blocks = blocks.zip((0..).map(|block| in_use(lent, block)));
    for table in &mut machine.tables {
        (table.entries, table.in_use) = blocks.next()?;
    }
    let words = lent.domains.chunks_exact(RECORD_WORDS);
    for (record, words) in machine.records.iter_mut().zip(words) {
        *record = record_of(words);
        (record.root, record.in_use) = blocks.next()?;
    }
    machine.gauge = twin_gauge(&lent.gauge);
    Some(machine)
}

/// The words for the twin's tables.
pub fn pack(machine: &Machine) -> Parts {
    let tables = machine.tables.iter().map(|t| (&t.entries, t.in_use));
    let roots = machine.records.iter().map(|r| (&r.root, r.in_use));
    let blocks: Vec<_> = tables.chain(roots).collect();
    let mut stock = vec![0; stock_words(blocks.len())];
    for (block, _) in blocks.iter().enumerate().filter(|(_, (_, used))| *used) {
        stock[block / WORD_BITS] |= 1 << (block % WORD_BITS);
    }
    Parts {
        base: Hpa(machine.base),
        frames: machine.frames.iter().map(frame_word).collect(),
        domains: machine.records.iter().flat_map(record_words).collect(),
        stock,
        entries: blocks
            .iter()
            .flat_map(|(entries, _)| entries.iter().map(entry_word))
            .collect(),
        gauge: library_gauge(&machine.gauge),
    }
}

/// True if a bit that no block has is set. The twin has no place for it.
pub fn has_spare_bits(lent: &Parts) -> bool {
    let blocks = lent.entries.len() / ENTRIES;
    (blocks..lent.stock.len() * WORD_BITS).any(|block| in_use(lent, block))
}

/// How many records and tables the lengths come to.
fn stock_sizes(lent: &Parts) -> Option<(usize, usize)> {
    let records = lent.domains.len() / RECORD_WORDS;
    let blocks = lent.entries.len() / ENTRIES;
    let fits = lent.domains.len() == RECORD_WORDS * records
        && lent.entries.len() == ENTRIES * blocks
        && lent.stock.len() == stock_words(blocks);
    fits.then_some((records, blocks.checked_sub(records)?))
}

pub fn in_use(lent: &Parts, block: usize) -> bool {
    lent.stock[block / WORD_BITS] >> (block % WORD_BITS) & 1 == 1
}

/// The number in so many bits of a word, from a lowest bit on.
fn field(word: u64, lowest: u32, bits: u32) -> u64 {
    word >> lowest & ((1 << bits) - 1)
}

fn frame_of(word: u64) -> Frame {
    Frame {
        kind: field(word, 0, 3),
        owner: field(word, 3, 14),
        number: field(word, 17, 8),
        epoch: field(word, 25, 39),
    }
}

fn frame_word(frame: &Frame) -> u64 {
    frame.kind | frame.owner << 3 | frame.number << 17 | frame.epoch << 25
}

fn record_of(words: &[u64]) -> Record {
    let mut pages = [0; CONTROL_PAGES];
    pages.copy_from_slice(&words[1..]);
    Record {
        key: field(words[0], 0, 7),
        lifecycle: field(words[0], 7, 3),
        op_state: field(words[0], 10, 2),
        page_count: field(words[0], 12, 3),
        child_count: field(words[0], 15, 15),
        epoch: field(words[0], 30, 34),
        pages,
        ..Record::default()
    }
}

fn record_words(record: &Record) -> [u64; RECORD_WORDS] {
    let scalars = record.key
        | record.lifecycle << 7
        | record.op_state << 10
        | record.page_count << 12
        | record.child_count << 15
        | record.epoch << 30;
    let [a, b, c, d] = record.pages;
    [scalars, a, b, c, d]
}

fn block_of(words: &[u32]) -> [Entry; ENTRIES] {
    let mut entries = [Entry::FREE; ENTRIES];
    for (entry, &word) in entries.iter_mut().zip(words) {
        *entry = Entry {
            state: word & 7,
            frame: word >> 3,
        };
    }
    entries
}

fn entry_word(entry: &Entry) -> u32 {
    entry.state | entry.frame << 3
}

fn twin_gauge(gauge: &Gauge) -> reefnettle_twin::Gauge {
    let &Gauge {
        raise,
        clear,
        fill,
        lamp,
    } = gauge;
    reefnettle_twin::Gauge {
        raise,
        clear,
        fill,
        lamp,
    }
}

fn library_gauge(gauge: &reefnettle_twin::Gauge) -> Gauge {
    let &reefnettle_twin::Gauge {
        raise,
        clear,
        fill,
        lamp,
    } = gauge;
    Gauge {
        raise,
        clear,
        fill,
        lamp,
    }
}

#[cfg(test)]
mod tests {
    use super::*;
    use reefnettle_twin::{replay_machine, Call, Rng};

    /// The second example of docs/TABLES.md: a domain with tables in frames 5 to
    /// 7 and pages in frames 8 and 9, the entry of frame 7 blocked.
    fn example() -> Machine {
        let mut machine = replay_machine();
        let hpa = |frame| (1 << 30) + 4096 * frame;
        let (domain, gpa) = (hpa(0), 0);
        let mut calls = vec![
            Call::Create {
                page: domain,
                key: 32,
            },
            Call::KeyConfig { domain },
        ];
        calls.extend((1..=4).map(|n| Call::AddCx {
            domain,
            page: hpa(n),
        }));
        calls.push(Call::Init { domain });
        calls.extend((1..=3).rev().map(|level| Call::SeptAdd {
            domain,
            gpa,
            level,
            page: hpa(8 - level),
        }));
        calls.extend([8, 9].map(|n| Call::PageAdd {
            domain,
            gpa: 4096 * (n - 8),
            page: hpa(n),
        }));
        let level = 1;
        calls.push(Call::Block { domain, gpa, level });
        assert!(calls.into_iter().all(|c| machine.call(c).is_accepted()));
        machine
    }

    #[test]
    fn words_are_those_of_the_example() {
        let lent = pack(&example());
        let frames = [1, 2, 2, 2, 2, 3, 131075, 33816579, 4, 4, 0];
        assert_eq!(lent.frames[..11], frames);
        assert_eq!(lent.domains[..6], [1074054304, 1, 2, 3, 4, 0]);
        assert_eq!(lent.stock, [4103]);
        let places = [6144, 0, 512, 1024, 1025, 1026];
        assert_eq!(places.map(|at| lent.entries[at]), [41, 49, 60, 66, 74, 0]);
        assert_eq!(lent.gauge.fill, 10.0 / 1024.0);
        let lengths = [lent.frames.len(), lent.domains.len(), lent.stock.len()];
        assert_eq!((lengths, lent.entries.len()), ([1024, 20, 1], 8192));
    }

    #[test]
    fn any_words_come_back() {
        let mut rng = Rng::new(1);
        let blocks = 5;
        let lent = Parts {
            base: Hpa(rng.bits()),
            frames: (0..512).map(|_| rng.bits()).collect(),
            domains: (0..RECORD_WORDS).map(|_| rng.bits()).collect(),
            stock: vec![rng.below(1 << blocks)],
            entries: (0..blocks * ENTRIES).map(|_| rng.bits() as u32).collect(),
            gauge: Gauge::FRESH,
        };
        assert_eq!(pack(&unpack(&lent).unwrap()), lent);
    }

    #[test]
    fn spare_bits_begin_behind_the_last_block() {
        let mut lent = pack(&replay_machine());
        lent.stock[0] = (1 << 16) - 1;
        assert!(!has_spare_bits(&lent));
        lent.stock[0] = 1 << 16;
        assert!(has_spare_bits(&lent));
    }
}
