//! The file that the door maps: the lent words lie there, for both sides.

use std::fs::{self, File, OpenOptions};
use std::io;
use std::os::unix::fs::FileExt;
use std::path::{Path, PathBuf};
use std::process;
use std::sync::atomic::{AtomicU64, Ordering};

/// The parts of the file, in their order; door.c has the same.
#[derive(Clone, Copy)]
pub enum Part {
    Frames,
    Domains,
    Stock,
    Entries,
    Gauge,
}

const PARTS: usize = Part::Gauge as usize + 1;
pub const PART_BYTES: usize = 32 * 65536;

/// What is written at once, if anything of it is new.
const PIECE_BYTES: usize = 4096;

/// Where in its part an array lies: that side is guarded.
#[derive(Clone, Copy)]
pub enum Side {
    Begin,
    End,
}

/// The bytes of an array in its part.
#[derive(Clone, Copy)]
pub struct Span {
    part: Part,
    /// Bytes from the part's beginning.
    pub at: usize,
    bytes: usize,
}

impl Span {
    /// Panics if the part is too short.
    pub fn new(part: Part, bytes: usize, side: Side) -> Span {
        assert!(bytes <= PART_BYTES, "bytes {bytes} are too many to lend");
        let at = match side {
            Side::Begin => 0,
            Side::End => PART_BYTES - bytes,
        };
        Span { part, at, bytes }
    }

    fn begin(self) -> usize {
        self.part as usize * PART_BYTES + self.at
    }
}

/// A number of the lent arrays.
pub trait Word: Copy {
    const BYTES: usize;
    fn put(self, bytes: &mut [u8]);
    fn get(bytes: &[u8]) -> Self;
}

macro_rules! word {
    ($($number:ty),+) => {$(
        impl Word for $number {
            const BYTES: usize = std::mem::size_of::<$number>();
            fn put(self, bytes: &mut [u8]) {
                bytes.copy_from_slice(&self.to_le_bytes());
            }
            fn get(bytes: &[u8]) -> Self {
                Self::from_le_bytes(bytes.try_into().expect("the bytes of one word"))
            }
        }
    )+};
}

word!(u32, u64);

/// The file, and what it is known to hold.
pub struct Shared {
    file: File,
    known: Vec<u8>,
    /// Bytes about to be lent; kept so that each ask needn't make room anew.
    lent: Vec<u8>,
}

/// The name of the file, which is gone with this.
pub struct Name(PathBuf);

impl Name {
    pub fn path(&self) -> &Path {
        &self.0
    }
}

impl Drop for Name {
    fn drop(&mut self) {
        // Who has the file open keeps it; a name that stays does no harm.
        let _ = fs::remove_file(&self.0);
    }
}

impl Shared {
    /// A new file of zeros, and its name until the door has opened it.
    pub fn new() -> io::Result<(Shared, Name)> {
        static MADE: AtomicU64 = AtomicU64::new(0);
        let made = MADE.fetch_add(1, Ordering::Relaxed);
        let name = format!("reefnettle-door-{}-{made}", process::id());
        let path = std::env::temp_dir().join(name);
        let mut options = OpenOptions::new();
        let file = options
            .read(true)
            .write(true)
            .create_new(true)
            .open(&path)?;
        let name = Name(path);
        let bytes = PARTS * PART_BYTES;
        file.set_len(bytes as u64)?;
        let shared = Shared {
            file,
            known: vec![0; bytes],
            lent: Vec::new(),
        };
        Ok((shared, name))
    }

    /// Makes the file hold these words. What it holds already isn't written again.
    pub fn lend<T: Word>(&mut self, part: Part, words: &[T], side: Side) -> io::Result<Span> {
        let span = Span::new(part, T::BYTES * words.len(), side);
        self.lent.resize(span.bytes, 0);
        for (bytes, &word) in self.lent.chunks_exact_mut(T::BYTES).zip(words) {
            word.put(bytes);
        }
        let known = &mut self.known[span.begin()..][..span.bytes];
        let pieces = self
            .lent
            .chunks(PIECE_BYTES)
            .zip(known.chunks_mut(PIECE_BYTES));
        for (piece, (new, old)) in pieces.enumerate() {
            if new != old {
                let at = span.begin() + piece * PIECE_BYTES;
                self.file.write_all_at(new, at as u64)?;
                old.copy_from_slice(new);
            }
        }
        Ok(span)
    }

    /// The words that the file holds now, every one of them read.
    pub fn read<T: Word>(&mut self, span: Span) -> io::Result<Vec<T>> {
        let known = &mut self.known[span.begin()..][..span.bytes];
        self.file.read_exact_at(known, span.begin() as u64)?;
        Ok(known.chunks_exact(T::BYTES).map(T::get).collect())
    }
}
