//! The library's own functions, in plain numbers: what `include/reefnettle.h`
//! says, for whoever wants an answer as its number. [`Model`](crate::Model) and
//! [`Run`](crate::Run) give the same with types.

use crate::call::Call;
use crate::gauge::Gauge;
use crate::parts::Parts;
use crate::units::{Gpa, Hpa, Key, Level};

/// The version of the library that this package is for. It goes up when a struct,
/// a number or the layout of a stored word changes, so that the two no longer fit.
/// A new function alone doesn't move it: a library that lacks it can't be linked.
pub const VERSION: u64 = 3;

/// Numbers of the calls.
#[allow(missing_docs)]
pub mod number {
    pub const RESET: u64 = 0;
    pub const SET_MARKS: u64 = 1;
    pub const CREATE: u64 = 2;
    pub const KEYCONFIG: u64 = 3;
    pub const ADDCX: u64 = 4;
    pub const INIT: u64 = 5;
    pub const SEPTADD: u64 = 6;
    pub const PAGEADD: u64 = 7;
    pub const FINALIZE: u64 = 8;
    pub const PAGEAUG: u64 = 9;
    pub const BLOCK: u64 = 10;
    pub const TRACK: u64 = 11;
    pub const UNBLOCK: u64 = 12;
    pub const PAGEREMOVE: u64 = 13;
    pub const SEPTREMOVE: u64 = 14;
    pub const FLUSHDONE: u64 = 15;
    pub const KEYFREE: u64 = 16;
    pub const RECLAIM: u64 = 17;
    pub const READPAGE: u64 = 18;
    pub const READENTRY: u64 = 19;
    pub const CACHEWB: u64 = 20;
}

/// A call and its operands. Operands that the call doesn't have aren't read.
#[repr(C)]
#[derive(Clone, Copy, Debug, Default, PartialEq)]
pub struct Request {
    /// One of [`number`]; any other is answered with 15.
    pub call: u64,
    /// Address of the domain's TDR.
    pub domain: Hpa,
    /// Guest address of the entry.
    pub gpa: Gpa,
    /// Level of the entry.
    pub level: Level,
    /// Address of a frame.
    pub frame: Hpa,
    /// Key of a new domain.
    pub key: Key,
    /// Raise mark of the gauge.
    pub raise: f64,
    /// Clear mark of the gauge.
    pub clear: f64,
}

impl From<&Call> for Request {
    /// The call in the library's own numbers; operands that it doesn't have are 0.
    fn from(call: &Call) -> Request {
        match *call {
            Call::Reset => bare(number::RESET),
            Call::SetMarks { raise, clear } => set_marks(raise, clear),
            Call::Create { frame, key } => create(frame, key),
            Call::KeyConfig { domain } => on_domain(number::KEYCONFIG, domain),
            Call::AddCx { domain, frame } => on_page(number::ADDCX, domain, Gpa(0), frame),
            Call::Init { domain } => on_domain(number::INIT, domain),
            Call::SeptAdd {
                domain,
                gpa,
                level,
                frame,
            } => Request {
                level,
                ..on_page(number::SEPTADD, domain, gpa, frame)
            },
            Call::PageAdd { domain, gpa, frame } => on_page(number::PAGEADD, domain, gpa, frame),
            Call::Finalize { domain } => on_domain(number::FINALIZE, domain),
            Call::PageAug { domain, gpa, frame } => on_page(number::PAGEAUG, domain, gpa, frame),
            Call::Block { domain, gpa, level } => on_entry(number::BLOCK, domain, gpa, level),
            Call::Track { domain } => on_domain(number::TRACK, domain),
            Call::Unblock { domain, gpa, level } => on_entry(number::UNBLOCK, domain, gpa, level),
            Call::PageRemove { domain, gpa } => on_entry(number::PAGEREMOVE, domain, gpa, Level(0)),
            Call::SeptRemove { domain, gpa, level } => {
                on_entry(number::SEPTREMOVE, domain, gpa, level)
            }
            Call::FlushDone { domain } => on_domain(number::FLUSHDONE, domain),
            Call::CacheWb => bare(number::CACHEWB),
            Call::KeyFree { domain } => on_domain(number::KEYFREE, domain),
            Call::Reclaim { frame } => on_frame(number::RECLAIM, frame),
            Call::ReadPage { frame } => on_frame(number::READPAGE, frame),
            Call::ReadEntry { domain, gpa, level } => {
                on_entry(number::READENTRY, domain, gpa, level)
            }
        }
    }
}

fn bare(call: u64) -> Request {
    Request {
        call,
        ..Request::default()
    }
}

fn set_marks(raise: f64, clear: f64) -> Request {
    Request {
        raise,
        clear,
        ..bare(number::SET_MARKS)
    }
}

fn create(frame: Hpa, key: Key) -> Request {
    Request {
        key,
        ..on_frame(number::CREATE, frame)
    }
}

fn on_domain(call: u64, domain: Hpa) -> Request {
    Request {
        domain,
        ..bare(call)
    }
}

fn on_frame(call: u64, frame: Hpa) -> Request {
    Request {
        frame,
        ..bare(call)
    }
}

fn on_page(call: u64, domain: Hpa, gpa: Gpa, frame: Hpa) -> Request {
    Request {
        domain,
        gpa,
        ..on_frame(call, frame)
    }
}

fn on_entry(call: u64, domain: Hpa, gpa: Gpa, level: Level) -> Request {
    Request {
        gpa,
        level,
        ..on_domain(call, domain)
    }
}

/// What the library answers; zeros where nothing is read out.
#[repr(C)]
#[derive(Clone, Copy, Debug, Default, PartialEq, Eq)]
pub struct Answer {
    /// 0 if accepted, else why not.
    pub number: u64,
    /// The type that an accepted readpage reads.
    pub kind: u64,
    /// The owner that an accepted readpage reads, 0 if there is none.
    pub owner: Hpa,
    /// The level that answers 6 and 7 and an accepted readentry read.
    pub level: Level,
    /// The entry's state, read with the level.
    pub state: u64,
    /// The address that an accepted readentry reads, 0 if the entry is FREE.
    pub hpa: Hpa,
}

/// What a run knows of its tables: `reefnettle_run` of the header.
#[repr(C)]
#[derive(Clone, Copy, Debug, PartialEq)]
pub(crate) struct Known {
    pub(crate) gauge: Gauge,
    pub(crate) used: u64,
    pub(crate) lent: bool,
    pub(crate) marked: bool,
}

/// What a request of a run gives: `reefnettle_next_answer` of the header.
#[repr(C)]
#[derive(Clone, Copy, Debug, PartialEq)]
pub(crate) struct Next {
    pub(crate) answer: Answer,
    pub(crate) known: Known,
}

extern "C" {
    fn reefnettle_ask(
        base: Hpa,
        frames: *mut u64,
        frames_words: usize,
        domains: *mut u64,
        domains_words: usize,
        stock: *mut u64,
        stock_words: usize,
        entries: *mut u32,
        entries_words: usize,
        gauge: *mut Gauge,
        request: Request,
    ) -> Answer;

    fn reefnettle_begin(
        base: Hpa,
        frames: *const u64,
        frames_words: usize,
        domains: *const u64,
        domains_words: usize,
        stock: *const u64,
        stock_words: usize,
        entries: *const u32,
        entries_words: usize,
        gauge: Gauge,
    ) -> Known;

    fn reefnettle_next(
        base: Hpa,
        frames: *mut u64,
        frames_words: usize,
        domains: *mut u64,
        domains_words: usize,
        stock: *mut u64,
        stock_words: usize,
        entries: *mut u32,
        entries_words: usize,
        known: Known,
        request: Request,
    ) -> Next;

    fn reefnettle_version() -> u64;
}

/// The version of the library that is linked. Where it isn't [`VERSION`], the
/// first ask panics, before anything is lent.
///
/// ```
/// assert_eq!(reefnettle::version(), reefnettle::VERSION);
/// ```
#[allow(unsafe_code)]
pub fn version() -> u64 {
    // SAFETY: It takes nothing, touches nothing and returns a number.
    unsafe { reefnettle_version() }
}

/// Stops the program if the library is for another package than this.
fn must_fit(version: u64) {
    assert_eq!(
        version, VERSION,
        "libreefnettle.a has another version than this package is for: make it anew, by \
         `tools/archive` in the repository that the package is from"
    );
}

/// Asks the library. Any contents and any lengths may be lent.
#[allow(unsafe_code)]
pub(crate) fn ask(lent: &mut Parts, request: Request) -> Answer {
    must_fit(version());
    // SAFETY: This is what the header says that a caller owes. Each pointer
    // comes from a vector or a reference, so it is aligned and not null even for
    // words 0; each length is its vector's; the borrow of `lent` is exclusive,
    // so none overlaps another and nobody else touches them; a bool is 0 or 1.
    // The structs are laid out as the header has them (see the tests below).
    unsafe {
        reefnettle_ask(
            lent.base,
            lent.frames.as_mut_ptr(),
            lent.frames.len(),
            lent.domains.as_mut_ptr(),
            lent.domains.len(),
            lent.stock.as_mut_ptr(),
            lent.stock.len(),
            lent.entries.as_mut_ptr(),
            lent.entries.len(),
            &mut lent.gauge,
            request,
        )
    }
}

/// Begins a run on any contents and any lengths. Nothing is changed.
#[allow(unsafe_code)]
pub(crate) fn begin(lent: &Parts) -> Known {
    must_fit(version());
    // SAFETY: As above, but that nothing is written: a shared borrow will do.
    unsafe {
        reefnettle_begin(
            lent.base,
            lent.frames.as_ptr(),
            lent.frames.len(),
            lent.domains.as_ptr(),
            lent.domains.len(),
            lent.stock.as_ptr(),
            lent.stock.len(),
            lent.entries.as_ptr(),
            lent.entries.len(),
            lent.gauge,
        )
    }
}

/// Asks the next request of a run. The lent gauge takes no part. If the run
/// doesn't know these words, the answer may be another than [`ask`] gives, and
/// nothing worse comes of it.
#[allow(unsafe_code)]
pub(crate) fn next(lent: &mut Parts, known: Known, request: Request) -> Next {
    // SAFETY: As above. A run was begun, so the library has been seen to fit.
    unsafe {
        reefnettle_next(
            lent.base,
            lent.frames.as_mut_ptr(),
            lent.frames.len(),
            lent.domains.as_mut_ptr(),
            lent.domains.len(),
            lent.stock.as_mut_ptr(),
            lent.stock.len(),
            lent.entries.as_mut_ptr(),
            lent.entries.len(),
            known,
            request,
        )
    }
}

#[cfg(test)]
mod tests {
    use super::*;
    use std::mem::{align_of, size_of};

    // The same bytes as in examples/c/layout.c, which checks the header.

    /// Where each field begins, in bytes from the struct's own beginning.
    macro_rules! offsets {
        ($whole:expr, $($field:ident)+) => {{
            let whole = $whole;
            let begin = std::ptr::addr_of!(whole) as usize;
            [$(std::ptr::addr_of!(whole.$field) as usize - begin),+]
        }};
    }

    #[test]
    fn a_request_is_laid_out_as_in_the_header() {
        assert_eq!((size_of::<Request>(), align_of::<Request>()), (64, 8));
        assert_eq!(
            offsets!(Request::default(), call domain gpa level frame key raise clear),
            [0, 8, 16, 24, 32, 40, 48, 56]
        );
    }

    #[test]
    fn an_answer_is_laid_out_as_in_the_header() {
        assert_eq!((size_of::<Answer>(), align_of::<Answer>()), (48, 8));
        assert_eq!(
            offsets!(Answer::default(), number kind owner level state hpa),
            [0, 8, 16, 24, 32, 40]
        );
    }

    #[test]
    fn a_gauge_is_laid_out_as_in_the_header() {
        assert_eq!((size_of::<Gauge>(), align_of::<Gauge>()), (32, 8));
        assert_eq!(
            offsets!(Gauge::FRESH, raise clear fill lamp),
            [0, 8, 16, 24]
        );
    }

    const KNOWN: Known = Known {
        gauge: Gauge::FRESH,
        used: 0,
        lent: true,
        marked: true,
    };

    #[test]
    fn a_run_is_laid_out_as_in_the_header() {
        assert_eq!((size_of::<Known>(), align_of::<Known>()), (48, 8));
        assert_eq!(offsets!(KNOWN, gauge used lent marked), [0, 32, 40, 41]);
        let next = Next {
            answer: Answer::default(),
            known: KNOWN,
        };
        assert_eq!((size_of::<Next>(), align_of::<Next>()), (96, 8));
        assert_eq!(offsets!(next, answer known), [0, 48]);
    }

    #[test]
    fn addresses_are_eight_bytes() {
        assert_eq!((size_of::<Hpa>(), align_of::<Hpa>()), (8, 8));
        assert_eq!((size_of::<Gpa>(), align_of::<Gpa>()), (8, 8));
    }

    #[test]
    fn the_library_fits() {
        must_fit(version());
    }

    #[test]
    #[should_panic(expected = "libreefnettle.a has another version")]
    fn a_library_of_another_version_is_never_asked() {
        must_fit(VERSION + 1);
    }
}
