//! A verified model of the ownership tables of an Intel TDX module.
//!
//! The tables say which frame of memory belongs to which trust domain. The host
//! changes them by calls, and the model answers each: accepted, or refused and
//! why. The answers come from `libreefnettle.a`, whose code is proved; this
//! crate owns the buffers, gives numbers their units, and names the refusals.
//!
//! ```
//! use reefnettle::{Frame, Hpa, Key, Model, Refusal, Sizes};
//!
//! let sizes = Sizes { frames: 1024, records: 4, tables: 12 };
//! let mut model = Model::fresh(Hpa(1 << 30), sizes)?;
//! let domain = model.window().hpa(Frame(0)).unwrap();
//! model.create(domain, Key(32))?;
//! assert_eq!(model.create(domain, Key(33)), Err(Refusal::WrongFrame));
//! # Ok::<(), Refusal>(())
//! ```
//!
//! * [`Model`] has a method for each call; [`Model::ask`] takes any [`Call`].
//! * [`Model::rehearse`] tries a plan of calls on a clone.
//! * [`Model::run`] asks many calls in a row at less cost.
//! * [`Refusal`] says why a call is refused, by the paper's numbers 1 to 15.
//! * [`Model::import`] takes the tables of a running machine, [`Model::parts`]
//!   gives them out: as words, or as [`FrameWord`], [`DomainRecord`] and
//!   [`EntryWord`].
//! * [`Model::from_parts`] takes any stored words, damaged ones too.
//! * [`raw`] has the library's own numbers.
//!
//! A call, a reply, a type and a state are displayed by the paper's words, a call
//! as its line of a script.
//!
//! Later versions add calls, refusals, types and fields. What may grow is
//! `#[non_exhaustive]`, so that a match has a last arm for what it doesn't know:
//!
//! ```compile_fail,E0004
//! # use reefnettle::OpState;
//! match OpState::Runnable {
//!     OpState::Uninitialized | OpState::Initialized | OpState::Runnable => {}
//! }
//! ```
//!
//! The archive is looked for in `target/staticlib` of the repository, where
//! `tools/archive` writes it, or in the folder that the environment
//! variable `REEFNETTLE_LIB_DIR` names. It is for Linux on x86-64. It has no data
//! of its own: two threads may ask at once, each its own model.

#![deny(unsafe_code)]
#![warn(missing_docs)]

mod answer;
mod call;
mod gauge;
mod model;
mod parts;
pub mod raw;
mod rehearsal;
mod run;
mod sizes;
mod states;
mod units;
mod words;

pub use answer::{Entry, Page, Refusal, Reply};
pub use call::Call;
pub use gauge::Gauge;
pub use model::Model;
pub use parts::{Block, Parts};
pub use raw::{version, VERSION};
pub use rehearsal::{Refused, Rehearsal};
pub use run::Run;
pub use sizes::{Sizes, CONTROL_PAGES, RECORD_WORDS, TABLE_ENTRIES};
pub use states::{EntryState, FrameType, Lifecycle, OpState};
pub use units::{Epoch, Frame, Gpa, Hpa, Key, Level, Record, Table, Window, FRAME_BYTES};
pub use words::{DomainRecord, EntryWord, FrameWord};
