//! Calls as values, and the script's lines.

use std::fmt::{self, Display, Formatter};
use std::str::FromStr;

use crate::answer::Refusal;
use crate::units::{Gpa, Hpa, Key, Level};

/// A call with its operands. `domain` is the address of the domain's TDR,
/// `frame` that of a frame. [`Model`](crate::Model) has a method for each, which
/// says more.
///
/// A line of a script parses to a call, and a call is displayed as its line: the
/// name, then for each operand the unit and the number, with single tabs between.
/// A line that can't be read is [`Refusal::Unreadable`]. Scripts have neither a
/// reset nor a setting of marks: these are displayed in the same way, as `reset`
/// and as `marks`, `raise` and a number, `clear` and a number, and aren't read.
///
/// ```
/// use reefnettle::{Call, Hpa, Key, Refusal};
///
/// let line = "create\thpa\t1073741824\tkey\t32";
/// let call = Call::Create { frame: Hpa(1073741824), key: Key(32) };
/// assert_eq!(line.parse(), Ok(call));
/// assert_eq!(call.to_string(), line);
/// assert_eq!("create\tpfn\t262144\tkey\t32".parse::<Call>(), Err(Refusal::Unreadable));
/// ```
#[non_exhaustive]
#[derive(Clone, Copy, Debug, PartialEq)]
#[allow(missing_docs)]
pub enum Call {
    /// Makes a fresh start. Scripts don't have it.
    Reset,
    /// Sets the gauge's marks. Scripts don't have it.
    SetMarks { raise: f64, clear: f64 },
    /// Makes a free frame the TDR of a new domain.
    Create { frame: Hpa, key: Key },
    /// Configures the domain's key.
    KeyConfig { domain: Hpa },
    /// Adds a control page.
    AddCx { domain: Hpa, frame: Hpa },
    /// Initializes the domain.
    Init { domain: Hpa },
    /// Adds a Secure EPT table.
    SeptAdd {
        domain: Hpa,
        gpa: Gpa,
        level: Level,
        frame: Hpa,
    },
    /// Adds a page before finalize.
    PageAdd { domain: Hpa, gpa: Gpa, frame: Hpa },
    /// Makes the domain runnable.
    Finalize { domain: Hpa },
    /// Adds a pending page after finalize.
    PageAug { domain: Hpa, gpa: Gpa, frame: Hpa },
    /// Blocks an entry.
    Block { domain: Hpa, gpa: Gpa, level: Level },
    /// Moves the domain's epoch on.
    Track { domain: Hpa },
    /// Unblocks an entry.
    Unblock { domain: Hpa, gpa: Gpa, level: Level },
    /// Removes a blocked page.
    PageRemove { domain: Hpa, gpa: Gpa },
    /// Removes a blocked, empty Secure EPT table.
    SeptRemove { domain: Hpa, gpa: Gpa, level: Level },
    /// Blocks the domain for good.
    FlushDone { domain: Hpa },
    /// Writes the caches back, for every blocked domain.
    CacheWb,
    /// Frees the key of a domain that is blocked and written back.
    KeyFree { domain: Hpa },
    /// Takes a frame back from a domain in teardown.
    Reclaim { frame: Hpa },
    /// Reads a frame's type and owner.
    ReadPage { frame: Hpa },
    /// Reads an entry.
    ReadEntry { domain: Hpa, gpa: Gpa, level: Level },
}

/// One operand of a line. No line that can be read has a mark.
enum Operand {
    Hpa(Hpa),
    Gpa(Gpa),
    Level(Level),
    Key(Key),
    Raise(f64),
    Clear(f64),
}

impl Display for Operand {
    fn fmt(&self, f: &mut Formatter<'_>) -> fmt::Result {
        match self {
            Operand::Hpa(Hpa(bytes)) => write!(f, "hpa\t{bytes}"),
            Operand::Gpa(Gpa(bytes)) => write!(f, "gpa\t{bytes}"),
            Operand::Level(Level(number)) => write!(f, "level\t{number}"),
            Operand::Key(Key(number)) => write!(f, "key\t{number}"),
            Operand::Raise(mark) => write!(f, "raise\t{mark}"),
            Operand::Clear(mark) => write!(f, "clear\t{mark}"),
        }
    }
}

impl Display for Call {
    /// Writes the line of a script, without a line feed.
    fn fmt(&self, f: &mut Formatter<'_>) -> fmt::Result {
        let (name, operands) = line_of(*self);
        f.write_str(name)?;
        operands
            .iter()
            .try_for_each(|operand| write!(f, "\t{operand}"))
    }
}

/// The name of a call and its operands, as its line has them.
fn line_of(call: Call) -> (&'static str, Vec<Operand>) {
    use Operand::{Clear, Gpa, Hpa, Key, Level, Raise};
    let page = |name, domain, gpa, frame| (name, vec![Hpa(domain), Gpa(gpa), Hpa(frame)]);
    let entry = |name, domain, gpa, level| (name, vec![Hpa(domain), Gpa(gpa), Level(level)]);
    match call {
        Call::Reset => ("reset", vec![]),
        Call::SetMarks { raise, clear } => ("marks", vec![Raise(raise), Clear(clear)]),
        Call::Create { frame, key } => ("create", vec![Hpa(frame), Key(key)]),
        Call::KeyConfig { domain } => ("keyconfig", vec![Hpa(domain)]),
        Call::AddCx { domain, frame } => ("addcx", vec![Hpa(domain), Hpa(frame)]),
        Call::Init { domain } => ("init", vec![Hpa(domain)]),
        Call::SeptAdd {
            domain,
            gpa,
            level,
            frame,
        } => {
            let (name, mut operands) = entry("septadd", domain, gpa, level);
            operands.push(Hpa(frame));
            (name, operands)
        }
        Call::PageAdd { domain, gpa, frame } => page("pageadd", domain, gpa, frame),
        Call::Finalize { domain } => ("finalize", vec![Hpa(domain)]),
        Call::PageAug { domain, gpa, frame } => page("pageaug", domain, gpa, frame),
        Call::Block { domain, gpa, level } => entry("block", domain, gpa, level),
        Call::Track { domain } => ("track", vec![Hpa(domain)]),
        Call::Unblock { domain, gpa, level } => entry("unblock", domain, gpa, level),
        Call::PageRemove { domain, gpa } => ("pageremove", vec![Hpa(domain), Gpa(gpa)]),
        Call::SeptRemove { domain, gpa, level } => entry("septremove", domain, gpa, level),
        Call::FlushDone { domain } => ("flushdone", vec![Hpa(domain)]),
        Call::CacheWb => ("cachewb", vec![]),
        Call::KeyFree { domain } => ("keyfree", vec![Hpa(domain)]),
        Call::Reclaim { frame } => ("reclaim", vec![Hpa(frame)]),
        Call::ReadPage { frame } => ("readpage", vec![Hpa(frame)]),
        Call::ReadEntry { domain, gpa, level } => entry("readentry", domain, gpa, level),
    }
}

impl FromStr for Call {
    type Err = Refusal;

    /// Reads a line of a script, without its line feed. (The paper's limit of
    /// bytes 120 needs no check: no readable line has more than bytes 109.)
    fn from_str(line: &str) -> Result<Call, Refusal> {
        read_line(line).ok_or(Refusal::Unreadable)
    }
}

fn read_line(line: &str) -> Option<Call> {
    use Operand::{Gpa, Hpa, Key, Level};
    let (name, operands) = fields(line)?;
    Some(match (name, operands.as_slice()) {
        ("create", &[Hpa(frame), Key(key)]) => Call::Create { frame, key },
        ("keyconfig", &[Hpa(domain)]) => Call::KeyConfig { domain },
        ("addcx", &[Hpa(domain), Hpa(frame)]) => Call::AddCx { domain, frame },
        ("init", &[Hpa(domain)]) => Call::Init { domain },
        ("septadd", &[Hpa(domain), Gpa(gpa), Level(level), Hpa(frame)]) => Call::SeptAdd {
            domain,
            gpa,
            level,
            frame,
        },
        ("pageadd", &[Hpa(domain), Gpa(gpa), Hpa(frame)]) => Call::PageAdd { domain, gpa, frame },
        ("finalize", &[Hpa(domain)]) => Call::Finalize { domain },
        ("pageaug", &[Hpa(domain), Gpa(gpa), Hpa(frame)]) => Call::PageAug { domain, gpa, frame },
        ("block", &[Hpa(domain), Gpa(gpa), Level(level)]) => Call::Block { domain, gpa, level },
        ("track", &[Hpa(domain)]) => Call::Track { domain },
        ("unblock", &[Hpa(domain), Gpa(gpa), Level(level)]) => Call::Unblock { domain, gpa, level },
        ("pageremove", &[Hpa(domain), Gpa(gpa)]) => Call::PageRemove { domain, gpa },
        ("septremove", &[Hpa(domain), Gpa(gpa), Level(level)]) => {
            Call::SeptRemove { domain, gpa, level }
        }
        ("flushdone", &[Hpa(domain)]) => Call::FlushDone { domain },
        ("cachewb", &[]) => Call::CacheWb,
        ("keyfree", &[Hpa(domain)]) => Call::KeyFree { domain },
        ("reclaim", &[Hpa(frame)]) => Call::Reclaim { frame },
        ("readpage", &[Hpa(frame)]) => Call::ReadPage { frame },
        ("readentry", &[Hpa(domain), Gpa(gpa), Level(level)]) => {
            Call::ReadEntry { domain, gpa, level }
        }
        _ => return None,
    })
}

/// The name of a line and its operands.
fn fields(line: &str) -> Option<(&str, Vec<Operand>)> {
    let mut fields = line.split('\t');
    let name = fields.next()?;
    let mut operands = Vec::new();
    while let Some(unit) = fields.next() {
        operands.push(operand(unit, fields.next()?)?);
    }
    Some((name, operands))
}

fn operand(unit: &str, text: &str) -> Option<Operand> {
    Some(match unit {
        "hpa" => Operand::Hpa(Hpa(number(text)?)),
        "gpa" => Operand::Gpa(Gpa(number(text)?)),
        "level" => Operand::Level(Level(number(text)?)),
        "key" => Operand::Key(Key(number(text)?)),
        _ => return None,
    })
}

/// A decimal number without sign or leading zero. (`parse` would take both.)
fn number<T: FromStr>(text: &str) -> Option<T> {
    let digits = text.bytes().all(|byte| byte.is_ascii_digit());
    let leading_zero = text.len() > 1 && text.starts_with('0');
    if !digits || leading_zero {
        return None;
    }
    text.parse().ok()
}
