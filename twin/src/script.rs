//! Script lines: a name, then for each operand its unit and its number, parted
//! by single tabs. A call without operands is its name alone.

use crate::calls::Call;

/// Longest readable line in bytes, its LF not counted.
pub const MAX_LINE: usize = 120;

/// The unit that stands before a number.
#[derive(Clone, Copy, Debug, PartialEq, Eq)]
pub enum Unit {
    /// A frame's address in bytes.
    Hpa,
    /// A guest address in bytes.
    Gpa,
    /// A level of the secure EPT.
    Level,
    /// A key number.
    Key,
}

impl Unit {
    /// The unit as it is written.
    pub fn name(self) -> &'static str {
        match self {
            Unit::Hpa => "hpa",
            Unit::Gpa => "gpa",
            Unit::Level => "level",
            Unit::Key => "key",
        }
    }
}

/// One operand of a script line.
#[derive(Clone, Copy, Debug, PartialEq, Eq)]
pub struct Operand {
    /// Its unit.
    pub unit: Unit,
    /// Its number.
    pub number: u64,
}

/// Reads a line, without its LF; `None` if it is unreadable.
pub fn parse(line: &[u8]) -> Option<Call> {
    if line.len() > MAX_LINE {
        return None;
    }
    let end = line.iter().position(|&byte| byte == b'\t');
    let (name, rest) = line.split_at(end.unwrap_or(line.len()));
    let mut operands = Operands { rest };
    // The operands of each call stand in the order in which they are written.
    let call = match name {
        b"create" => Call::Create {
            page: operands.hpa()?,
            key: operands.key()?,
        },
        b"keyconfig" => Call::KeyConfig {
            domain: operands.hpa()?,
        },
        b"addcx" => Call::AddCx {
            domain: operands.hpa()?,
            page: operands.hpa()?,
        },
        b"init" => Call::Init {
            domain: operands.hpa()?,
        },
        b"septadd" => Call::SeptAdd {
            domain: operands.hpa()?,
            gpa: operands.gpa()?,
            level: operands.level()?,
            page: operands.hpa()?,
        },
        b"pageadd" => Call::PageAdd {
            domain: operands.hpa()?,
            gpa: operands.gpa()?,
            page: operands.hpa()?,
        },
        b"finalize" => Call::Finalize {
            domain: operands.hpa()?,
        },
        b"pageaug" => Call::PageAug {
            domain: operands.hpa()?,
            gpa: operands.gpa()?,
            page: operands.hpa()?,
        },
        b"block" => Call::Block {
            domain: operands.hpa()?,
            gpa: operands.gpa()?,
            level: operands.level()?,
        },
        b"track" => Call::Track {
            domain: operands.hpa()?,
        },
        b"unblock" => Call::Unblock {
            domain: operands.hpa()?,
            gpa: operands.gpa()?,
            level: operands.level()?,
        },
        b"pageremove" => Call::PageRemove {
            domain: operands.hpa()?,
            gpa: operands.gpa()?,
        },
        b"septremove" => Call::SeptRemove {
            domain: operands.hpa()?,
            gpa: operands.gpa()?,
            level: operands.level()?,
        },
        b"flushdone" => Call::FlushDone {
            domain: operands.hpa()?,
        },
        b"cachewb" => Call::CacheWb,
        b"keyfree" => Call::KeyFree {
            domain: operands.hpa()?,
        },
        b"reclaim" => Call::Reclaim {
            page: operands.hpa()?,
        },
        b"readpage" => Call::ReadPage {
            page: operands.hpa()?,
        },
        b"readentry" => Call::ReadEntry {
            domain: operands.hpa()?,
            gpa: operands.gpa()?,
            level: operands.level()?,
        },
        _ => return None,
    };
    operands.rest.is_empty().then_some(call)
}

/// What of a line is yet to be read, from the tab before a unit on.
struct Operands<'a> {
    rest: &'a [u8],
}

impl Operands<'_> {
    fn hpa(&mut self) -> Option<u64> {
        self.number_behind(b"\thpa\t")
    }

    fn gpa(&mut self) -> Option<u64> {
        self.number_behind(b"\tgpa\t")
    }

    fn level(&mut self) -> Option<u64> {
        self.number_behind(b"\tlevel\t")
    }

    fn key(&mut self) -> Option<u64> {
        self.number_behind(b"\tkey\t")
    }

    /// The number that follows a unit and its tabs: decimal, at most 64 bits,
    /// no leading zero. It ends at the first byte that is no digit.
    fn number_behind(&mut self, unit: &[u8]) -> Option<u64> {
        let text = self.rest.strip_prefix(unit)?;
        let mut number = 0u64;
        let mut length = 0;
        for &byte in text {
            let digit = byte.wrapping_sub(b'0');
            if digit > 9 {
                break;
            }
            number = number.checked_mul(10)?.checked_add(digit.into())?;
            length += 1;
        }
        if length == 0 || (length > 1 && text[0] == b'0') {
            return None;
        }
        self.rest = &text[length..];
        Some(number)
    }
}

impl Call {
    /// The name of the call and its operands as a script line has them.
    pub fn parts(self) -> (&'static str, Vec<Operand>) {
        let hpa = |number| Operand {
            unit: Unit::Hpa,
            number,
        };
        let gpa = |number| Operand {
            unit: Unit::Gpa,
            number,
        };
        let level = |number| Operand {
            unit: Unit::Level,
            number,
        };
        let key = |number| Operand {
            unit: Unit::Key,
            number,
        };
        match self {
            Call::Create { page, key: k } => ("create", vec![hpa(page), key(k)]),
            Call::KeyConfig { domain } => ("keyconfig", vec![hpa(domain)]),
            Call::AddCx { domain, page } => ("addcx", vec![hpa(domain), hpa(page)]),
            Call::Init { domain } => ("init", vec![hpa(domain)]),
            Call::SeptAdd {
                domain,
                gpa: g,
                level: l,
                page,
            } => ("septadd", vec![hpa(domain), gpa(g), level(l), hpa(page)]),
            Call::PageAdd {
                domain,
                gpa: g,
                page,
            } => ("pageadd", vec![hpa(domain), gpa(g), hpa(page)]),
            Call::Finalize { domain } => ("finalize", vec![hpa(domain)]),
            Call::PageAug {
                domain,
                gpa: g,
                page,
            } => ("pageaug", vec![hpa(domain), gpa(g), hpa(page)]),
            Call::Block {
                domain,
                gpa: g,
                level: l,
            } => ("block", vec![hpa(domain), gpa(g), level(l)]),
            Call::Track { domain } => ("track", vec![hpa(domain)]),
            Call::Unblock {
                domain,
                gpa: g,
                level: l,
            } => ("unblock", vec![hpa(domain), gpa(g), level(l)]),
            Call::PageRemove { domain, gpa: g } => ("pageremove", vec![hpa(domain), gpa(g)]),
            Call::SeptRemove {
                domain,
                gpa: g,
                level: l,
            } => ("septremove", vec![hpa(domain), gpa(g), level(l)]),
            Call::FlushDone { domain } => ("flushdone", vec![hpa(domain)]),
            Call::CacheWb => ("cachewb", vec![]),
            Call::KeyFree { domain } => ("keyfree", vec![hpa(domain)]),
            Call::Reclaim { page } => ("reclaim", vec![hpa(page)]),
            Call::ReadPage { page } => ("readpage", vec![hpa(page)]),
            Call::ReadEntry {
                domain,
                gpa: g,
                level: l,
            } => ("readentry", vec![hpa(domain), gpa(g), level(l)]),
        }
    }

    /// The call as a script line, without its LF.
    pub fn line(self) -> Vec<u8> {
        let (name, operands) = self.parts();
        write_line(name, &operands)
    }
}

/// A name and operands as a script line, without its LF.
pub(crate) fn write_line(name: &str, operands: &[Operand]) -> Vec<u8> {
    let mut line = name.to_string();
    for operand in operands {
        line.push_str(&format!("\t{}\t{}", operand.unit.name(), operand.number));
    }
    line.into_bytes()
}
