//! Ways to spoil a call: a number that no call takes, or text that is no line.

use crate::calls::Call;
use crate::levels::{GPA_LIMIT, LEVEL_SHIFT};
use crate::range::{KEY_HIGHEST, KEY_LOWEST};
use crate::replay::REPLAY_BASE;
use crate::rng::Rng;
use crate::script::{write_line, Operand, Unit, MAX_LINE};
use crate::state::{Machine, FRAME_BYTES};

/// The line of a call with one of its numbers, seldom two, put out of rule. One
/// without operands stays as it is.
pub fn operand(rng: &mut Rng, machine: &Machine, call: Call) -> Vec<u8> {
    let (name, mut operands) = call.parts();
    if operands.is_empty() {
        return write_line(name, &operands);
    }
    let level = level_of(&operands);
    let times = if rng.chance(150) { 2 } else { 1 };
    for _ in 0..times {
        let index = rng.index(operands.len());
        let Operand { unit, number } = operands[index];
        operands[index].number = match unit {
            Unit::Hpa => bad_hpa(rng, machine, number),
            Unit::Gpa => bad_gpa(rng, number, level),
            Unit::Level => bad_level(rng, number, name),
            Unit::Key => bad_key(rng, number),
        };
    }
    write_line(name, &operands)
}

fn level_of(operands: &[Operand]) -> usize {
    let level = operands.iter().find(|operand| operand.unit == Unit::Level);
    level.map_or(0, |operand| operand.number.min(3) as usize)
}

fn bad_hpa(rng: &mut Rng, machine: &Machine, hpa: u64) -> u64 {
    let (base, end) = (machine.base, machine.hpa(machine.frames.len()));
    match rng.below(16) {
        0 => hpa.wrapping_add(1),
        1 => hpa.wrapping_add(2048),
        2 => hpa.wrapping_add(4095),
        3 => hpa.wrapping_sub(1),
        // A frame number in place of an address.
        4 => hpa / FRAME_BYTES,
        5 => hpa.wrapping_sub(base) / FRAME_BYTES,
        6 => hpa.wrapping_sub(base),
        7 => base - FRAME_BYTES,
        8 => end,
        9 => end - 1,
        10 => 0,
        11 => u64::MAX,
        12 => u64::MAX - 4095,
        // Right but for a bit that a narrower number would lose.
        13 => hpa.wrapping_add(1 << 32),
        14 => hpa.wrapping_add(1 << (31 + rng.below(33))),
        _ => rng.bits(),
    }
}

fn bad_gpa(rng: &mut Rng, gpa: u64, level: usize) -> u64 {
    match rng.below(12) {
        0 => gpa.wrapping_add(1),
        1 => gpa.wrapping_add(2048),
        2 => gpa.wrapping_add(4095),
        // Unaligned for its level by a single bit.
        3 | 4 => gpa.wrapping_add(1 << rng.below(LEVEL_SHIFT[level].into())),
        5 => GPA_LIMIT,
        6 => gpa.wrapping_add(GPA_LIMIT),
        7 => GPA_LIMIT * 2 - FRAME_BYTES,
        8 => u64::MAX,
        9 => gpa.wrapping_add(1 << (47 + rng.below(17))),
        10 => GPA_LIMIT - 1,
        _ => rng.bits(),
    }
}

fn bad_level(rng: &mut Rng, level: u64, name: &str) -> u64 {
    let table_call = name.starts_with("sept");
    match rng.below(8) {
        0 => 4,
        1 => 5,
        2 => level.wrapping_add(4),
        3 => level.wrapping_add(256),
        4 => level.wrapping_add(1 << 32),
        5 => u64::MAX,
        // Level 0 is one level too low for a table.
        6 if table_call => 0,
        7 if table_call => 0,
        _ => 4 + rng.below(60),
    }
}

fn bad_key(rng: &mut Rng, key: u64) -> u64 {
    match rng.below(8) {
        0 => KEY_LOWEST - 1,
        1 => KEY_HIGHEST + 1,
        2 => 0,
        3 => u64::MAX,
        4 => key.wrapping_add(256),
        5 => key.wrapping_add(65536),
        6 => key.wrapping_add(1 << 32),
        _ => rng.bits(),
    }
}

/// The line of a call with its text put out of rule.
pub fn text(rng: &mut Rng, call: Call) -> Vec<u8> {
    let (name, operands) = call.parts();
    if operands.is_empty() {
        return bare_text(rng, name.as_bytes());
    }
    let mut fields: Vec<Vec<u8>> = vec![name.into()];
    for operand in &operands {
        fields.push(operand.unit.name().into());
        fields.push(operand.number.to_string().into());
    }
    // Where a unit and where a number stands.
    let unit = 1 + 2 * rng.index(operands.len());
    let number = unit + 1;
    let last = fields.len() - 1;

    match rng.below(34) {
        0 => fields[0] = unknown_name(rng),
        1 => fields[0].make_ascii_uppercase(),
        2 => fields[0][0].make_ascii_uppercase(),
        3 => {
            fields.remove(unit);
        }
        4 => {
            fields.remove(number);
        }
        5 => fields[unit] = wrong_unit(rng),
        6 => fields[unit].make_ascii_uppercase(),
        7 => fields.truncate(1 + rng.index(last)),
        8 => fields.push(b"0".to_vec()),
        9 => fields.extend([b"hpa".to_vec(), REPLAY_BASE.to_string().into()]),
        10 => return Vec::new(),
        11 => fields[last].push(b'\r'),
        12 => {
            let field = rng.index(fields.len());
            insert_anywhere(rng, &mut fields[field], &[0]);
        }
        13 => {
            let field = rng.index(fields.len());
            insert_anywhere(rng, &mut fields[field], b" ");
        }
        14 => return fields.join(&b' '),
        15 => return fields.join(&b"\t\t"[..]),
        16 => fields.insert(1 + rng.index(last), Vec::new()),
        17 => fields.push(Vec::new()),
        18 => fields.insert(0, Vec::new()),
        19 => fields[number].insert(0, b'0'),
        20 => {
            let sign = if rng.chance(500) { b'+' } else { b'-' };
            fields[number].insert(0, sign);
        }
        21 => fields[number] = too_big(rng),
        22 => return too_long(rng, &fields.join(&b'\t')),
        23 => return filled_to(&fields.join(&b'\t'), MAX_LINE),
        24 => return filled_to(&fields.join(&b'\t'), MAX_LINE + 1),
        25 => {
            const FOREIGN: [&[u8]; 5] = [
                b"\xff",
                b"\x80",
                "\u{e9}".as_bytes(),
                "\u{0663}".as_bytes(),
                "\u{feff}".as_bytes(),
            ];
            let foreign = FOREIGN[rng.index(FOREIGN.len())];
            let field = rng.index(fields.len());
            insert_anywhere(rng, &mut fields[field], foreign);
        }
        26 => fields.swap(0, unit),
        27 => fields.swap(unit, number),
        28 => {
            const WRITTEN: [&str; 6] = ["0x20", "1e3", "1_000", "1.0", "00", "2^30"];
            fields[number] = WRITTEN[rng.index(WRITTEN.len())].into();
        }
        29 => {
            const PARTING: [u8; 6] = [0x0b, 0x0c, b'\r', b',', 0x7f, b';'];
            let parting = PARTING[rng.index(PARTING.len())];
            return fields.join(&parting);
        }
        30 => {
            let again = fields.clone();
            fields.extend(again);
        }
        31 => fields[number].clear(),
        32 => {
            let mut line = fields.join(&b'\t');
            line.truncate(rng.index(line.len()));
            return line;
        }
        _ => {
            // Any other byte anywhere; the line may stay readable.
            let mut line = fields.join(&b'\t');
            let at = rng.index(line.len());
            line[at] = rng.below(256) as u8;
            line.retain(|&byte| byte != b'\n');
            return line;
        }
    }
    fields.join(&b'\t')
}

/// The same for a call without operands, whose line is its name alone.
fn bare_text(rng: &mut Rng, name: &[u8]) -> Vec<u8> {
    const BEFORE: [&str; 3] = ["\t", " ", "\u{feff}"];
    const BEHIND: [&str; 10] = [
        "\t",
        "\t\t",
        " ",
        "\r",
        "\0",
        "0",
        "\t0",
        "\thpa",
        "\thpa\t1073741824",
        "\u{e9}",
    ];
    match rng.below(10) {
        0 => name.to_ascii_uppercase(),
        1 => name[..rng.index(name.len())].to_vec(),
        2 => [BEFORE[rng.index(BEFORE.len())].as_bytes(), name].concat(),
        3 => filled_to(name, MAX_LINE + 1),
        4 => too_long(rng, name),
        _ => [name, BEHIND[rng.index(BEHIND.len())].as_bytes()].concat(),
    }
}

fn unknown_name(rng: &mut Rng) -> Vec<u8> {
    const NAMES: [&str; 17] = [
        "creat",
        "creates",
        "reset",
        "set-marks",
        "set_marks",
        "setmarks",
        "septadd1",
        "pageaccept",
        "tdh.mng.create",
        "TDH.MNG.CREATE",
        "read",
        "readpages",
        "keyfreeid",
        "cachewbinvd",
        "line",
        "#",
        "",
    ];
    NAMES[rng.index(NAMES.len())].into()
}

fn wrong_unit(rng: &mut Rng) -> Vec<u8> {
    const UNITS: [&str; 12] = [
        "pfn", "hpa", "gpa", "level", "key", "hp", "hpas", "levels", "ke", "bytes", "", "hkid",
    ];
    UNITS[rng.index(UNITS.len())].into()
}

fn too_big(rng: &mut Rng) -> Vec<u8> {
    const NUMBERS: [&str; 7] = [
        "18446744073709551616",
        "18446744073709551617",
        "18446744074783293440",
        "20000000000000000000",
        "99999999999999999999",
        "100000000000000000000",
        "340282366920938463464448148515422953472",
    ];
    NUMBERS[rng.index(NUMBERS.len())].into()
}

fn insert_anywhere(rng: &mut Rng, field: &mut Vec<u8>, bytes: &[u8]) {
    let at = rng.index(field.len() + 1);
    field.splice(at..at, bytes.iter().copied());
}

/// The line, filled up behind with digits or tabs to this many bytes.
fn filled_to(line: &[u8], length: usize) -> Vec<u8> {
    let mut line = line.to_vec();
    line.resize(length.max(line.len()), b'0');
    line
}

fn too_long(rng: &mut Rng, line: &[u8]) -> Vec<u8> {
    let length = match rng.below(40) {
        // More than a reader's buffer is likely to hold.
        0 => 5_000 + rng.index(40_000),
        1..=5 => 200 + rng.index(1_000),
        _ => MAX_LINE + 1 + rng.index(20),
    };
    let mut line = line.to_vec();
    let fill = [b'0', b'\t', b' ', b'x'][rng.index(4)];
    line.resize(length, fill);
    line
}
