//! The replay: a script in, its answers out.

use std::io::{self, ErrorKind, Read, Write};

use crate::answer::{Answer, Readout};
use crate::script::{parse, MAX_LINE};
use crate::state::{Machine, FRAME_BYTES};

/// Window base of the replay.
pub const REPLAY_BASE: u64 = 1 << 30;
/// Frames in the window of the replay.
pub const REPLAY_FRAMES: usize = 1024;
/// Domain records of the replay.
pub const REPLAY_RECORDS: usize = 4;
/// Secure EPT tables of the replay.
pub const REPLAY_TABLES: usize = 12;
/// Raise mark of the replay.
pub const REPLAY_RAISE: f64 = 0.75;
/// Clear mark of the replay.
pub const REPLAY_CLEAR: f64 = 0.5;
/// Lines that a script may have; the next one ends the reading.
pub const MAX_LINES: u64 = 10_000;

const UNREADABLE: Answer = Answer {
    number: 15,
    readout: Readout::Zeros,
};

const BUFFER_BYTES: usize = 16 * 1024;

/// A fresh machine of the replay's sizes and marks.
pub fn replay_machine() -> Machine {
    let mut machine =
        Machine::with_sizes(REPLAY_BASE, REPLAY_FRAMES, REPLAY_RECORDS, REPLAY_TABLES);
    let reset = machine.reset();
    let marked = machine.set_marks(REPLAY_RAISE, REPLAY_CLEAR);
    assert!(reset.is_accepted() && marked.is_accepted());
    machine
}

/// Replays a script on a fresh machine and writes the answers.
pub fn replay(input: impl Read, output: impl Write) -> io::Result<()> {
    let mut machine = replay_machine();
    let mut lines = Lines::new(input);
    let mut out = Output::new(output);

    out.number("bytes\t", FRAME_BYTES);
    out.number("\tframes\t", machine.frames.len() as u64);
    out.end_line()?;

    let mut number = 0;
    while let Some(line) = lines.next_line()? {
        number += 1;
        if number > MAX_LINES {
            out.answer(number, UNREADABLE);
            out.end_line()?;
            break;
        }
        let call = match line {
            Line::Whole(text) => parse(text),
            Line::TooLong => None,
        };
        let answer = match call {
            // Tables from a fresh start never fail the check of 13.
            Some(call) => machine.call_unchecked(call),
            None => UNREADABLE,
        };
        out.answer(number, answer);
        out.end_line()?;
    }

    out.number("used\t", machine.used as u64);
    out.number("\tlamp\t", machine.gauge.lamp.into());
    out.end_line()?;
    out.flush()
}

enum Line<'a> {
    Whole(&'a [u8]),
    TooLong,
}

/// Splits the input at its LFs through one buffer of fixed size.
struct Lines<R> {
    input: R,
    buffer: Box<[u8]>,
    start: usize,
    end: usize,
}

impl<R: Read> Lines<R> {
    fn new(input: R) -> Self {
        Lines {
            input,
            buffer: vec![0; BUFFER_BYTES].into_boxed_slice(),
            start: 0,
            end: 0,
        }
    }

    /// The next line without its LF; `None` where nothing follows.
    fn next_line(&mut self) -> io::Result<Option<Line<'_>>> {
        let mut searched = 0;
        let mut too_long = false;
        loop {
            let from = self.start;
            let unsearched = &self.buffer[from + searched..self.end];
            if let Some(at) = find_feed(unsearched) {
                let to = from + searched + at;
                self.start = to + 1;
                return Ok(Some(self.line(too_long, from, to)));
            }

            too_long |= self.end - from > MAX_LINE;
            if too_long {
                self.start = self.end;
            }
            self.make_room();
            searched = self.end;
            if !self.fill()? {
                let to = self.end;
                self.start = to;
                return Ok((too_long || to > 0).then(|| self.line(too_long, 0, to)));
            }
        }
    }

    fn line(&self, too_long: bool, from: usize, to: usize) -> Line<'_> {
        if too_long {
            Line::TooLong
        } else {
            Line::Whole(&self.buffer[from..to])
        }
    }

    /// Moves what is held to the front of the buffer.
    fn make_room(&mut self) {
        self.buffer.copy_within(self.start..self.end, 0);
        self.end -= self.start;
        self.start = 0;
    }

    /// Reads more behind what is held; false at the end of the input.
    fn fill(&mut self) -> io::Result<bool> {
        loop {
            match self.input.read(&mut self.buffer[self.end..]) {
                Ok(count) => {
                    self.end += count;
                    return Ok(count > 0);
                }
                Err(error) if error.kind() == ErrorKind::Interrupted => {}
                Err(error) => return Err(error),
            }
        }
    }
}

/// The place of the first LF, looked for in eight bytes at a time.
fn find_feed(bytes: &[u8]) -> Option<usize> {
    const LOW: u64 = u64::from_ne_bytes([0x01; 8]);
    const HIGH: u64 = u64::from_ne_bytes([0x80; 8]);
    const FEEDS: u64 = u64::from_ne_bytes([b'\n'; 8]);
    let (words, tail) = bytes.as_chunks::<8>();
    for (index, word) in words.iter().enumerate() {
        // A byte of the difference is zero where there is an LF, and the lowest
        // such byte is the lowest one that borrows.
        let difference = u64::from_le_bytes(*word) ^ FEEDS;
        let zeros = difference.wrapping_sub(LOW) & !difference & HIGH;
        if zeros != 0 {
            return Some(8 * index + zeros.trailing_zeros() as usize / 8);
        }
    }
    let at = tail.iter().position(|&byte| byte == b'\n')?;
    Some(8 * words.len() + at)
}

/// Gathers whole lines and writes them out by the buffer.
struct Output<W> {
    output: W,
    text: Vec<u8>,
}

impl<W: Write> Output<W> {
    /// More than any one line takes.
    const LINE_ROOM: usize = 256;

    fn new(output: W) -> Self {
        Output {
            output,
            text: Vec::with_capacity(BUFFER_BYTES),
        }
    }

    fn answer(&mut self, line: u64, answer: Answer) {
        self.number("line\t", line);
        self.number("\tanswer\t", answer.number.into());
        match answer.readout {
            Readout::Zeros => {}
            Readout::Stop { level, state } => {
                self.number("\tlevel\t", level);
                self.number("\tstate\t", state);
            }
            Readout::Page { kind, owner } => {
                self.number("\ttype\t", kind);
                self.number("\towner\t", owner);
            }
            Readout::Entry { level, state, hpa } => {
                self.number("\tlevel\t", level);
                self.number("\tstate\t", state);
                self.number("\thpa\t", hpa);
            }
        }
    }

    fn number(&mut self, label: &str, number: u64) {
        self.text.extend_from_slice(label.as_bytes());
        push_decimal(&mut self.text, number);
    }

    fn end_line(&mut self) -> io::Result<()> {
        self.text.push(b'\n');
        if self.text.len() > BUFFER_BYTES - Self::LINE_ROOM {
            self.output.write_all(&self.text)?;
            self.text.clear();
        }
        Ok(())
    }

    fn flush(&mut self) -> io::Result<()> {
        self.output.write_all(&self.text)?;
        self.text.clear();
        self.output.flush()
    }
}

fn push_decimal(text: &mut Vec<u8>, mut number: u64) {
    let mut digits = [0; 20];
    let mut first = digits.len();
    loop {
        first -= 1;
        digits[first] = b'0' + (number % 10) as u8;
        number /= 10;
        if number == 0 {
            break;
        }
    }
    text.extend_from_slice(&digits[first..]);
}
