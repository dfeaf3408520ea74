//! The other side of `door/door.c`.

use std::fmt::{self, Display, Formatter};
use std::io::{self, ErrorKind, Read, Write};
use std::process::{Child, ChildStdin, ChildStdout, Command, ExitStatus, Stdio};
use std::sync::atomic::{AtomicBool, AtomicU64, Ordering};
use std::sync::mpsc::{self, Receiver, RecvTimeoutError, Sender};
use std::sync::{Arc, Mutex, PoisonError};
use std::thread;
use std::time::Duration;

use crate::ask::{Answer, Request, ANSWER_WORDS, REQUEST_WORDS};
use crate::lent::{Gauge, Hpa, Parts};
use crate::shared::{Part, Shared, Side, Span, Word};

/// How long an answer may take.
pub const PATIENCE: Duration = Duration::from_secs(60);

const WORD_BYTES: usize = 8;
const GAUGE_WORDS: usize = 4;
const ARRAYS: usize = 4;

/// The base, where each array lies and its length, where the gauge lies, the
/// request.
const MESSAGE_WORDS: usize = 1 + 2 * ARRAYS + 1 + REQUEST_WORDS;

/// What a request comes to: its answer, and what was lent after it.
#[derive(Clone, Debug, PartialEq)]
pub struct Outcome {
    pub answer: Answer,
    pub lent: Parts,
}

/// Why there is no outcome.
#[derive(Debug)]
pub enum Fault {
    /// The door ended, though more was to be asked.
    Ended(ExitStatus),
    /// It was ended, for no answer came.
    Silent(Duration),
    /// It is no door, or one for other messages.
    Unfit { message_bytes: u64 },
    /// The lamp holds neither byte 0 nor byte 1.
    Lamp(u64),
    /// It can't be started, or the file can't be shared.
    System(io::Error),
}

impl Display for Fault {
    fn fmt(&self, f: &mut Formatter<'_>) -> fmt::Result {
        match self {
            Fault::Ended(status) => write!(f, "the door has ended: {status}"),
            Fault::Silent(patience) => {
                write!(
                    f,
                    "the door gave no answer in seconds {}",
                    patience.as_secs_f64()
                )
            }
            Fault::Unfit { message_bytes } => {
                let ours = WORD_BYTES * MESSAGE_WORDS;
                write!(
                    f,
                    "the door takes messages of bytes {message_bytes}, not of bytes {ours}"
                )
            }
            Fault::Lamp(byte) => write!(f, "the lamp holds byte {byte}"),
            Fault::System(error) => write!(f, "the door can't be used: {error}"),
        }
    }
}

impl std::error::Error for Fault {}

impl From<io::Error> for Fault {
    fn from(error: io::Error) -> Fault {
        Fault::System(error)
    }
}

/// The library, in a process of its own.
pub struct Door {
    shared: Shared,
    side: Side,
    process: Process,
}

impl Door {
    /// Starts the door by a command, to which the file's name is added.
    pub fn open(mut command: Command, patience: Duration) -> Result<Door, Fault> {
        let (shared, name) = Shared::new()?;
        command.arg(name.path());
        let mut process = Process::start(command, patience)?;
        let [message_bytes] = process.receive()?;
        if message_bytes != (WORD_BYTES * MESSAGE_WORDS) as u64 {
            return Err(Fault::Unfit { message_bytes });
        }
        Ok(Door {
            shared,
            side: Side::End,
            process,
        })
    }

    /// Puts what is lent from now on at the other side of its guards: from where
    /// nothing behind it can be touched to where nothing before it can be, or
    /// back.
    pub fn turn(&mut self) {
        self.side = match self.side {
            Side::Begin => Side::End,
            Side::End => Side::Begin,
        };
    }

    /// Asks the library. What was lent is read back whole, whatever the answer.
    pub fn ask(&mut self, lent: &Parts, request: &Request) -> Result<Outcome, Fault> {
        let spans = self.lend(lent)?;
        let lengths = [&lent.frames, &lent.domains, &lent.stock].map(Vec::len);
        let [frames, domains, stock] = lengths;
        let words = [frames, domains, stock, lent.entries.len()];
        self.process
            .send(&message(lent.base, &spans, words, request))?;
        let answer = Answer::of_words(self.process.receive::<ANSWER_WORDS>()?);
        let lent = self.take_back(lent.base, &spans)?;
        Ok(Outcome { answer, lent })
    }

    fn lend(&mut self, lent: &Parts) -> io::Result<[Span; ARRAYS + 1]> {
        let (shared, side) = (&mut self.shared, self.side);
        Ok([
            shared.lend(Part::Frames, &lent.frames, side)?,
            shared.lend(Part::Domains, &lent.domains, side)?,
            shared.lend(Part::Stock, &lent.stock, side)?,
            shared.lend(Part::Entries, &lent.entries, side)?,
            shared.lend(Part::Gauge, &gauge_words(&lent.gauge), side)?,
        ])
    }

    fn take_back(&mut self, base: Hpa, spans: &[Span; ARRAYS + 1]) -> Result<Parts, Fault> {
        let [frames, domains, stock, entries, gauge] = *spans;
        Ok(Parts {
            base,
            frames: self.shared.read(frames)?,
            domains: self.shared.read(domains)?,
            stock: self.shared.read(stock)?,
            entries: self.shared.read(entries)?,
            gauge: gauge_of(&self.shared.read(gauge)?)?,
        })
    }
}

fn message(
    base: Hpa,
    spans: &[Span; ARRAYS + 1],
    lengths: [usize; ARRAYS],
    request: &Request,
) -> [u64; MESSAGE_WORDS] {
    let mut message = [0; MESSAGE_WORDS];
    let (lent, asked) = message.split_at_mut(MESSAGE_WORDS - REQUEST_WORDS);
    lent[0] = base.0;
    for (array, (span, words)) in spans.iter().zip(lengths).enumerate() {
        lent[1 + 2 * array] = span.at as u64;
        lent[2 + 2 * array] = words as u64;
    }
    lent[1 + 2 * ARRAYS] = spans[ARRAYS].at as u64;
    asked.copy_from_slice(&request.words());
    message
}

/// The words of the header's struct; what lies behind the lamp's byte is 0.
fn gauge_words(gauge: &Gauge) -> [u64; GAUGE_WORDS] {
    let [raise, clear, fill] = [gauge.raise, gauge.clear, gauge.fill].map(f64::to_bits);
    [raise, clear, fill, gauge.lamp.into()]
}

fn gauge_of(words: &[u64]) -> Result<Gauge, Fault> {
    let [raise, clear, fill] = [words[0], words[1], words[2]].map(f64::from_bits);
    // The bytes behind the lamp's are nobody's.
    let lamp = match words[3] & 0xff {
        0 => false,
        1 => true,
        byte => return Err(Fault::Lamp(byte)),
    };
    Ok(Gauge {
        raise,
        clear,
        fill,
        lamp,
    })
}

/// The door's process, and somebody who ends it if it is silent for too long.
struct Process {
    child: Arc<Mutex<Child>>,
    messages: ChildStdin,
    answers: ChildStdout,
    watched: Arc<Watched>,
    patience: Duration,
    /// The watch ends when this is gone.
    _watch: Sender<()>,
}

#[derive(Default)]
struct Watched {
    /// Odd while an answer is owed; every answer moves it on.
    turns: AtomicU64,
    was_silent: AtomicBool,
}

impl Process {
    fn start(mut command: Command, patience: Duration) -> io::Result<Process> {
        command.stdin(Stdio::piped()).stdout(Stdio::piped());
        let mut child = command.spawn()?;
        let messages = child.stdin.take().expect("its input is a pipe");
        let answers = child.stdout.take().expect("its output is a pipe");
        let child = Arc::new(Mutex::new(child));
        let watched = Arc::new(Watched::default());
        let (watch, closed) = mpsc::channel();
        let (theirs, door) = (Arc::clone(&watched), Arc::clone(&child));
        // The first answer, that it is ready, is owed from the start.
        watched.turns.store(1, Ordering::Relaxed);
        thread::spawn(move || watch_over(&door, &theirs, patience, &closed));
        Ok(Process {
            child,
            messages,
            answers,
            watched,
            patience,
            _watch: watch,
        })
    }

    fn send<const N: usize>(&mut self, words: &[u64; N]) -> Result<(), Fault> {
        let mut bytes = vec![0; WORD_BYTES * N];
        for (bytes, word) in bytes.chunks_exact_mut(WORD_BYTES).zip(words) {
            word.put(bytes);
        }
        self.watched.turns.fetch_add(1, Ordering::Relaxed);
        let sent = self.messages.write_all(&bytes);
        sent.map_err(|error| self.why(error))
    }

    fn receive<const N: usize>(&mut self) -> Result<[u64; N], Fault> {
        let mut bytes = vec![0; WORD_BYTES * N];
        let received = self.answers.read_exact(&mut bytes);
        received.map_err(|error| self.why(error))?;
        self.watched.turns.fetch_add(1, Ordering::Relaxed);
        let mut words = [0; N];
        for (word, bytes) in words.iter_mut().zip(bytes.chunks_exact(WORD_BYTES)) {
            *word = u64::get(bytes);
        }
        Ok(words)
    }

    /// What a closed pipe means.
    fn why(&mut self, error: io::Error) -> Fault {
        if !matches!(
            error.kind(),
            ErrorKind::UnexpectedEof | ErrorKind::BrokenPipe
        ) {
            return error.into();
        }
        match self.end() {
            Ok(_) if self.watched.was_silent.load(Ordering::Relaxed) => {
                Fault::Silent(self.patience)
            }
            Ok(status) => Fault::Ended(status),
            Err(error) => error.into(),
        }
    }

    /// Sees the process gone. One that has ended keeps its own status.
    fn end(&self) -> io::Result<ExitStatus> {
        let mut child = self.child.lock().unwrap_or_else(PoisonError::into_inner);
        // What can't be ended has ended.
        let _ = child.kill();
        child.wait()
    }
}

impl Drop for Process {
    fn drop(&mut self) {
        // It has nothing left to do, and nobody left to be told.
        let _ = self.end();
    }
}

/// Ends the door if it owes the same answer at two looks in a row.
fn watch_over(door: &Mutex<Child>, watched: &Watched, patience: Duration, closed: &Receiver<()>) {
    let mut seen = 0;
    while closed.recv_timeout(patience) == Err(RecvTimeoutError::Timeout) {
        let turns = watched.turns.load(Ordering::Relaxed);
        if turns % 2 == 1 && turns == seen {
            watched.was_silent.store(true, Ordering::Relaxed);
            let mut door = door.lock().unwrap_or_else(PoisonError::into_inner);
            // What can't be ended has ended.
            let _ = door.kill();
            return;
        }
        seen = turns;
    }
}
