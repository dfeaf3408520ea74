//! What was met, and what must have been.

use std::collections::BTreeMap;
use std::fmt::Display;

use reefnettle_compare::number;

use crate::places::Place;
use crate::spoil::{Sizes, Spoil, SIZES};
use crate::sweeping::Sweep;
use crate::tracking::Untracked;

const ANSWERS: u64 = 16;
const CALLS: u64 = number::LAST + 1;

/// Counts of what the cases met.
#[derive(Default)]
pub struct Tally {
    pub cases: u64,
    windows: BTreeMap<Sizes, u64>,
    spoils: BTreeMap<Spoil, u64>,
    accepted: BTreeMap<u64, u64>,
    answers: BTreeMap<u64, u64>,
    places: BTreeMap<Place, u64>,
    untracked: BTreeMap<Untracked, u64>,
    sweeps: BTreeMap<Sweep, u64>,
}

impl Tally {
    /// How many windows there were.
    pub fn windows(&self) -> usize {
        self.windows.values().sum::<u64>() as usize
    }

    pub fn note_window(&mut self, sizes: Sizes) {
        *self.windows.entry(sizes).or_default() += 1;
    }

    pub fn note(&mut self, spoil: Spoil, call: u64, answer: u64, place: Option<Place>) {
        self.cases += 1;
        *self.spoils.entry(spoil).or_default() += 1;
        *self.answers.entry(answer).or_default() += 1;
        if answer == 0 {
            *self.accepted.entry(call).or_default() += 1;
        }
        if let Some(place) = place {
            *self.places.entry(place).or_default() += 1;
        }
    }

    pub fn note_untracked(&mut self, untracked: Untracked) {
        *self.untracked.entry(untracked).or_default() += 1;
    }

    pub fn note_sweep(&mut self, sweep: Sweep) {
        *self.sweeps.entry(sweep).or_default() += 1;
    }

    /// Prints all counts; false if something was never met.
    pub fn report(&self) -> bool {
        println!("cases\t{}", self.cases);
        let met = [
            list(
                "window",
                &self.windows,
                SIZES.map(|(sizes, _)| (sizes, name_of(sizes))),
            ),
            list(
                "spoilt",
                &self.spoils,
                Spoil::ALL.map(|s| (s, format!("{s:?}"))),
            ),
            list("accepted call", &self.accepted, (0..CALLS).map(own_name)),
            list("answer", &self.answers, (0..ANSWERS).map(own_name)),
            list("place of 14", &self.places, Place::ALL.map(own_name)),
            list("not tracked", &self.untracked, Untracked::ALL.map(own_name)),
            list("cachewb", &self.sweeps, Sweep::ALL.map(own_name)),
        ];
        met.iter().all(|&met| met)
    }
}

fn name_of((frames, records, tables): Sizes) -> String {
    format!("frames {frames}, records {records}, tables {tables}")
}

fn own_name<T: Display>(item: T) -> (T, String) {
    let name = item.to_string();
    (item, name)
}

/// Prints how often each item was met; false if one never was.
fn list<T: Ord>(
    what: &str,
    counts: &BTreeMap<T, u64>,
    items: impl IntoIterator<Item = (T, String)>,
) -> bool {
    let mut all_met = true;
    for (item, name) in items {
        let count = counts.get(&item).copied().unwrap_or(0);
        println!("{what}\t{name}\tmet\t{count}");
        if count == 0 {
            eprintln!("{what} {name} was never met");
            all_met = false;
        }
    }
    all_met
}
