//! Scripts, made by running the machine while writing them, so that they reach
//! deep states: whole trees, blocked branches, teardown, empty stock, a full
//! window.
//!
//! Each line is one of four sorts. A *step* is a call meant to be accepted and
//! to bring the state somewhere. A *miss* has operands in range but suits the
//! state only by luck, or fails it by one detail. A *wrong operand* is one of
//! those with a number spoiled. An *unreadable* line is one of those with its
//! text spoiled.

mod spoil;

use crate::calls::Call;
use crate::levels::{GPA_LIMIT, LEVEL_SHIFT, TOP_LEVEL};
use crate::range::{KEY_HIGHEST, KEY_LOWEST};
use crate::replay::{replay_machine, MAX_LINES};
use crate::rng::Rng;
use crate::script::parse;
use crate::state::{
    entry_state, frame_type, lifecycle, op_state, Entry, Machine, Record, CONTROL_PAGES, ENTRIES,
    FRAME_BYTES,
};

/// What a script dwells on.
#[derive(Clone, Copy, Debug, PartialEq, Eq)]
pub enum Kind {
    /// Something of everything.
    Mixed,
    /// Few refusals, large trees.
    Deep,
    /// Fills and empties the window.
    Full,
    /// Creates domains and tears them down.
    Churn,
    /// Mostly unreadable or invalid lines.
    Noise,
}

impl Kind {
    /// Every kind.
    pub const ALL: [Kind; 5] = [
        Kind::Mixed,
        Kind::Deep,
        Kind::Full,
        Kind::Churn,
        Kind::Noise,
    ];

    /// The kind's name on the command line.
    pub fn name(self) -> &'static str {
        match self {
            Kind::Mixed => "mixed",
            Kind::Deep => "deep",
            Kind::Full => "full",
            Kind::Churn => "churn",
            Kind::Noise => "noise",
        }
    }

    /// The kind of this name.
    pub fn from_name(name: &str) -> Option<Kind> {
        Kind::ALL.into_iter().find(|kind| kind.name() == name)
    }

    /// Weights of a step, a miss, a wrong operand and an unreadable line.
    fn sorts(self) -> [u64; 4] {
        match self {
            Kind::Mixed => [620, 240, 80, 60],
            Kind::Deep => [940, 45, 8, 7],
            Kind::Full => [960, 25, 8, 7],
            Kind::Churn => [820, 140, 25, 15],
            Kind::Noise => [120, 80, 250, 550],
        }
    }
}

/// Writes a script for the replay program: the same seed, length and kind give
/// the same bytes.
pub fn generate(seed: u64, lines: u64, kind: Kind) -> Vec<u8> {
    generate_on(replay_machine(), seed, lines, kind)
}

/// The same for a fresh machine of any sizes and marks.
pub fn generate_on(machine: Machine, seed: u64, lines: u64, kind: Kind) -> Vec<u8> {
    let mut generator = Generator::new(machine, seed, kind);
    let mut script = Vec::new();
    for number in 1..=lines {
        let line = generator.next_line();
        if number <= MAX_LINES {
            generator.run(&line);
        }
        script.extend_from_slice(&line);
        script.push(b'\n');
    }
    if lines > 0 && generator.rng.chance(250) {
        script.pop();
    }
    script
}

/// What a live domain may be brought to do; indexes into its weights.
const ACTIONS: usize = 11;

struct Generator {
    rng: Rng,
    machine: Machine,
    kind: Kind,
    /// Keys that steps create domains with.
    keys: Vec<u64>,
    /// How many frames the window is brought to hold, for [`Kind::Full`].
    goal: usize,
}

/// An entry that isn't FREE.
#[derive(Clone, Copy)]
struct Spot {
    gpa: u64,
    level: u64,
    entry: Entry,
    /// False below a blocked entry.
    reachable: bool,
}

/// A root or a table that a walk can reach.
#[derive(Clone, Copy)]
struct Shelf {
    gpa: u64,
    /// Level of its entries.
    level: u64,
    /// `None` for the root.
    table: Option<usize>,
}

/// What a fresh look at a domain's tree finds.
#[derive(Default)]
struct Tree {
    spots: Vec<Spot>,
    shelves: Vec<Shelf>,
}

impl Generator {
    fn new(machine: Machine, seed: u64, kind: Kind) -> Self {
        // Kinds with the same seed shall not run alike.
        let mut rng = Rng::new(seed ^ ((kind as u64 + 1) << 56));
        let mut keys: Vec<u64> = (KEY_LOWEST..=KEY_HIGHEST).collect();
        if kind == Kind::Churn {
            // Few keys, so that they are taken and freed again.
            let few = 5 + rng.index(12);
            while keys.len() > few {
                let drop = rng.index(keys.len());
                keys.swap_remove(drop);
            }
        }
        let mut generator = Generator {
            rng,
            machine,
            kind,
            keys,
            goal: 0,
        };
        generator.goal = generator.new_goal();
        generator
    }

    fn next_line(&mut self) -> Vec<u8> {
        match self.rng.weighted(&self.kind.sorts()) {
            0 => self.step().line(),
            1 => self.miss().line(),
            2 => {
                let call = self.any_call();
                spoil::operand(&mut self.rng, &self.machine, call)
            }
            _ => {
                let call = self.any_call();
                spoil::text(&mut self.rng, call)
            }
        }
    }

    fn run(&mut self, line: &[u8]) {
        if let Some(call) = parse(line) {
            self.machine.call_unchecked(call);
        }
    }

    fn any_call(&mut self) -> Call {
        if self.rng.chance(600) {
            self.step()
        } else {
            self.miss()
        }
    }

    // Steps.

    /// A call that brings the state on.
    fn step(&mut self) -> Call {
        if self.kind == Kind::Full && self.machine.used == self.goal {
            self.goal = self.new_goal();
        }
        let tdrs = self.frames_of(|kind| kind == frame_type::TDR);
        let create = match self.kind {
            _ if tdrs.is_empty() => 1000,
            Kind::Mixed | Kind::Deep => 12,
            Kind::Full => 4,
            Kind::Churn => 60,
            Kind::Noise => 40,
        };
        // Beyond the stock only now and then.
        let unused = self.machine.records.iter().any(|record| !record.in_use);
        if self.rng.chance(create) && (unused || self.rng.chance(200)) {
            return self.step_create();
        }
        let tdr = self.choose_domain(&tdrs);
        self.step_domain(tdr)
    }

    /// Goals on and around the replay's marks, and at both ends.
    fn new_goal(&mut self) -> usize {
        let all = self.machine.frames.len();
        let (raise, clear) = (all / 4 * 3, all / 2);
        let near = |used: usize, goal: usize| used.abs_diff(goal) <= 3;
        let used = self.machine.used;
        // A few lines to and fro over a mark, then somewhere else.
        if (near(used, raise) || near(used, clear)) && self.rng.chance(700) {
            return used + 2 - self.rng.index(5);
        }
        let about = |mark: usize| [mark + 2, mark + 1, mark, mark - 1];
        let ends = [all, all - 1, all / 8 * 7, all / 8 * 3];
        let goal = self
            .rng
            .pick(&[ends, about(raise), about(clear - 1)].concat())
            .expect("there are goals");
        if used < clear {
            goal.max(raise + self.rng.index(40))
        } else if used > raise && self.rng.chance(500) {
            clear - 1 - self.rng.index(112)
        } else {
            goal
        }
    }

    fn step_create(&mut self) -> Call {
        let taken = self.taken_keys();
        let mut keys = self.keys.clone();
        keys.retain(|key| !taken.contains(key));
        let key = match self.rng.pick(&keys) {
            Some(key) => key,
            None => KEY_LOWEST + self.rng.below(KEY_HIGHEST - KEY_LOWEST + 1),
        };
        Call::Create {
            page: self.free_page(),
            key,
        }
    }

    fn choose_domain(&mut self, tdrs: &[usize]) -> usize {
        let in_state = |wanted: u64| -> Vec<usize> {
            tdrs.iter()
                .copied()
                .filter(|&tdr| self.record(tdr).lifecycle == wanted)
                .collect()
        };
        let ended = in_state(lifecycle::TEARDOWN);
        let keyed = in_state(lifecycle::KEYS_CONFIGURED);
        // When the window is to be emptied, what can be reclaimed goes first;
        // when it is to be filled, domains with keys come first.
        let full = self.kind == Kind::Full;
        let preferred = match (full, self.machine.used > self.goal) {
            (true, true) => ended,
            (true, false) => keyed,
            _ => Vec::new(),
        };
        match self.rng.pick(&preferred) {
            Some(tdr) if self.rng.chance(900) => tdr,
            _ => tdrs[self.rng.index(tdrs.len())],
        }
    }

    fn step_domain(&mut self, tdr: usize) -> Call {
        let domain = self.machine.hpa(tdr);
        let record = self.record(tdr);
        let (stage, op, pages) = (record.lifecycle, record.op_state, record.page_count);
        let early_end = match self.kind {
            Kind::Churn => 60,
            _ => 4,
        };
        match stage {
            lifecycle::HKID_ASSIGNED if self.rng.chance(early_end) => Call::FlushDone { domain },
            lifecycle::HKID_ASSIGNED => Call::KeyConfig { domain },
            lifecycle::KEYS_CONFIGURED if pages < CONTROL_PAGES as u64 => {
                if self.rng.chance(early_end) {
                    Call::FlushDone { domain }
                } else {
                    Call::AddCx {
                        domain,
                        page: self.free_page(),
                    }
                }
            }
            lifecycle::KEYS_CONFIGURED if op == op_state::UNINITIALIZED => Call::Init { domain },
            lifecycle::KEYS_CONFIGURED => self.step_live(tdr),
            lifecycle::TEARDOWN => self.step_reclaim(tdr),
            _ => self.step_to_free_key(tdr),
        }
    }

    /// The call that a blocked domain waits for. Now and then it is the one
    /// after it, too soon.
    fn step_to_free_key(&mut self, tdr: usize) -> Call {
        let written_back = self.record(tdr).lifecycle == lifecycle::WRITTEN_BACK;
        match (written_back, self.rng.chance(200)) {
            (false, false) => Call::CacheWb,
            (true, true) => self.step_reclaim(tdr),
            _ => Call::KeyFree {
                domain: self.machine.hpa(tdr),
            },
        }
    }

    /// Takes a frame of the domain back, the TDR when it has no others.
    fn step_reclaim(&mut self, tdr: usize) -> Call {
        let too_soon = self.rng.chance(10);
        let page = match self.rng.pick(&self.frames_owned_by(tdr)) {
            Some(page) if !too_soon => page,
            _ => tdr,
        };
        Call::Reclaim {
            page: self.machine.hpa(page),
        }
    }

    /// Weights of septadd, page, finalize, block, track, unblock, pageremove,
    /// septremove, readentry, readpage and flushdone.
    fn live_weights(&self) -> [u64; ACTIONS] {
        match self.kind {
            Kind::Mixed => [130, 330, 6, 130, 50, 90, 90, 60, 60, 40, 2],
            Kind::Deep => [110, 420, 4, 120, 50, 90, 90, 60, 40, 20, 1],
            Kind::Full if self.machine.used < self.goal => [20, 900, 2, 8, 4, 40, 0, 4, 12, 8, 0],
            Kind::Full => [2, 2, 2, 10, 4, 8, 900, 30, 12, 8, 1],
            Kind::Churn => [150, 250, 60, 90, 50, 40, 60, 60, 30, 30, 75],
            Kind::Noise => [150, 300, 30, 120, 60, 60, 90, 90, 40, 40, 15],
        }
    }

    fn step_live(&mut self, tdr: usize) -> Call {
        let domain = self.machine.hpa(tdr);
        let tree = self.tree(tdr);
        let weights = self.live_weights();
        for _ in 0..12 {
            let call = match self.rng.weighted(&weights) {
                0 => self.step_table(tdr, &tree),
                1 => self.step_page(tdr, &tree),
                2 => (self.record(tdr).op_state == op_state::INITIALIZED)
                    .then_some(Call::Finalize { domain }),
                3 => self.step_block(domain, &tree),
                4 => Some(Call::Track { domain }),
                5 => self.step_unblock(tdr, &tree),
                6 => self.step_pageremove(tdr, &tree),
                7 => self.step_septremove(tdr, &tree),
                8 => self.step_readentry(domain, &tree),
                9 => Some(Call::ReadPage {
                    page: self.any_page(),
                }),
                _ => Some(Call::FlushDone { domain }),
            };
            if let Some(call) = call {
                return call;
            }
        }
        Call::Track { domain }
    }

    /// One more table, or one less if none is left in stock.
    fn step_table(&mut self, tdr: usize, tree: &Tree) -> Option<Call> {
        let domain = self.machine.hpa(tdr);
        let unused = self.machine.tables.iter().any(|table| !table.in_use);
        if unused || self.rng.chance(5) {
            self.step_septadd(domain, tree)
        } else {
            self.step_septremove(tdr, tree)
        }
    }

    /// A table below a reachable shelf; where no shelf takes pages yet, as
    /// deep as can be.
    fn step_septadd(&mut self, domain: u64, tree: &Tree) -> Option<Call> {
        let page = self.free_page();
        let lowest = tree.shelves.iter().map(|shelf| shelf.level).min()?;
        let upper =
            tree.shelves_where(|shelf| shelf.level > 0 && (lowest == 0 || shelf.level == lowest));
        let shelf = self.rng.pick(&upper)?;
        let gpa = self.free_gpa(domain, shelf)?;
        Some(Call::SeptAdd {
            domain,
            gpa,
            level: shelf.level,
            page,
        })
    }

    fn step_page(&mut self, tdr: usize, tree: &Tree) -> Option<Call> {
        let domain = self.machine.hpa(tdr);
        let lowest = tree.shelves_where(|shelf| shelf.level == 0);
        let Some(shelf) = self.rng.pick(&lowest) else {
            return self.step_table(tdr, tree);
        };
        let page = self.free_page();
        let gpa = self.free_gpa(domain, shelf)?;
        Some(match self.record(tdr).op_state {
            op_state::INITIALIZED => Call::PageAdd { domain, gpa, page },
            _ => Call::PageAug { domain, gpa, page },
        })
    }

    fn step_block(&mut self, domain: u64, tree: &Tree) -> Option<Call> {
        // Blocking high up cuts off all below, so it is kept rarer.
        let level = self.rng.weighted(&[6, 2, 1, 1]) as u64;
        let spots = tree
            .spots_where(|spot| spot.reachable && spot.level == level && !is_blocked(spot.entry));
        let spot = self.rng.pick(&spots)?;
        Some(Call::Block {
            domain,
            gpa: spot.gpa,
            level: spot.level,
        })
    }

    fn step_unblock(&mut self, tdr: usize, tree: &Tree) -> Option<Call> {
        let domain = self.machine.hpa(tdr);
        let spot = self
            .rng
            .pick(&tree.spots_where(|spot| spot.reachable && is_blocked(spot.entry)))?;
        Some(if self.is_tracked(tdr, spot) {
            Call::Unblock {
                domain,
                gpa: spot.gpa,
                level: spot.level,
            }
        } else {
            Call::Track { domain }
        })
    }

    /// On the way to removing a page: remove one, else track, else block one.
    fn step_pageremove(&mut self, tdr: usize, tree: &Tree) -> Option<Call> {
        let domain = self.machine.hpa(tdr);
        let is_page = |spot: &Spot| spot.reachable && spot.level == 0;
        let blocked = tree.spots_where(|spot| is_page(spot) && is_blocked(spot.entry));
        let ready = tree.spots_where(|spot| {
            is_page(spot) && is_blocked(spot.entry) && self.is_tracked(tdr, *spot)
        });
        if let Some(spot) = self.rng.pick(&ready) {
            return Some(Call::PageRemove {
                domain,
                gpa: spot.gpa,
            });
        }
        if self.rng.below(16) < blocked.len() as u64 {
            return Some(Call::Track { domain });
        }
        let spot = self
            .rng
            .pick(&tree.spots_where(|spot| is_page(spot) && !is_blocked(spot.entry)));
        Some(match spot {
            Some(spot) => Call::Block {
                domain,
                gpa: spot.gpa,
                level: 0,
            },
            None if blocked.is_empty() => return None,
            None => Call::Track { domain },
        })
    }

    /// On the way to removing an empty table.
    fn step_septremove(&mut self, tdr: usize, tree: &Tree) -> Option<Call> {
        let domain = self.machine.hpa(tdr);
        let spot = self.rng.pick(&tree.spots_where(|spot| {
            spot.reachable && spot.level > 0 && self.is_empty_table(spot.entry)
        }))?;
        let Spot { gpa, level, .. } = spot;
        Some(if !is_blocked(spot.entry) {
            Call::Block { domain, gpa, level }
        } else if self.is_tracked(tdr, spot) {
            Call::SeptRemove { domain, gpa, level }
        } else {
            Call::Track { domain }
        })
    }

    fn step_readentry(&mut self, domain: u64, tree: &Tree) -> Option<Call> {
        if tree.spots.is_empty() && self.rng.chance(800) {
            return None;
        }
        let (gpa, level) = self.some_target(tree);
        Some(Call::ReadEntry { domain, gpa, level })
    }

    // Misses.

    /// A call whose operands are in range, apt to fail by the state.
    fn miss(&mut self) -> Call {
        let tdrs = self.frames_of(|kind| kind == frame_type::TDR);
        if self.rng.chance(400) {
            if let Some(call) = self.near_miss(&tdrs) {
                return call;
            }
        }
        let tdr = match self.rng.pick(&tdrs) {
            Some(tdr) if self.rng.chance(850) => tdr,
            _ => self.rng.index(self.machine.frames.len()),
        };
        let domain = self.machine.hpa(tdr);
        let page = if self.rng.chance(500) {
            self.free_page()
        } else if self.rng.chance(200) {
            domain
        } else {
            self.any_page()
        };
        // Now and then the tree of one domain is tried on another.
        let tree = match self.rng.pick(&tdrs) {
            Some(other) if self.rng.chance(150) => self.tree(other),
            _ => self.tree(tdr),
        };
        let (gpa, level) = self.some_target(&tree);
        let upper_level = level.max(1);
        let upper_gpa = align(gpa, upper_level);
        let page_gpa = align(gpa, 0);
        let call = match self.rng.below(19) {
            0 => Call::Create {
                page,
                key: KEY_LOWEST + self.rng.below(KEY_HIGHEST - KEY_LOWEST + 1),
            },
            1 => Call::KeyConfig { domain },
            2 => Call::AddCx { domain, page },
            3 => Call::Init { domain },
            4 => Call::SeptAdd {
                domain,
                gpa: upper_gpa,
                level: upper_level,
                page,
            },
            5 => Call::PageAdd {
                domain,
                gpa: page_gpa,
                page,
            },
            6 => Call::Finalize { domain },
            7 => Call::PageAug {
                domain,
                gpa: page_gpa,
                page,
            },
            8 => Call::Block { domain, gpa, level },
            9 => Call::Track { domain },
            10 => Call::Unblock { domain, gpa, level },
            11 => Call::PageRemove {
                domain,
                gpa: page_gpa,
            },
            12 => Call::SeptRemove {
                domain,
                gpa: upper_gpa,
                level: upper_level,
            },
            13 => Call::FlushDone { domain },
            14 => Call::KeyFree { domain },
            15 => Call::Reclaim { page },
            16 => Call::ReadPage { page },
            17 => Call::CacheWb,
            _ => Call::ReadEntry { domain, gpa, level },
        };
        // Where they would end a phase for good, these two are kept rare.
        let ends = matches!(call, Call::Finalize { .. } | Call::FlushDone { .. });
        if ends && self.rng.chance(950) && self.machine.clone().call_unchecked(call).is_accepted() {
            return Call::ReadEntry { domain, gpa, level };
        }
        call
    }

    /// A call that all but fits: one detail of the state refuses it.
    fn near_miss(&mut self, tdrs: &[usize]) -> Option<Call> {
        let tdr = self.rng.pick(tdrs)?;
        let domain = self.machine.hpa(tdr);
        let tree = self.tree(tdr);
        match self.rng.weighted(&[2, 8, 8, 2, 2, 2, 1, 1]) {
            // 10: a key that is taken.
            0 => {
                let key = self.rng.pick(&self.taken_keys())?;
                let page = self.free_page();
                Some(Call::Create { page, key })
            }
            // 8: blocked, not yet tracked.
            1 => {
                let spot = self.rng.pick(&tree.spots_where(|spot| {
                    spot.reachable && is_blocked(spot.entry) && !self.is_tracked(tdr, *spot)
                }))?;
                let Spot { gpa, level, .. } = spot;
                Some(match (spot.entry.state, self.rng.chance(500)) {
                    (entry_state::NL_BLOCKED, true) => Call::SeptRemove { domain, gpa, level },
                    (_, true) => Call::PageRemove { domain, gpa },
                    _ => Call::Unblock { domain, gpa, level },
                })
            }
            // 9: a table that isn't empty.
            2 => {
                let spot = self.rng.pick(&tree.spots_where(|spot| {
                    spot.reachable
                        && spot.entry.state == entry_state::NL_BLOCKED
                        && !self.is_empty_table(spot.entry)
                }))?;
                Some(Call::SeptRemove {
                    domain,
                    gpa: spot.gpa,
                    level: spot.level,
                })
            }
            // 9: a TDR that still has pages, or 3 before teardown.
            3 => Some(Call::Reclaim { page: domain }),
            // 6: below a blocked entry.
            4 => {
                let spot = self.rng.pick(&tree.spots_where(|spot| !spot.reachable))?;
                let Spot { gpa, level, .. } = spot;
                Some(if self.rng.chance(500) {
                    Call::ReadEntry { domain, gpa, level }
                } else {
                    Call::Block { domain, gpa, level }
                })
            }
            // 7: an entry already taken.
            5 => {
                let spot = self.rng.pick(&tree.spots_where(|spot| spot.reachable))?;
                let Spot { gpa, level, .. } = spot;
                let page = self.free_page();
                Some(if level > 0 {
                    Call::SeptAdd {
                        domain,
                        gpa,
                        level,
                        page,
                    }
                } else if self.record(tdr).op_state == op_state::RUNNABLE {
                    Call::PageAug { domain, gpa, page }
                } else {
                    Call::PageAdd { domain, gpa, page }
                })
            }
            // 11: more than the stock holds.
            6 => self.step_septadd(domain, &tree),
            _ => Some(self.step_create()),
        }
    }

    // What the machine holds.

    fn record(&self, tdr: usize) -> &Record {
        &self.machine.records[self.machine.frames[tdr].number as usize]
    }

    fn frames_of(&self, wanted: impl Fn(u64) -> bool) -> Vec<usize> {
        let frames = self.machine.frames.iter().enumerate();
        frames
            .filter(|(_, frame)| wanted(frame.kind))
            .map(|(number, _)| number)
            .collect()
    }

    fn frames_owned_by(&self, tdr: usize) -> Vec<usize> {
        let frames = self.machine.frames.iter().enumerate();
        frames
            .filter(|(_, frame)| frame.kind > frame_type::TDR && frame.owner == tdr as u64)
            .map(|(number, _)| number)
            .collect()
    }

    fn taken_keys(&self) -> Vec<u64> {
        let records = self.machine.records.iter();
        records
            .filter(|record| record.in_use && record.lifecycle != lifecycle::TEARDOWN)
            .map(|record| record.key)
            .collect()
    }

    /// The hpa of a free frame: the lowest, the highest or any; of any frame
    /// if none is free.
    fn free_page(&mut self) -> u64 {
        let free = self.frames_of(|kind| kind == frame_type::NDA);
        let (Some(&first), Some(&last)) = (free.first(), free.last()) else {
            return self.any_page();
        };
        let frame = match self.rng.below(10) {
            0..=3 => first,
            4 => last,
            _ => free[self.rng.index(free.len())],
        };
        self.machine.hpa(frame)
    }

    /// The hpa of any frame, more often of one in use.
    fn any_page(&mut self) -> u64 {
        let used = self.frames_of(|kind| kind != frame_type::NDA);
        let frame = match self.rng.pick(&used) {
            Some(frame) if self.rng.chance(800) => frame,
            _ => self.rng.index(self.machine.frames.len()),
        };
        self.machine.hpa(frame)
    }

    fn is_tracked(&self, tdr: usize, spot: Spot) -> bool {
        let record = self.record(tdr);
        record.op_state == op_state::INITIALIZED
            || self.machine.frames[spot.entry.frame as usize].epoch < record.epoch
    }

    fn is_empty_table(&self, entry: Entry) -> bool {
        let table = self.machine.frames[entry.frame as usize].number as usize;
        let entries = &self.machine.tables[table].entries;
        entries.iter().all(|entry| entry.is_free())
    }

    /// A gpa and a level: mostly of an entry that isn't FREE or of its
    /// neighbour, else somewhere below a shelf, else anywhere.
    fn some_target(&mut self, tree: &Tree) -> (u64, u64) {
        let spot = self.rng.pick(&tree.spots);
        let shelf = self.rng.pick(&tree.shelves);
        let (gpa, level) = match (spot, shelf, self.rng.below(10)) {
            (Some(spot), _, 0..=6) => (spot.gpa, spot.level),
            (_, Some(shelf), 7..=8) => {
                let inside = (1 << (LEVEL_SHIFT[shelf.level as usize] + 9)) - 1;
                let gpa = shelf.gpa | (self.any_gpa() & inside);
                (gpa, self.rng.below(shelf.level + 1))
            }
            _ => (self.any_gpa(), self.rng.below(TOP_LEVEL + 1)),
        };
        let level = match self.rng.below(10) {
            0 => self.rng.below(TOP_LEVEL + 1),
            _ => level,
        };
        let size = 1 << LEVEL_SHIFT[level as usize];
        let gpa = match self.rng.below(10) {
            0 => gpa.wrapping_add(size) % GPA_LIMIT,
            1 => gpa.wrapping_sub(size) % GPA_LIMIT,
            _ => gpa,
        };
        (align(gpa, level), level)
    }

    /// A gpa made of likely indexes.
    fn any_gpa(&mut self) -> u64 {
        let mut gpa = 0;
        for level in 0..=TOP_LEVEL {
            gpa |= (self.any_index(level) as u64) << LEVEL_SHIFT[level as usize];
        }
        gpa
    }

    /// An index among the entries of a level, the ends more often. A gpa
    /// reaches only the lower half of a root.
    fn any_index(&mut self, level: u64) -> usize {
        let count = reachable_entries(level);
        match self.rng.below(8) {
            0 => 0,
            1 => count - 1,
            2 => 1,
            _ => self.rng.index(count),
        }
    }

    /// The gpa of a FREE entry of a shelf.
    fn free_gpa(&mut self, domain: u64, shelf: Shelf) -> Option<u64> {
        let wish = self.any_index(shelf.level);
        let count = reachable_entries(shelf.level);
        let tdr = ((domain - self.machine.base) / FRAME_BYTES) as usize;
        let entries = match shelf.table {
            Some(table) => &self.machine.tables[table].entries,
            None => &self.record(tdr).root,
        };
        let index = (0..count)
            .map(|offset| (wish + offset) % count)
            .find(|&index| entries[index].is_free())?;
        Some(shelf.gpa | (index as u64) << LEVEL_SHIFT[shelf.level as usize])
    }

    /// Looks at the whole tree of a domain; at nothing if the frame is no TDR.
    fn tree(&self, tdr: usize) -> Tree {
        let mut tree = Tree::default();
        if self.machine.frames[tdr].kind == frame_type::TDR {
            let root = Shelf {
                gpa: 0,
                level: TOP_LEVEL,
                table: None,
            };
            self.look_into(tdr, root, true, &mut tree);
        }
        tree
    }

    fn look_into(&self, tdr: usize, shelf: Shelf, reachable: bool, tree: &mut Tree) {
        if reachable {
            tree.shelves.push(shelf);
        }
        let entries = match shelf.table {
            Some(table) => &self.machine.tables[table].entries,
            None => &self.record(tdr).root,
        };
        for (index, &entry) in entries.iter().enumerate() {
            if entry.is_free() {
                continue;
            }
            let gpa = shelf.gpa | (index as u64) << LEVEL_SHIFT[shelf.level as usize];
            tree.spots.push(Spot {
                gpa,
                level: shelf.level,
                entry,
                reachable,
            });
            // In teardown an entry may name a frame that is another's by now.
            let frame = &self.machine.frames[entry.frame as usize];
            if shelf.level > 0 && frame.kind == frame_type::EPT && frame.owner == tdr as u64 {
                let below = Shelf {
                    gpa,
                    level: shelf.level - 1,
                    table: Some(frame.number as usize),
                };
                self.look_into(tdr, below, reachable && !is_blocked(entry), tree);
            }
        }
    }
}

impl Tree {
    fn spots_where(&self, wanted: impl Fn(&Spot) -> bool) -> Vec<Spot> {
        let spots = self.spots.iter();
        spots.filter(|spot| wanted(spot)).copied().collect()
    }

    fn shelves_where(&self, wanted: impl Fn(&Shelf) -> bool) -> Vec<Shelf> {
        let shelves = self.shelves.iter();
        shelves.filter(|shelf| wanted(shelf)).copied().collect()
    }
}

fn is_blocked(entry: Entry) -> bool {
    entry.state >= entry_state::NL_BLOCKED
}

fn align(gpa: u64, level: u64) -> u64 {
    gpa >> LEVEL_SHIFT[level as usize] << LEVEL_SHIFT[level as usize]
}

fn reachable_entries(level: u64) -> usize {
    if level == TOP_LEVEL {
        ENTRIES / 2
    } else {
        ENTRIES
    }
}
