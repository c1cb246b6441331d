//! Nobody gets stuck (document 02, No. 11): in generated runs one that is in the middle of an operation is stepped alone, unmarked, to its
//! end, while all others stand where they stopped, and the steps are counted. The run then goes on from there, so that every state
//! tried is one of a run from a fresh start and nothing has to be played twice.

use crate::generate::{generate_trying, Rng, Wish, PROFILES};
use crate::judge::Answer;
use crate::place::{Place, PLACES};
use crate::record::*;
use crate::run::Run;
use crate::shrink::{shrink, Worst};
use crate::steer::steered;
use std::collections::BTreeMap;

const SIZES: [usize; 7] = [1, 2, 3, 5, 8, 16, 32];
const OPERATIONS: [(u8, &str); 7] = [
    (REGISTER, "register"),
    (PIN, "pin"),
    (UNPIN, "unpin"),
    (REPIN, "repin"),
    (DEFER, "defer"),
    (FLUSH, "flush"),
    (RELEASE, "release"),
];
/// Runs are kept short, so that many fresh starts are among them.
const SHORT: usize = 2500;
/// Of so many turns, those that are left over by the profiles are steered runs.
const TURNS: usize = 10;
/// How often of 1000 records one is run alone: often, and so seldom that operations stand for long in between.
const RATES: [usize; 4] = [250, 100, 30, 10];

pub(crate) fn operation_name(action: u8) -> &'static str {
    OPERATIONS.iter().find(|(its, _)| *its == action).map_or("acquire", |(_, name)| name)
}

/// The steps that are shown to be enough.
fn bound(n: usize) -> usize {
    2 * n + 62 + 8 * ((n + 71) / 64)
}

/// The steps that document 02 allows.
fn allowed(n: usize) -> usize {
    4 * n + 384
}

/// States tried and the longest run alone from one of them.
#[derive(Clone, Copy, Default)]
struct Count {
    states: u64,
    longest: usize,
}

impl Count {
    fn note(&mut self, steps: usize) {
        self.states += 1;
        self.longest = self.longest.max(steps);
    }
}

/// What came of all runs alone.
#[derive(Default)]
pub(crate) struct Found {
    counts: BTreeMap<(usize, u8), Count>,
    places: BTreeMap<Place, Count>,
    faults: Vec<String>,
    states: u64,
    /// Sizes for which the longest is kept with its schedule, and that one.
    kept_for: (usize, usize),
    worst: Option<Worst>,
}

/// Runs alone in the midst of a run that is being made.
pub(crate) struct Trials {
    rng: Rng,
    of_1000: usize,
    pub(crate) found: Found,
}

impl Trials {
    /// After each record of the run, perhaps one that stands in the middle goes alone.
    pub(crate) fn after_a_record(&mut self, run: &mut Run) {
        if !self.rng.chance(self.of_1000) {
            return;
        }
        let running: Vec<usize> = (0..run.judge.n).filter(|slot| run.judge.running(*slot)).collect();
        if !running.is_empty() {
            let slot = running[self.rng.below(running.len())];
            self.attempt(run, slot);
        }
    }

    pub(crate) fn attempt(&mut self, run: &mut Run, slot: usize) {
        let course = *run.judge.course(slot).expect("running");
        let (place, before) = (course.place.expect("stopped"), run.log.len());
        let found = &mut self.found;
        let steps = match run_alone(run, slot) {
            Ok(steps) => steps,
            Err(fault) => found.give_up(run, slot, &fault),
        };
        if steps > bound(run.judge.n) {
            found.fault(run, slot, &format!("{steps} steps"));
        }
        found.states += 1;
        found.counts.entry((run.judge.n, course.action)).or_default().note(steps);
        found.places.entry(place).or_default().note(steps);
        let longer = found.worst.as_ref().is_none_or(|worst| steps > worst.steps);
        if longer && found.kept_for == (run.judge.n, run.judge.m) {
            let operation = operation_name(course.action);
            found.worst = Some(Worst { before: run.log[..before].to_vec(), slot, steps, operation, place });
        }
    }
}

/// Steps a participant, unmarked, to the end of its operation. Gives the number of its steps.
pub(crate) fn run_alone(run: &mut Run, slot: usize) -> Result<usize, String> {
    let most = allowed(run.judge.n);
    for number in 1..=most {
        match run.as_it_is(Record::new(STEP, slot, 0)).answer {
            Answer::More => (),
            Answer::Done(_) => return Ok(number),
            Answer::Refused(refusal) => return Err(format!("refused {refusal} in step {number}")),
        }
    }
    Err(format!("not done after {most} steps"))
}

impl Found {
    fn fault(&mut self, run: &Run, slot: usize, what: &str) {
        let (n, m, records) = (run.judge.n, run.judge.m, run.log.len());
        self.faults.push(format!("N {n} M {m}, participant {slot}, after {records} records: {what}"));
    }

    /// With an operation that does not end the run cannot go on.
    fn give_up(&mut self, run: &Run, slot: usize, what: &str) -> ! {
        self.fault(run, slot, what);
        self.print();
        std::process::exit(1)
    }

    fn table(&self) -> String {
        let mut text = String::from("| N | 2N + 62 + 8*floor((N + 71)/64) | 4N + 384 |");
        OPERATIONS.iter().for_each(|(_, name)| text += &format!(" {name} |"));
        text += "\n|---|---|---|---|---|---|---|---|---|---|\n";
        let mut sizes: Vec<usize> = self.counts.keys().map(|(n, _)| *n).collect();
        sizes.dedup();
        for n in sizes {
            text += &format!("| {n} | {} | {} |", bound(n), allowed(n));
            for (action, _) in OPERATIONS {
                let count = self.counts.get(&(n, action)).copied().unwrap_or_default();
                text += &format!(" {}: {} |", count.states, count.longest);
            }
            text += "\n";
        }
        text
    }

    fn print(&self) {
        println!("Runs alone from {} states. For each operation: states tried, and the steps of the longest run alone.\n", self.states);
        println!("{}", self.table());
        println!("The same by the place at which the participant stood, over all N:\n");
        for (place, name) in PLACES {
            let count = self.places.get(&place).copied().unwrap_or_default();
            println!("- {name} {}: {}", count.states, count.longest);
        }
        println!("\n{} too long, refused or without an end", self.faults.len());
        self.faults.iter().take(10).for_each(|fault| println!("FAULT: {fault}"));
    }
}

/// What is wanted of the command.
pub(crate) struct Asked {
    pub(crate) seed: u64,
    pub(crate) states: u64,
    /// Sizes for which the longest is written, and where to.
    pub(crate) n: usize,
    pub(crate) m: usize,
    pub(crate) worst: Option<String>,
}

/// All profiles in turn and then some steered runs, for all sizes in turn. True if no run alone was too long, refused or without an end.
pub(crate) fn alone(asked: &Asked) -> bool {
    let mut sizes = SIZES.to_vec();
    if !sizes.contains(&asked.n) {
        sizes.push(asked.n);
    }
    let mut found = Found { kept_for: (asked.n, asked.m), ..Found::default() };
    let mut number = 0;
    while found.states < asked.states {
        let n = sizes[number as usize / TURNS % sizes.len()];
        found = one_run(asked, number, n, found);
        number += 1;
    }
    println!("{number} runs, seed {}.", asked.seed);
    found.print();
    if let (Some(worst), Some(file)) = (&found.worst, &asked.worst) {
        shrink(worst, (asked.n, asked.m), file);
    }
    found.faults.is_empty()
}

fn one_run(asked: &Asked, number: u64, n: usize, found: Found) -> Found {
    let mut rng = Rng(asked.seed.wrapping_add(number).wrapping_mul(0x1000_0001));
    let m = match rng.below(4) {
        0 => 2 + rng.below(12),
        1 => 14 + rng.below(50),
        _ if n == asked.n => asked.m,
        _ => 128,
    };
    let wild = if rng.chance(200) { 50 } else { 0 };
    let marked = if rng.chance(330) { 100 } else { 0 };
    let trials = Trials { of_1000: RATES[rng.below(RATES.len())], rng: Rng(rng.next()), found };
    let (seed, any) = (rng.next(), PROFILES[rng.below(PROFILES.len())].0);
    let wish = |profile| Wish { seed, profile, records: SHORT, n, m, wild, marked };
    let mut run = match PROFILES.get(number as usize % TURNS) {
        Some((profile, _)) => generate_trying(wish(*profile), trials),
        None => steered(wish(any), trials),
    };
    run.trials.take().expect("they were lent to the run").found
}
