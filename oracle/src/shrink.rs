//! Makes the schedule that led to a long run alone short: records are left out as long as the run alone stays as long.

use crate::alone::run_alone;
use crate::fail;
use crate::judge::Answer;
use crate::place::Place;
use crate::record::{Record, STEP};
use crate::run::Run;

/// The longest run alone that was seen, and what had been played before it.
pub(crate) struct Worst {
    pub(crate) before: Vec<Record>,
    pub(crate) slot: usize,
    pub(crate) steps: usize,
    pub(crate) operation: &'static str,
    pub(crate) place: Place,
}

/// Those of the records that are not refused, and how long the participant then runs alone.
fn tried(records: &[Record], slot: usize, (n, m): (usize, usize)) -> (Vec<Record>, usize) {
    let mut run = Run::start(n, m);
    let accepted = |record: &Record| !matches!(run.as_it_is(*record).answer, Answer::Refused(_));
    let kept: Vec<Record> = records.iter().copied().filter(accepted).collect();
    let steps = if run.judge.running(slot) { run_alone(&mut run, slot).unwrap_or(0) } else { 0 };
    (kept, steps)
}

/// Leaves out rows of so many records, the last ones first, wherever the run alone stays as long. Gives whether one was left out.
fn leave_out(records: &mut Vec<Record>, length: usize, slot: usize, steps: usize, sizes: (usize, usize)) -> bool {
    let before = records.len();
    let mut end = records.len();
    while end > 0 {
        let begin = end.saturating_sub(length);
        let rest: Vec<Record> = records[..begin].iter().chain(&records[end..]).copied().collect();
        let (kept, its_steps) = tried(&rest, slot, sizes);
        if its_steps >= steps {
            *records = kept;
        }
        // What is left out may lie before it as well, since refused ones go too.
        end = begin.min(records.len());
    }
    records.len() < before
}

/// Half of the records at once, then ever fewer, single ones until none can be left out. Writes the schedule with the steps alone.
pub(crate) fn shrink(worst: &Worst, sizes: (usize, usize), file: &str) {
    let (slot, steps) = (worst.slot, worst.steps);
    let mut records = worst.before.clone();
    let mut length = records.len() / 2;
    while length > 1 {
        leave_out(&mut records, length, slot, steps, sizes);
        length /= 2;
    }
    while leave_out(&mut records, 1, slot, steps, sizes) {}
    let (before, after) = (worst.before.len(), records.len());
    records.extend((0..steps).map(|_| Record::new(STEP, slot, 0)));
    let bytes: Vec<u8> = records.iter().flat_map(|record| record.bytes()).collect();
    std::fs::write(file, bytes).unwrap_or_else(|error| fail(&format!("{file}: {error}")));
    let (n, m) = sizes;
    println!("\nThe longest for N {n} and M {m}: {} of participant {slot}, from `{}`.", worst.operation, worst.place.name());
    println!("{before} records, shrunk to {after}, and {steps} steps alone are in {file}.");
}
