//! Kind (i) against kind (ii): a schedule of operations finished one after another, played whole and stepped.

use crate::generate::{generate, Profile, Wish};
use crate::judge::{Answer, Judge};
use crate::record::Record;

const SHORT: usize = 3000;

/// Final answer of each call, and all that its operation freed.
type Operations = Vec<(Record, Answer, Vec<u32>)>;

/// The last operation of a schedule may be cut off; it is left out.
fn stepped(records: &[Record]) -> Operations {
    let mut judge = Judge::start(32, 128, false);
    let mut operations: Operations = Vec::new();
    for record in records {
        let outcome = judge.play(*record);
        if !record.steps() {
            operations.push((*record, outcome.answer, outcome.freed));
        } else if let Some((_, answer, freed)) = operations.last_mut() {
            *answer = outcome.answer;
            freed.extend(outcome.freed);
        }
    }
    operations.retain(|(_, answer, _)| *answer != Answer::More);
    operations
}

fn whole(records: &[Record]) -> Operations {
    let mut judge = Judge::start(32, 128, true);
    let calls = records.iter().filter(|record| !record.steps());
    calls.map(|record| (judge.play(*record), record)).map(|(outcome, record)| (*record, outcome.answer, outcome.freed)).collect()
}

/// False if something differed.
pub(crate) fn agree(seed: u64, records: u64) -> bool {
    let (mut played, mut schedules, mut operations, mut freed) = (0, 0, 0, 0);
    while played < records {
        let log = generate(Wish::new(seed.wrapping_add(schedules).wrapping_mul(0x1000_0001), Profile::Whole, SHORT)).log;
        let two = stepped(&log);
        let mut one = whole(&log);
        one.truncate(two.len());
        if let Some(at) = (0..two.len()).find(|at| one[*at] != two[*at]) {
            println!("schedule {schedules}, operation {at}: whole {:?}, stepped {:?}", one[at], two[at]);
            return false;
        }
        played += log.len() as u64;
        schedules += 1;
        operations += two.len();
        freed += two.iter().map(|(_, _, tokens)| tokens.len()).sum::<usize>();
    }
    println!("{schedules} schedules, {operations} operations, {freed} freed tokens compared: whole and stepped agree");
    true
}
