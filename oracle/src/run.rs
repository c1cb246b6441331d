//! A run that is being made: records are played as they are chosen, and kept.

use crate::alone::Trials;
use crate::arena::ARENA;
use crate::judge::{Answer, Judge, Outcome};
use crate::marks::Marks;
use crate::record::{Record, MARKED, REGISTER, STEP};
use crate::tally::Tally;

pub(crate) struct Run {
    pub(crate) judge: Judge,
    pub(crate) log: Vec<Record>,
    pub(crate) tally: Tally,
    /// Which of the steps that it is given become marked ones.
    pub(crate) marks: Marks,
    /// Runs alone between its records, if any are wanted.
    pub(crate) trials: Option<Trials>,
}

impl Run {
    pub(crate) fn start(n: usize, m: usize) -> Run {
        let (judge, tally, marks) = (Judge::start(n, m, false), Tally::default(), Marks::none());
        Run { judge, log: Vec::new(), tally, marks, trials: None }
    }

    pub(crate) fn play(&mut self, record: Record) -> Outcome {
        let record = self.marks.put(record, &self.judge);
        let outcome = self.as_it_is(record);
        if let Some(mut trials) = self.trials.take() {
            trials.after_a_record(self);
            self.trials = Some(trials);
        }
        outcome
    }

    /// Neither is a step marked nor does anyone go alone after it.
    pub(crate) fn as_it_is(&mut self, record: Record) -> Outcome {
        self.log.push(record);
        let outcome = self.judge.play(record);
        self.tally.note(outcome.seen.as_ref(), outcome.freed.len());
        outcome
    }

    pub(crate) fn call(&mut self, action: u8, slot: usize, token: u32) -> Outcome {
        self.play(Record::new(action, slot, token))
    }

    pub(crate) fn step(&mut self, slot: usize) -> Outcome {
        self.call(STEP, slot, 0)
    }

    pub(crate) fn marked_step(&mut self, slot: usize) -> Outcome {
        self.call(MARKED, slot, 0)
    }

    /// Steps a participant until its operation is done.
    pub(crate) fn finish(&mut self, slot: usize) -> Vec<Outcome> {
        let mut steps = Vec::new();
        while self.judge.running(slot) {
            steps.push(self.step(slot));
        }
        steps
    }

    /// A whole operation; gives its steps. A refused call has none.
    pub(crate) fn operation(&mut self, action: u8, slot: usize, token: u32) -> Vec<Outcome> {
        match self.call(action, slot, token).answer {
            Answer::More => self.finish(slot),
            Answer::Done(_) | Answer::Refused(_) => Vec::new(),
        }
    }

    /// Registers and gives the slot.
    pub(crate) fn register(&mut self) -> usize {
        let slot = ARENA.smallest_free_slot();
        self.call(REGISTER, 0, 0);
        self.finish(slot);
        slot
    }
}
