//! Runs that are steered to a long run alone: many entries, some of them tagged, bags that expire with the next advance, a full bag at
//! a collecting pin, a tail that lags, and others who stopped in the middle. Each of these comes by chance, so that all mixtures come.

use crate::alone::Trials;
use crate::arena::ARENA;
use crate::generate::{maker, Maker, Wish};
use crate::place::Place;
use crate::record::*;
use crate::run::Run;
use crate::world::{self, MAX_OBJECTS};

/// Which operation is going to run alone.
#[derive(Clone, Copy, PartialEq, Eq)]
enum Aim {
    Pin,
    /// One that finalizes, as the next.
    Unpin,
    Release,
    Flush,
    Defer,
}

const AIMS: [Aim; 5] = [Aim::Pin, Aim::Unpin, Aim::Release, Aim::Flush, Aim::Defer];

/// Records of the wished profile that follow, from a state with much in it.
const AFTERWARDS: usize = 500;

pub(crate) fn steered(wish: Wish, trials: Trials) -> Run {
    let mut maker = maker(wish);
    let aim = AIMS[maker.rng.below(AIMS.len())];
    // Half of the time the others spoil nothing of what makes the run alone long.
    let calm = maker.rng.chance(500);
    let slots = maker.crowd(wish.n, calm);
    let one = slots[maker.rng.below(slots.len())];
    maker.ripen(one);
    maker.bags(one, &slots);
    maker.prepare(one, aim);
    maker.stop_others(one, &slots, calm);
    maker.begin(one, aim);
    maker.stop_others(one, &slots, calm);
    maker.all_alone(one, trials);
    let end = maker.run.log.len() + AFTERWARDS;
    while maker.run.log.len() < end && maker.turn() {}
    maker.run
}

impl Maker {
    /// Mostly as many as there is room for. They have pinned once, or their next pin would collect and clear everything away.
    fn crowd(&mut self, n: usize, calm: bool) -> Vec<usize> {
        let count = if calm || self.rng.chance(700) { n } else { 1 + self.rng.below(n) };
        let slots: Vec<usize> = (0..count).map(|_| self.run.register()).collect();
        for slot in &slots {
            if calm || self.rng.chance(900) {
                self.operation(PIN, *slot);
                self.operation(UNPIN, *slot);
            }
        }
        slots
    }

    /// Pinned, with a pin count that is a multiple of 128, so that its next pin collects.
    fn ripen(&mut self, one: usize) {
        let ripe = self.rng.chance(800);
        while self.operation(PIN, one) && ripe && world::pins(one) % 128 != 0 {
            self.operation(UNPIN, one);
        }
    }

    /// Up to ten bags of 64, all sealed with the epoch that stands, then one advance, so that they expire with the next.
    fn bags(&mut self, one: usize, slots: &[usize]) {
        let pusher = if self.rng.chance(200) { one } else { slots[self.rng.below(slots.len())] };
        self.operation(PIN, pusher);
        let bags = if self.rng.chance(700) { 8 + self.rng.below(3) } else { self.rng.below(8) };
        for _ in 0..bags {
            self.defers(pusher, MAX_OBJECTS);
            self.operation(DEFER, pusher);
        }
        for action in [REPIN, FLUSH, UNPIN] {
            if pusher != one || action != UNPIN || world::guards(one) > 1 {
                self.operation(action, pusher);
            }
        }
    }

    /// Its bag full or nearly so, and pinned or not as its operation wants it.
    fn prepare(&mut self, one: usize, aim: Aim) {
        let want = if self.rng.chance(700) { MAX_OBJECTS } else { self.rng.below(MAX_OBJECTS) };
        self.defers(one, want.saturating_sub(world::bag_len(one)));
        match aim {
            Aim::Pin | Aim::Release => self.operation(UNPIN, one),
            Aim::Unpin => self.operation(RELEASE, one),
            Aim::Flush | Aim::Defer => self.operation(REPIN, one),
        };
    }

    /// Calls the operation and often goes no further. Two steps lead a push to the next of a tail that others then leave behind; before
    /// an unlink others can change the word that it wants to exchange.
    fn begin(&mut self, one: usize, aim: Aim) {
        let action = match aim {
            Aim::Pin => PIN,
            Aim::Unpin => UNPIN,
            Aim::Release => RELEASE,
            Aim::Flush => FLUSH,
            Aim::Defer => DEFER,
        };
        self.play_allowed(self.record(action, one));
        let steps = [0, 0, 2, self.rng.below(40)][self.rng.below(4)];
        self.steps(one, steps);
        if self.rng.chance(200) {
            self.steps_to(one, Place::Unlink);
        }
    }

    fn play_allowed(&mut self, record: Record) {
        if self.run.judge.refusal(record).is_none() {
            self.run.play(record);
        }
    }

    fn steps(&mut self, slot: usize, count: usize) {
        for _ in 0..count {
            self.play_allowed(Record::new(STEP, slot, 0));
        }
    }

    /// Up to a place, or to the end of the operation.
    fn steps_to(&mut self, slot: usize, place: Place) {
        while self.run.judge.course(slot).is_some_and(|course| course.place != Some(place)) {
            self.run.step(slot);
        }
    }

    /// Some of the others go, or push, or walk, or register again; some of them stop on the way.
    fn stop_others(&mut self, one: usize, slots: &[usize], calm: bool) {
        let most = 2 + slots.len() / 2;
        for _ in 0..self.rng.below(most + 1) {
            let other = slots[self.rng.below(slots.len())];
            if other == one || self.run.judge.running(other) || !self.run.judge.present(other) {
                continue;
            }
            match self.rng.below(8) {
                0..=2 => self.go(other, calm),
                3..=6 => self.push(other, calm),
                _ => self.come(),
            }
        }
    }

    /// A registering, to its end or to its middle.
    fn come(&mut self) {
        let slot = ARENA.smallest_free_slot();
        self.play_allowed(Record::new(REGISTER, 0, 0));
        let steps = self.rng.below(5);
        self.steps(slot, steps);
    }

    /// Leaves a tagged entry, or stands before that.
    fn go(&mut self, other: usize, calm: bool) {
        self.play_allowed(Record::new(RELEASE, other, 0));
        let steps = if calm || self.rng.chance(700) { 40 } else { self.rng.below(8) };
        self.steps(other, steps);
    }

    /// Pushes a bag, in a flush or in a defer, and stops before it moves the tail, or right after that, or anywhere in its flush.
    fn push(&mut self, other: usize, calm: bool) {
        if world::guards(other) == 0 && !self.operation(PIN, other) {
            return;
        }
        let (items, action) = if self.rng.chance(300) { (MAX_OBJECTS, DEFER) } else { (1, FLUSH) };
        self.defers(other, items);
        self.play_allowed(self.record(action, other));
        if !calm && self.rng.chance(500) {
            let steps = self.rng.below(60);
            return self.steps(other, steps);
        }
        self.steps_to(other, Place::PushMove);
        let after = self.rng.below(2);
        self.steps(other, after);
    }

    /// The one alone, then each of those who stopped, in any order: all of them stand in states worth trying.
    fn all_alone(&mut self, one: usize, mut trials: Trials) {
        let mut next = one;
        loop {
            if self.run.judge.running(next) {
                trials.attempt(&mut self.run, next);
            }
            let running: Vec<usize> = (0..self.run.judge.n).filter(|slot| self.run.judge.running(*slot)).collect();
            if running.is_empty() {
                break;
            }
            next = running[self.rng.below(running.len())];
        }
        self.run.trials = Some(trials);
    }
}
