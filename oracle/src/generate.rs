//! Makes schedules without refusals. The crate itself is driven while they are made, so what is allowed is always known.

use crate::alone::Trials;
use crate::arena::{ARENA, SLOTS};
use crate::marks::Marks;
use crate::record::*;
use crate::run::Run;
use crate::world::{self, Item, MAX_OBJECTS};

/// splitmix64.
pub(crate) struct Rng(pub(crate) u64);

impl Rng {
    pub(crate) fn next(&mut self) -> u64 {
        self.0 = self.0.wrapping_add(0x9E37_79B9_7F4A_7C15);
        let mut z = self.0;
        z = (z ^ (z >> 30)).wrapping_mul(0xBF58_476D_1CE4_E5B9);
        z = (z ^ (z >> 27)).wrapping_mul(0x94D0_49BB_1331_11EB);
        z ^ (z >> 31)
    }
    pub(crate) fn below(&mut self, bound: usize) -> usize {
        (self.next() % bound.max(1) as u64) as usize
    }
    pub(crate) fn chance(&mut self, of_1000: usize) -> bool {
        self.below(1000) < of_1000
    }
}

#[derive(Clone, Copy, PartialEq, Eq, Debug)]
pub(crate) enum Profile {
    Whole,
    Interleaved,
    Churn,
    Bags,
    Stalls,
    NearlyFull,
    Late,
}

pub(crate) const PROFILES: [(Profile, &str); 7] = [
    (Profile::Whole, "whole"),
    (Profile::Interleaved, "interleaved"),
    (Profile::Churn, "churn"),
    (Profile::Bags, "bags"),
    (Profile::Stalls, "stalls"),
    (Profile::NearlyFull, "nearly-full"),
    (Profile::Late, "late"),
];

/// How records are chosen. Chances are of 1000.
#[derive(Clone, Copy)]
struct Taste {
    /// How many are registered at most.
    participants: usize,
    /// Weights of the calls, by action; that of `step` is not used.
    weights: [usize; 9],
    /// The participant of the last record goes on.
    stay: usize,
    /// A running operation is left standing, and for how many records.
    stall: usize,
    stall_for: usize,
    /// Only in the middle of a collect.
    stall_late: bool,
    /// A defer begins a row of them.
    row: usize,
    whole: bool,
}

impl Profile {
    pub(crate) fn named(name: &str) -> Option<Profile> {
        PROFILES.iter().find(|(_, its)| *its == name).map(|(profile, _)| *profile)
    }

    fn taste(self) -> Taste {
        //         step, register, acquire, release, pin, unpin, repin, defer, flush
        let even = [0, 6, 3, 6, 25, 20, 12, 15, 15];
        let plain = Taste {
            participants: 4,
            weights: even,
            stay: 300,
            stall: 0,
            stall_for: 0,
            stall_late: false,
            row: 0,
            whole: false,
        };
        match self {
            Profile::Whole => Taste { participants: 6, row: 60, whole: true, ..plain },
            Profile::Interleaved => plain,
            Profile::Churn => Taste { participants: 12, weights: [0, 30, 2, 30, 20, 15, 6, 4, 8], stay: 500, ..plain },
            Profile::Bags => Taste { weights: [0, 3, 1, 2, 15, 8, 10, 40, 6], row: 300, stay: 600, ..plain },
            Profile::Stalls => Taste { participants: 6, stay: 700, stall: 30, stall_for: 400, ..plain },
            Profile::NearlyFull => Taste { weights: [0, 2, 1, 2, 20, 15, 10, 20, 30], stay: 400, ..plain },
            Profile::Late => {
                let weights = [0, 12, 1, 10, 25, 18, 18, 12, 30];
                Taste { participants: 5, weights, stay: 600, stall: 150, stall_for: 120, stall_late: true, ..plain }
            }
        }
    }
}

pub(crate) struct Maker {
    pub(crate) run: Run,
    pub(crate) rng: Rng,
    taste: Taste,
    wild: usize,
    limit: usize,
    last: usize,
    /// Number of the record up to which a participant stands.
    stands: [usize; SLOTS],
}

/// What is wanted of a schedule.
#[derive(Clone, Copy)]
pub(crate) struct Wish {
    pub(crate) seed: u64,
    pub(crate) profile: Profile,
    pub(crate) records: usize,
    pub(crate) n: usize,
    pub(crate) m: usize,
    /// Chance of 1000 that a record is made without asking whether it is refused.
    pub(crate) wild: usize,
    /// Chance of 1000 that a step is marked; unless it is 0, the first link of each registering is.
    pub(crate) marked: usize,
}

impl Wish {
    pub(crate) fn new(seed: u64, profile: Profile, records: usize) -> Wish {
        Wish { seed, profile, records, n: 32, m: 128, wild: 0, marked: 0 }
    }
}

pub(crate) fn maker(wish: Wish) -> Maker {
    let mut rng = Rng(wish.seed);
    let mut taste = wish.profile.taste();
    // Some runs are of few participants, some of the profile's full number.
    taste.participants = 2 + rng.below(taste.participants - 1);
    let mut run = Run::start(wish.n, wish.m);
    run.marks = Marks::new(wish.marked, wish.seed);
    Maker { run, rng, taste, wild: wish.wild, limit: wish.records, last: 0, stands: [0; SLOTS] }
}

/// One round of the profile `nearly-full`, the shortest run that shows a push inside a walk or a pop.
pub(crate) fn nearly_full_round(seed: u64, marked: usize) -> Run {
    let mut maker = maker(Wish { marked, ..Wish::new(seed, Profile::NearlyFull, 0) });
    maker.round();
    maker.run
}

/// A schedule, and the run that it was made with, which may be a little longer.
pub(crate) fn generate(wish: Wish) -> Run {
    let mut maker = maker(wish);
    maker.fill(wish.profile);
    maker.run.log.truncate(wish.records);
    maker.run
}

/// The same with runs alone between its records, half of the time with up to N participants.
pub(crate) fn generate_trying(wish: Wish, trials: Trials) -> Run {
    let mut maker = maker(wish);
    if maker.rng.chance(500) {
        maker.taste.participants = 2 + maker.rng.below(wish.n);
    }
    maker.run.trials = Some(trials);
    maker.fill(wish.profile);
    maker.run
}

impl Maker {
    fn fill(&mut self, profile: Profile) {
        if profile == Profile::NearlyFull {
            self.nearly_full();
        } else {
            while self.goes_on() && self.turn() {}
        }
    }

    fn goes_on(&self) -> bool {
        self.run.log.len() < self.limit
    }

    /// One record at least; false if none was found that is allowed.
    pub(crate) fn turn(&mut self) -> bool {
        if self.rng.chance(self.wild) {
            self.wild_record();
            return true;
        }
        for attempt in 0..400 {
            if attempt % 50 == 49 {
                self.stands = [0; SLOTS];
            }
            let Some(record) = self.choose() else { continue };
            if self.run.judge.refusal(record).is_some() {
                continue;
            }
            self.make(record);
            return true;
        }
        false
    }

    /// Any record, mostly a refused one.
    fn wild_record(&mut self) {
        let drawn = self.rng.below(10) as u8;
        let action = self.run.marks.wild_action(drawn);
        let slot = if action == REGISTER { 0 } else { self.rng.below(self.taste.participants + 2) };
        let slot = if self.rng.chance(20) { self.rng.below(256) } else { slot };
        // Any token, also where none is wanted; one that the participant holds; else 0.
        let token = match self.rng.below(1000) {
            0..100 => self.rng.next() as u32,
            drawn @ 100..900 if action == DEFER => self.held(slot, drawn).unwrap_or(0),
            _ => 0,
        };
        self.run.play(Record::read(&Record::new(action, slot, token).bytes()));
    }

    /// A token that the participant's own bag holds, if there is one. The number decides which.
    fn held(&self, slot: usize, number: usize) -> Option<u32> {
        let tokens = self.tokens(slot);
        tokens.get(number % tokens.len().max(1)).copied()
    }

    /// The tokens in a participant's own bag; none where there is no such participant.
    fn tokens(&self, slot: usize) -> Vec<u32> {
        let bag = if self.run.judge.present(slot) { self.run.judge.bag(slot) } else { Vec::new() };
        bag.into_iter().filter_map(Item::token).collect()
    }

    fn make(&mut self, record: Record) {
        let slot = if record.action == REGISTER { ARENA.smallest_free_slot() } else { record.participant as usize };
        self.last = slot;
        self.run.play(record);
        if self.taste.whole {
            self.run.finish(slot);
        }
        if record.action == DEFER && self.rng.chance(self.taste.row) {
            let row = self.rng.below(MAX_OBJECTS);
            self.defers(slot, row);
        }
    }

    /// Up to `count` defers that finish at once.
    pub(crate) fn defers(&mut self, slot: usize, count: usize) {
        for _ in 0..count {
            if self.run.judge.running(slot) || world::bag_len(slot) == MAX_OBJECTS {
                return;
            }
            let token = self.token(slot);
            self.run.call(DEFER, slot, token);
        }
    }

    /// A token that this participant may retire: the one that is drawn, or the next that it does not hold.
    fn token(&mut self, slot: usize) -> u32 {
        let drawn = self.rng.below(1000) as u32;
        self.not_held(slot, drawn)
    }

    /// The first token, from that number on, that is not in the participant's own bag, where it would be refused (16).
    fn not_held(&self, slot: usize, first: u32) -> u32 {
        let held = self.tokens(slot);
        (first..).find(|token| !held.contains(token)).expect("a bag holds 64 at most")
    }

    /// A record whose token matters to nobody: where it retires one, the first that the participant does not hold.
    pub(crate) fn record(&self, action: u8, slot: usize) -> Record {
        let token = if action == DEFER { self.not_held(slot, 0) } else { 0 };
        Record::new(action, slot, token)
    }

    fn choose(&mut self) -> Option<Record> {
        let slot = self.pick()?;
        let Some(slot) = slot else { return Some(Record::new(REGISTER, 0, 0)) };
        if !self.run.judge.running(slot) {
            return self.choose_call(slot);
        }
        if self.stands_now(slot) {
            self.stands[slot] = self.run.log.len() + self.rng.below(self.taste.stall_for);
            return None;
        }
        Some(Record::new(STEP, slot, 0))
    }

    fn stands_now(&mut self, slot: usize) -> bool {
        let place = self.run.judge.course(slot).and_then(|course| course.place).expect("running");
        (place.in_collect() || !self.taste.stall_late) && self.rng.chance(self.taste.stall)
    }

    /// A participant, or None for one more.
    fn pick(&mut self) -> Option<Option<usize>> {
        let now = self.run.log.len();
        let last = self.last;
        if self.run.judge.present(last) && self.run.judge.running(last) && self.stands[last] <= now && self.rng.chance(self.taste.stay) {
            return Some(Some(last));
        }
        let present: Vec<usize> = (0..SLOTS).filter(|slot| self.run.judge.present(*slot)).collect();
        let room = present.len() < self.taste.participants;
        if present.is_empty() || room && self.rng.below(100) < self.taste.weights[REGISTER as usize] {
            return Some(None);
        }
        let slot = present[self.rng.below(present.len())];
        (self.stands[slot] <= now).then_some(Some(slot))
    }

    fn choose_call(&mut self, slot: usize) -> Option<Record> {
        let weights = self.taste.weights;
        let mut at = self.rng.below(weights[2..].iter().sum());
        let mut action = ACQUIRE;
        while at >= weights[action as usize] {
            at -= weights[action as usize];
            action += 1;
        }
        // Few guards and handles, so that outermost pins and finalizes come often.
        let many = action == PIN && world::guards(slot) >= 2 || action == ACQUIRE && world::handles(slot) >= 3;
        let token = if action == DEFER { self.token(slot) } else { 0 };
        (!many && !self.last_one_leaves(action, slot)).then(|| Record::new(action, slot, token))
    }

    /// If nobody is left and no slot is free, the table stays full for ever and the schedule could not go on.
    fn last_one_leaves(&self, action: u8, slot: usize) -> bool {
        let leaves = action == RELEASE && world::handles(slot) == 1;
        let stays = |other: usize| {
            let leaving = self.run.judge.course(other).is_some_and(|course| course.finalizing);
            other != slot && self.run.judge.present(other) && world::handles(other) > 0 && !leaving
        };
        leaves && self.run.judge.free_slots() <= 2 && !(0..SLOTS).any(stays)
    }

    // Nearly full bags at collecting pins.

    fn nearly_full(&mut self) {
        while self.goes_on() {
            self.round();
            self.settle();
        }
    }

    /// One or two are brought to a collecting pin with a nearly full bag, and collect in the midst of rivals' pushes.
    fn round(&mut self) {
        let both = self.rng.chance(400);
        let collectors: Vec<usize> = (0..1 + usize::from(both)).map(|_| self.run.register()).collect();
        for slot in &collectors {
            self.bring(*slot);
        }
        let rivals = self.make_garbage();
        self.collect_together(&collectors, &rivals);
    }

    /// Whole pins and unpins up to a pin count that is a multiple of 128, then a bag of 57 to 64 items.
    fn bring(&mut self, slot: usize) {
        loop {
            if !self.operation(PIN, slot) {
                return;
            }
            let there = world::pins(slot) % 128 == 0;
            if there {
                let want = if self.rng.chance(400) { 64 } else { 57 + self.rng.below(8) };
                self.defers(slot, want.saturating_sub(world::bag_len(slot)));
            }
            self.operation(UNPIN, slot);
            if there {
                return;
            }
        }
    }

    /// A whole operation, if it is allowed.
    pub(crate) fn operation(&mut self, action: u8, slot: usize) -> bool {
        let record = self.record(action, slot);
        let allowed = self.run.judge.refusal(record).is_none();
        if allowed {
            self.run.operation(action, slot, record.token);
        }
        allowed
    }

    /// Bags that expire with the next advance, and deleted entries. Those that go, and the rivals, must have pinned once
    /// before, or their own pins would collect and clear all this away. Gives the rivals, who are pinned.
    fn make_garbage(&mut self) -> Vec<usize> {
        let leaving = self.rng.below(4);
        let goers: Vec<usize> = (0..leaving).map(|_| self.run.register()).collect();
        let rivals: Vec<usize> = (0..3).map(|_| self.run.register()).collect();
        for slot in goers.iter().chain(&rivals) {
            self.operation(PIN, *slot);
            self.operation(UNPIN, *slot);
        }
        let pusher = rivals[0];
        self.operation(PIN, pusher);
        for _ in 0..1 + self.rng.below(6) {
            self.defers(pusher, 1);
            self.operation(FLUSH, pusher);
        }
        for action in [REPIN, FLUSH, UNPIN] {
            self.operation(action, pusher);
        }
        for slot in &rivals {
            self.operation(PIN, *slot);
        }
        for slot in goers {
            self.operation(RELEASE, slot);
        }
        rivals
    }

    /// The nearly full ones pin, or go, in the midst of the rivals' pushes.
    fn collect_together(&mut self, collectors: &[usize], rivals: &[usize]) {
        for slot in collectors {
            let action = if self.rng.chance(500) { PIN } else { RELEASE };
            let record = Record::new(action, *slot, 0);
            if self.run.judge.refusal(record).is_none() {
                self.run.play(record);
            }
        }
        let most = self.run.log.len() + 3000;
        while self.run.log.len() < most {
            let running: Vec<usize> = collectors.iter().copied().filter(|slot| self.run.judge.running(*slot)).collect();
            if running.is_empty() {
                return;
            }
            let slot = running[self.rng.below(running.len())];
            let pushing = self.run.judge.course(slot).is_some_and(|course| course.then.is_some());
            if self.rng.chance(if pushing { 250 } else { 700 }) {
                self.run.step(slot);
            } else {
                self.rival_turn(rivals);
            }
        }
    }

    /// A rival pins, defers and flushes without end.
    fn rival_turn(&mut self, rivals: &[usize]) {
        let slot = rivals[self.rng.below(rivals.len())];
        let (action, token) = match (self.run.judge.running(slot), world::guards(slot), world::bag_len(slot)) {
            (true, ..) => (STEP, 0),
            (_, 0, _) => (PIN, 0),
            (_, _, 0) => (DEFER, self.token(slot)),
            _ => (if self.rng.chance(800) { FLUSH } else { UNPIN }, 0),
        };
        let record = Record::new(action, slot, token);
        if self.run.judge.refusal(record).is_none() {
            self.run.play(record);
        }
    }

    /// All operations finished, all participants gone, so that the next round begins with few.
    fn settle(&mut self) {
        for slot in 0..SLOTS {
            if self.run.judge.present(slot) {
                self.run.finish(slot);
                self.leave(slot);
            }
        }
    }

    fn leave(&mut self, slot: usize) {
        while self.run.judge.present(slot) {
            let action = if world::guards(slot) > 0 { UNPIN } else { RELEASE };
            if !self.operation(action, slot) {
                return;
            }
        }
    }
}
