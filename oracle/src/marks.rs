//! Which steps of a schedule that is being made are marked. Drawn from numbers of their own, so that a schedule without marks is made as ever.

use crate::arena::SLOTS;
use crate::generate::Rng;
use crate::judge::Judge;
use crate::place::Place;
use crate::record::{Record, MARKED, STEP};

/// Keeps these draws apart from those of a schedule with the same seed.
const APART: u64 = 0x6d61_726b;

pub(crate) struct Marks {
    of_1000: usize,
    rng: Rng,
    /// Whether the registering of a slot has come to its link before.
    came: [bool; SLOTS],
}

impl Marks {
    /// So many steps of 1000; and, unless that is 0, the step with which a registering first comes to its link.
    pub(crate) fn new(of_1000: usize, seed: u64) -> Marks {
        Marks { of_1000, rng: Rng(seed ^ APART), came: [false; SLOTS] }
    }

    pub(crate) fn none() -> Marks {
        Marks::new(0, 0)
    }

    /// Every step. A registering does not end so.
    pub(crate) fn every() -> Marks {
        Marks::new(1000, 0)
    }

    pub(crate) fn any(&self) -> bool {
        self.of_1000 > 0
    }

    /// The record as it is to be played.
    pub(crate) fn put(&mut self, record: Record, judge: &Judge) -> Record {
        if !self.any() || record.action != STEP || !record.formed {
            return record;
        }
        let first = self.first_at_link(record.participant as usize, judge);
        if first || self.rng.chance(self.of_1000) { Record { action: MARKED, ..record } } else { record }
    }

    /// A marked link fails; were every one marked, no registering would end, so it is the first of each.
    fn first_at_link(&mut self, slot: usize, judge: &Judge) -> bool {
        let place = if judge.running(slot) { judge.course(slot).and_then(|course| course.place) } else { None };
        match place {
            Some(Place::RegisterHead) => self.came[slot] = false,
            Some(Place::RegisterLink) => return !core::mem::replace(&mut self.came[slot], true),
            _ => (),
        }
        false
    }

    /// Action 9 of a record that is made without asking: half of them are the next one, which there is not.
    pub(crate) fn wild_action(&mut self, action: u8) -> u8 {
        let kept = action < MARKED || self.any() && self.rng.chance(500);
        if kept { action } else { MARKED + 1 }
    }
}
