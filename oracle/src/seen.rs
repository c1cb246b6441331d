//! What a step showed: its place, what it belongs to and what came of it. Coverage is counted over these.

use crate::place::{Course, Place, Then};
use crate::record::{FLUSH, PIN};
use crate::world::{self, Access};
use core::cmp::Ordering;

/// What a collect belongs to.
#[derive(Clone, Copy, PartialEq, Eq, PartialOrd, Ord, Debug)]
pub(crate) enum Within {
    Pin,
    Flush,
    Finalize,
}

#[derive(Clone, Copy, PartialEq, Eq, PartialOrd, Ord, Debug)]
pub(crate) struct Seen {
    pub(crate) place: Place,
    pub(crate) then: Option<Then>,
    pub(crate) within: Option<Within>,
    pub(crate) outcome: &'static str,
    /// Distance at `pop next`, where a node was found.
    pub(crate) distance: Option<i64>,
    /// A load that gave a tagged null, or a tag put on a null.
    pub(crate) tagged_null: bool,
    /// `pop next` judged a node by its seal whose bag was popped and freed before.
    pub(crate) bag_gone: bool,
    /// The step was a marked one.
    pub(crate) marked: bool,
}

/// What comes of a marked step at `register link` where the value agrees.
pub(crate) const SPURIOUS: &str = "failed for no reason";

impl Seen {
    pub(crate) fn note_mark(&mut self, marked: bool, spurious: bool) {
        self.marked = marked;
        if spurious {
            assert!(marked && self.place == Place::RegisterLink, "the one weak exchange, in a marked step");
            self.outcome = SPURIOUS;
        }
    }
}

pub(crate) fn look(course: &Course, access: Access, next: Option<&Course>, epoch: u64) -> Seen {
    let place = course.place.expect("stopped");
    Seen {
        place,
        then: course.then,
        within: within(course, place),
        outcome: outcome(course, place, access, next, epoch),
        distance: distance(course, place, access),
        tagged_null: matches!(access.word, 1 | 2) && (access.read == 1 || access.stored == 1),
        bag_gone: false,
        marked: false,
    }
}

fn within(course: &Course, place: Place) -> Option<Within> {
    let nested = matches!(course.then, Some(Then::Walk | Then::Pop));
    if !(nested || place == Place::AdvanceEpoch || place.in_collect()) {
        return None;
    }
    Some(match (course.action, course.finalizing) {
        (_, true) => Within::Finalize,
        (PIN, _) => Within::Pin,
        (FLUSH, _) => Within::Flush,
        _ => unreachable!("a collect belongs to a pin, a flush or a finalize"),
    })
}

fn outcome(course: &Course, place: Place, access: Access, after: Option<&Course>, epoch: u64) -> &'static str {
    let won = access.kind == 3;
    let next = after.and_then(|course| course.place);
    match place {
        Place::Unlink => unlink(won, access, next),
        Place::RegisterLink | Place::PopExchange | Place::PopTailMove => either(won, "won", "lost"),
        Place::PushHelp | Place::PushLink | Place::PushMove => either(won, "won", "lost"),
        Place::AdvanceHead => either(access.read == 0, "null", "entry"),
        Place::AdvanceNext => either(access.read & 1 == 1, "tagged", "live"),
        Place::AdvanceWord => match next {
            Some(Place::PopHead) => "pinned elsewhere",
            _ => "goes on",
        },
        Place::AdvanceStore => match access.stored.cmp(&epoch) {
            Ordering::Equal => "same value",
            Ordering::Greater => "new value",
            Ordering::Less => "LOWER VALUE",
        },
        Place::PopNext => match (access.read, next) {
            (0, _) => "null",
            (_, Some(Place::PopExchange)) => "expired",
            _ => "not expired",
        },
        Place::PopTail => pop_tail(course, access, after),
        Place::PushNext => either(access.read == 0, "null", "set"),
        Place::RepinEpoch => either(next.is_none(), "equal", "unequal"),
        Place::PinWord => match next {
            None => "done",
            Some(Place::AdvanceEpoch) => "collects",
            _ => "pushes",
        },
        Place::UnpinWord => either(next.is_none(), "done", "finalizes"),
        Place::FinalTag => either(access.read == 0, "on null", "on a link"),
        _ => "made",
    }
}

fn either(first: bool, yes: &'static str, no: &'static str) -> &'static str {
    if first { yes } else { no }
}

fn unlink(won: bool, access: Access, next: Option<Place>) -> &'static str {
    match (won, access.read & 1, next) {
        (true, _, Some(Place::PushEpoch)) => "won, bag full",
        (true, _, _) => "won",
        (false, 0, _) => "lost, untagged",
        (false, _, _) => "lost, tagged",
    }
}

fn pop_tail(course: &Course, access: Access, after: Option<&Course>) -> &'static str {
    let old = course.popped.map(|(old, _)| 2 * (old as u64 + 1));
    match after.and_then(|course| course.then) {
        _ if old == Some(access.read) => "the old head",
        Some(Then::Pop) => "another, bag full",
        _ => "another",
    }
}

fn distance(course: &Course, place: Place, access: Access) -> Option<i64> {
    if place != Place::PopNext || access.read == 0 {
        return None;
    }
    let seal = world::sealed(access.read as usize / 2 - 1);
    Some(course.judging.wrapping_sub(seal & !1) as i64 >> 1)
}
