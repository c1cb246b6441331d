//! The place of an operation: which of the accesses named in document 01 it stops before. It is worked out from the
//! operation, the place before and the access itself, so the crate's files need no mark in them.

use crate::primitive::Verb;
use crate::record::{DEFER, FLUSH, PIN, REGISTER, RELEASE, REPIN, UNPIN};
use crate::world::{ENTRY_NEXT, GLOBAL_EPOCH, LIST_HEAD, NODE_NEXT, OWN_WORD, QUEUE_HEAD, QUEUE_TAIL};

#[derive(Clone, Copy, PartialEq, Eq, PartialOrd, Ord, Debug)]
pub(crate) enum Place {
    RegisterHead,
    RegisterNext,
    RegisterLink,
    PinEpoch,
    PinWord,
    RepinWord,
    RepinEpoch,
    RepinStore,
    UnpinWord,
    AdvanceEpoch,
    AdvanceHead,
    AdvanceNext,
    AdvanceWord,
    Unlink,
    Stalled,
    AdvanceStore,
    PopHead,
    PopNext,
    PopExchange,
    PopTail,
    PopTailMove,
    PushEpoch,
    PushTail,
    PushNext,
    PushHelp,
    PushLink,
    PushMove,
    FinalWord,
    FinalTag,
}

use Place::*;

pub(crate) const PLACES: [(Place, &str); 29] = [
    (RegisterHead, "register head"),
    (RegisterNext, "register next"),
    (RegisterLink, "register link"),
    (PinEpoch, "pin epoch"),
    (PinWord, "pin word"),
    (RepinWord, "repin word"),
    (RepinEpoch, "repin epoch"),
    (RepinStore, "repin store"),
    (UnpinWord, "unpin word"),
    (AdvanceEpoch, "advance epoch"),
    (AdvanceHead, "advance head"),
    (AdvanceNext, "advance next"),
    (AdvanceWord, "advance word"),
    (Unlink, "unlink"),
    (Stalled, "stalled"),
    (AdvanceStore, "advance store"),
    (PopHead, "pop head"),
    (PopNext, "pop next"),
    (PopExchange, "pop exchange"),
    (PopTail, "pop tail"),
    (PopTailMove, "pop tail move"),
    (PushEpoch, "push epoch"),
    (PushTail, "push tail"),
    (PushNext, "push next"),
    (PushHelp, "push help"),
    (PushLink, "push link"),
    (PushMove, "push move"),
    (FinalWord, "final word"),
    (FinalTag, "final tag"),
];

/// What a push belongs to.
#[derive(Clone, Copy, PartialEq, Eq, PartialOrd, Ord, Debug)]
pub(crate) enum Then {
    Defer,
    Flush,
    Finalize,
    Walk,
    Pop,
}

pub(crate) const THENS: [(Then, &str); 5] =
    [(Then::Defer, "defer"), (Then::Flush, "flush"), (Then::Finalize, "finalize"), (Then::Walk, "walk"), (Then::Pop, "pop")];

/// What a running operation has come to.
#[derive(Clone, Copy, Debug)]
pub(crate) struct Course {
    pub(crate) action: u8,
    pub(crate) place: Option<Place>,
    pub(crate) then: Option<Then>,
    /// In an unpin, from the access that follows `unpin word`.
    pub(crate) finalizing: bool,
    /// The collect's epoch: loaded by `advance epoch`, or stored by `advance store`.
    pub(crate) judging: u64,
    /// Old head and popped node of a pop that has won its exchange and not yet ended.
    pub(crate) popped: Option<(usize, usize)>,
}

/// Private facts that decide between two places with the same access, from before the private work that led here.
#[derive(Clone, Copy)]
pub(crate) struct Facts {
    pub(crate) held: usize,
    pub(crate) collecting: bool,
}

impl Course {
    pub(crate) fn new(action: u8) -> Course {
        Course { action, place: None, then: None, finalizing: action == RELEASE, judging: 0, popped: None }
    }

    /// Moves on to the place of the access that is now waited for.
    pub(crate) fn go_on(&mut self, word: u64, verb: Verb, facts: Facts) {
        let place = self.place_of(word, verb, facts);
        if self.place == Some(UnpinWord) {
            self.finalizing = true;
        }
        if place == PushEpoch {
            self.then = Some(self.pushing_for(facts));
        } else if !place.in_push() {
            self.then = None;
        }
        self.place = Some(place);
    }

    fn place_of(&self, word: u64, verb: Verb, facts: Facts) -> Place {
        match (word, verb) {
            (GLOBAL_EPOCH, Verb::Load) => self.epoch_load(facts),
            (GLOBAL_EPOCH, Verb::Store) => AdvanceStore,
            (LIST_HEAD, Verb::Load) if self.action == REGISTER => RegisterHead,
            (LIST_HEAD, Verb::Load) if self.place == Some(Unlink) => Stalled,
            (LIST_HEAD, Verb::Load) => AdvanceHead,
            (LIST_HEAD, Verb::Exchange) if self.action == REGISTER => RegisterLink,
            (LIST_HEAD | ENTRY_NEXT, Verb::Exchange) => Unlink,
            (ENTRY_NEXT, Verb::Load) => AdvanceNext,
            (ENTRY_NEXT, Verb::Store) => RegisterNext,
            (ENTRY_NEXT, Verb::FetchOr) => FinalTag,
            (OWN_WORD, Verb::Exchange) => PinWord,
            (OWN_WORD, Verb::Load) if self.action == REPIN => RepinWord,
            (OWN_WORD, Verb::Load) => AdvanceWord,
            (OWN_WORD, Verb::Store) => self.word_store(),
            (QUEUE_HEAD, Verb::Load) => PopHead,
            (QUEUE_HEAD, Verb::Exchange) => PopExchange,
            (QUEUE_TAIL, Verb::Load) if self.place == Some(PopExchange) => PopTail,
            (QUEUE_TAIL, Verb::Load) => PushTail,
            (QUEUE_TAIL, Verb::Exchange) => self.tail_exchange(),
            (NODE_NEXT, Verb::Load) if self.place == Some(PopHead) => PopNext,
            (NODE_NEXT, Verb::Load) => PushNext,
            (NODE_NEXT, Verb::Exchange) => PushLink,
            _ => panic!("an access that document 01 does not know: {word} {verb:?} after {:?}", self.place),
        }
    }

    fn word_store(&self) -> Place {
        match (self.action, self.finalizing) {
            (REPIN, _) => RepinStore,
            (_, true) => FinalWord,
            (UNPIN, false) => UnpinWord,
            _ => panic!("a store of the own word after {:?}", self.place),
        }
    }

    fn tail_exchange(&self) -> Place {
        match self.place {
            Some(PopTail) => PopTailMove,
            Some(PushNext) => PushHelp,
            Some(PushLink) => PushMove,
            other => panic!("an exchange of the tail after {other:?}"),
        }
    }

    fn epoch_load(&self, facts: Facts) -> Place {
        match (self.place, self.action, self.then) {
            (None, PIN | RELEASE, _) | (Some(UnpinWord), _, _) => PinEpoch,
            (None, DEFER, _) => PushEpoch,
            (None, FLUSH, _) if facts.held > 0 => PushEpoch,
            (None, FLUSH, _) => AdvanceEpoch,
            (Some(RepinWord), _, _) => RepinEpoch,
            (Some(PinWord), _, _) if facts.collecting => AdvanceEpoch,
            (Some(PushMove), _, Some(Then::Flush)) => AdvanceEpoch,
            (Some(PushMove), _, Some(Then::Pop)) => PushEpoch,
            (Some(PinWord | Unlink | PopTail | PopTailMove | PopNext), _, _) => PushEpoch,
            (place, ..) => panic!("an epoch load after {place:?}"),
        }
    }

    /// A push in the middle of a walk or a pop comes of a bag that was full before; all else is the operation's own push.
    fn pushing_for(&self, facts: Facts) -> Then {
        let full = facts.held == crate::world::MAX_OBJECTS;
        match (self.place, self.action) {
            (None, DEFER) => Then::Defer,
            (None, FLUSH) => Then::Flush,
            (Some(Unlink), _) => Then::Walk,
            (Some(PopTail | PopTailMove), _) if full => Then::Pop,
            _ => Then::Finalize,
        }
    }

    /// A won pop has ended once the operation waits for something that is no part of it.
    pub(crate) fn pop_has_ended(&self) -> bool {
        let place = self.place.expect("stopped");
        let inside = matches!(place, PopTail | PopTailMove) || self.then == Some(Then::Pop);
        self.popped.is_some() && !inside
    }
}

impl Place {
    pub(crate) fn name(self) -> &'static str {
        PLACES[self as usize].1
    }
    pub(crate) fn in_push(self) -> bool {
        matches!(self, PushEpoch | PushTail | PushNext | PushHelp | PushLink | PushMove)
    }
    /// Part of a walk or of the pops: where a collector is late when it stands for long.
    pub(crate) fn in_collect(self) -> bool {
        (AdvanceHead..=PopTailMove).contains(&self)
    }
}
