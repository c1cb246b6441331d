//! Plays records on the crate. What document 01 would refuse, or document 02's No. 6, is answered here, by their table and order, and
//! never reaches the crate; all else is what the crate does.

use crate::arena::{ARENA, NODES, SLOTS};
use crate::collector::LocalHandle;
use crate::coroutine;
use crate::guard::Guard;
use crate::place::{Course, Facts, Place};
use crate::primitive::{Made, TURN};
use crate::record::*;
use crate::seen::{self, Seen};
use crate::single::Single;
use crate::world::{self, Access, Item, RawBag, MAX_OBJECTS};

const MOST_COUNTED: u64 = 65_535;
const LAST_TOKEN: u32 = 2_147_483_647;
const PINNINGS_BETWEEN_COLLECT: u64 = 128;
const COLLECT_STEPS: usize = 8;

#[derive(Clone, Copy, PartialEq, Eq, Debug)]
pub(crate) enum Answer {
    More,
    Done(u64),
    Refused(u8),
}

pub(crate) struct Outcome {
    pub(crate) answer: Answer,
    pub(crate) freed: Vec<u32>,
    pub(crate) access: Access,
    pub(crate) seen: Option<Seen>,
}

impl Outcome {
    fn plain(answer: Answer) -> Outcome {
        Outcome { answer, freed: Vec::new(), access: Access::default(), seen: None }
    }

    /// The line of document 01.
    pub(crate) fn line(&self) -> String {
        let mut line = match self.answer {
            Answer::More => String::from("more"),
            Answer::Done(value) => format!("done {value}"),
            Answer::Refused(number) => format!("refused {number}"),
        };
        for token in &self.freed {
            line += &format!(" +{token}");
        }
        line
    }
}

/// A bag that the crate has already moved out while document 01 still has it in its participant.
#[derive(Clone, Copy)]
struct Moved {
    bag: RawBag,
    /// Put in by the private work that also moved the bag.
    last: Option<Item>,
}

/// A whole run's own handles and guards of one participant.
#[derive(Default)]
struct Owned {
    handles: Vec<LocalHandle>,
    guards: Vec<Guard>,
}

pub(crate) struct Judge {
    pub(crate) n: usize,
    pub(crate) m: usize,
    whole: bool,
    courses: [Option<Course>; SLOTS],
    shares: [usize; SLOTS],
    moved: [Option<Moved>; SLOTS],
    /// Which nodes hold a bag, by document 01: from the sealing to the end of the pop that took it.
    pub(crate) holds: [bool; NODES],
    /// Which nodes have a sealed epoch; the first sentinel has none.
    pub(crate) seals: [bool; NODES],
    owned: Vec<Owned>,
}

static OPERATION: Single<(u8, usize, u32)> = Single::new((0, 0, 0));

/// What runs on an operation's stack.
fn operate() {
    let (action, slot, token) = unsafe { *OPERATION.get() };
    match action {
        REGISTER => world::register(),
        ACQUIRE => world::acquire(slot),
        RELEASE => world::release(slot),
        PIN => world::pin(slot),
        UNPIN => world::unpin(slot),
        REPIN => world::repin(slot),
        DEFER => world::defer(slot, token),
        _ => world::flush(slot),
    }
}

impl Judge {
    pub(crate) fn start(n: usize, m: usize, whole: bool) -> Judge {
        assert!((1..=SLOTS).contains(&n) && (2..=NODES).contains(&m), "N is 1 to 32, M is 2 to 128");
        world::start();
        Judge {
            n,
            m,
            whole,
            courses: [None; SLOTS],
            shares: [0; SLOTS],
            moved: [None; SLOTS],
            holds: [false; NODES],
            seals: [false; NODES],
            owned: (0..SLOTS).map(|_| Owned::default()).collect(),
        }
    }

    pub(crate) fn play(&mut self, record: Record) -> Outcome {
        if let Some(number) = self.refusal(record) {
            return Outcome::plain(Answer::Refused(number));
        }
        match (record.action, self.whole) {
            (STEP | MARKED, _) => self.step(record.participant as usize, record.action == MARKED),
            (_, false) => self.call(record),
            (_, true) => self.call_whole(record),
        }
    }

    // Looking.

    pub(crate) fn course(&self, slot: usize) -> Option<&Course> {
        self.courses[slot].as_ref()
    }
    pub(crate) fn running(&self, slot: usize) -> bool {
        self.courses.get(slot).is_some_and(Option::is_some)
    }
    /// Registered, or in the middle of an operation.
    pub(crate) fn present(&self, slot: usize) -> bool {
        slot < self.n && ARENA.slot_taken(slot) && (self.running(slot) || world::entry_next(slot) & 1 == 0)
    }
    pub(crate) fn free_slots(&self) -> usize {
        (0..self.n).filter(|slot| !ARENA.slot_taken(*slot)).count()
    }
    pub(crate) fn free_nodes(&self) -> usize {
        self.m - ARENA.nodes_taken() - self.shares.iter().sum::<usize>()
    }
    /// The bag of a participant by document 01, and what that has on top of the crate's.
    pub(crate) fn bag(&self, slot: usize) -> Vec<Item> {
        match &self.moved[slot] {
            None => world::slot_bag(slot).items(),
            Some(moved) => {
                let mut items = moved.bag.items();
                items.extend(moved.last);
                items
            }
        }
    }

    // Refusals.

    pub(crate) fn refusal(&self, record: Record) -> Option<u8> {
        let slot = record.participant as usize;
        match record.action {
            _ if !record.formed => Some(13),
            REGISTER => (ARENA.smallest_free_slot() >= self.n).then_some(10),
            _ if !self.present(slot) => Some(3),
            STEP | MARKED => (!self.running(slot)).then_some(5),
            _ if self.running(slot) => Some(4),
            action => self.refused_at_rest(action, slot, record.token),
        }
    }

    fn refused_at_rest(&self, action: u8, slot: usize, token: u32) -> Option<u8> {
        let (guards, handles) = (world::guards(slot), world::handles(slot));
        let count = if action == PIN { guards } else { handles };
        match action {
            UNPIN | REPIN | DEFER | FLUSH if guards == 0 => Some(6),
            PIN | ACQUIRE | RELEASE if handles == 0 => Some(7),
            PIN | ACQUIRE if count >= MOST_COUNTED => Some(8),
            DEFER if token > LAST_TOKEN => Some(9),
            DEFER if self.bag(slot).contains(&Item::Token(u64::from(token))) => Some(16),
            _ => (self.free_nodes() < self.need(action, slot)).then_some(11),
        }
    }

    /// Nodes that an operation could need, by document 01's table.
    fn need(&self, action: u8, slot: usize) -> usize {
        let held = world::bag_len(slot);
        match (action, world::guards(slot), world::handles(slot)) {
            (DEFER, ..) => (held == MAX_OBJECTS) as usize,
            (FLUSH, ..) => (held >= 1) as usize,
            (PIN, 0, _) => self.pin_need(slot, held),
            (UNPIN, 1, 0) | (RELEASE, 0, 1) => 1 + self.pin_need(slot, held),
            _ => 0,
        }
    }

    fn pin_need(&self, slot: usize, held: usize) -> usize {
        let collects = world::pins(slot) % PINNINGS_BETWEEN_COLLECT == 0;
        (collects && held + self.n + COLLECT_STEPS > MAX_OBJECTS) as usize
    }

    // Kind (ii): stepped.

    fn call(&mut self, record: Record) -> Outcome {
        let registering = record.action == REGISTER;
        let slot = if registering { ARENA.smallest_free_slot() } else { record.participant as usize };
        if !registering {
            self.shares[slot] = self.need(record.action, slot);
        }
        let before = if registering { RawBag::EMPTY } else { world::slot_bag(slot) };
        let held = if registering { 0 } else { before.len() };
        unsafe {
            *OPERATION.get() = (record.action, slot, record.token);
            (*TURN.get()).count = 0;
        }
        self.courses[slot] = Some(Course::new(record.action));
        let ended = coroutine::begin(slot, operate);
        assert_eq!(unsafe { (*TURN.get()).count }, 0, "a call makes no access");
        self.stopped(slot, ended, before, held);
        Outcome::plain(self.answer(slot, record.action, ended))
    }

    fn step(&mut self, slot: usize, marked: bool) -> Outcome {
        let course = self.courses[slot].expect("running");
        let before = world::slot_bag(slot);
        let epoch = world::epoch();
        let (ended, made) = take_turn(slot, marked);
        let access = world::access(made);
        self.note_access(slot, course.place.expect("stopped"), access);
        self.stopped(slot, ended, before, before.len());
        let mut seen = seen::look(&course, access, self.courses[slot].as_ref(), epoch);
        seen.note_mark(marked, made.spurious);
        seen.bag_gone = seen.distance.is_some() && !self.holds[access.read as usize / 2 - 1];
        let freed = world::take_freed();
        let answer = self.answer(slot, course.action, ended);
        Outcome { answer, freed, access, seen: Some(seen) }
    }

    /// A defer is done with the places left in its participant's bag (document 02, No. 9), by the length that the crate's own memory now has.
    fn answer(&self, slot: usize, action: u8, ended: bool) -> Answer {
        match (ended, action) {
            (false, _) => Answer::More,
            (true, REGISTER) => Answer::Done(slot as u64),
            (true, DEFER) => Answer::Done((MAX_OBJECTS - world::bag_len(slot)) as u64),
            (true, _) => Answer::Done(0),
        }
    }

    /// What the access itself changes in our own books.
    fn note_access(&mut self, slot: usize, place: Place, access: Access) {
        let node = |link: u64| link as usize / 2 - 1;
        if place == Place::PushEpoch {
            self.note_sealed(slot, access);
        }
        let course = self.courses[slot].as_mut().expect("running");
        match place {
            Place::AdvanceEpoch => course.judging = access.read,
            Place::AdvanceStore => course.judging = access.stored,
            Place::PopExchange if access.kind == 3 => course.popped = Some((node(access.read), node(access.stored))),
            _ => (),
        }
    }

    /// In the step of a push's epoch load the bag is in its node. The crate's own memory confirms the copy kept of it.
    fn note_sealed(&mut self, slot: usize, access: Access) {
        let node = ARENA.newest_node();
        let kept = self.bag(slot);
        assert_eq!(kept, world::node_bag(node).items(), "the bag that was moved is the bag that was held");
        assert_eq!(world::sealed(node), access.read, "sealed with the epoch just loaded");
        assert!(self.shares[slot] > 0, "a node was set aside");
        self.moved[slot] = None;
        self.shares[slot] -= 1;
        self.holds[node] = true;
        self.seals[node] = true;
    }

    /// After a turn: where the operation now stands, and what its private work did.
    fn stopped(&mut self, slot: usize, ended: bool, before: RawBag, held: usize) {
        let mut course = self.courses[slot].expect("running");
        if !ended {
            let asked = unsafe { (*TURN.get()).asked };
            let collecting = world::pins(slot).wrapping_sub(1) % PINNINGS_BETWEEN_COLLECT == 0;
            course.go_on(world::shared_word(asked.address).0, asked.verb, Facts { held, collecting });
        }
        let mut last = None;
        if ended || course.pop_has_ended() {
            if let Some((old, popped)) = course.popped.take() {
                self.holds[popped] = false;
                last = Some(Item::Node(old as u64));
            }
        }
        if course.place == Some(Place::PushEpoch) {
            assert_eq!(world::bag_len(slot), 0, "the crate moves the bag before it loads the epoch");
            self.moved[slot] = Some(Moved { bag: before, last });
        }
        self.courses[slot] = (!ended).then_some(course);
        if ended {
            self.shares[slot] = 0;
        }
    }

    // Kind (i): whole operations through the crate's own handles and guards, kept as a user would keep them.

    fn call_whole(&mut self, record: Record) -> Outcome {
        let slot = if record.action == REGISTER { ARENA.smallest_free_slot() } else { record.participant as usize };
        let mut owned = core::mem::take(&mut self.owned[slot]);
        // Room is made outside, the crate's allocations are the only ones inside.
        owned.handles.reserve(1);
        owned.guards.reserve(1);
        ARENA.enter();
        run_whole(&mut owned, record, slot);
        ARENA.leave();
        self.owned[slot] = owned;
        self.holds = world::queued();
        (0..NODES).for_each(|node| self.seals[node] |= self.holds[node]);
        let answer = self.answer(slot, record.action, true);
        Outcome { answer, freed: world::take_freed(), access: Access::default(), seen: None }
    }
}

/// Lets an operation make its one access, in a marked step or not. Whether it has ended, and the access.
fn take_turn(slot: usize, marked: bool) -> (bool, Made) {
    unsafe {
        (*TURN.get()).count = 0;
        (*TURN.get()).marked = marked;
    }
    let ended = coroutine::resume(slot);
    unsafe { (*TURN.get()).marked = false };
    assert_eq!(unsafe { (*TURN.get()).count }, 1, "a step makes one access");
    (ended, unsafe { (*TURN.get()).made })
}

fn run_whole(owned: &mut Owned, record: Record, slot: usize) {
    match record.action {
        REGISTER => owned.handles.push(world::collector().register()),
        ACQUIRE => owned.handles.push(world::acquired(slot)),
        RELEASE => drop(owned.handles.pop()),
        PIN => owned.guards.push(owned.handles[0].pin()),
        UNPIN => drop(owned.guards.pop()),
        REPIN => owned.guards.last_mut().expect("pinned").repin(),
        DEFER => owned.guards[0].defer(world::token_closure(record.token as usize)),
        _ => owned.guards[0].flush(),
    }
}

impl Drop for Judge {
    /// The arena forgets everything at the next start; handles and guards must not act on it before.
    fn drop(&mut self) {
        for owned in core::mem::take(&mut self.owned) {
            core::mem::forget(owned);
        }
    }
}
