//! The crate's memory in index form: shared words, private counts, bags. And the operations as the crate's users call them.

use crate::arena::{ARENA, NODES};
use crate::collector::{Collector, LocalHandle};
use crate::deferred::Deferred;
use crate::guard::Guard;
use crate::internal::{Bag, Local};
use crate::layout::{word_at, Layout};
use crate::primitive::{Made, Verb};
use crate::single::Single;
use core::mem::{forget, size_of, ManuallyDrop};

pub(crate) const MAX_OBJECTS: usize = 64;
const BAG_WORDS: usize = size_of::<Bag>() / 8;
/// Most tokens one whole operation frees: 8 bags of 64.
const MOST_FREED: usize = 512;

/// Shared words, numbered as in document 02's No. 1.
pub(crate) const GLOBAL_EPOCH: u64 = 0;
pub(crate) const LIST_HEAD: u64 = 1;
pub(crate) const ENTRY_NEXT: u64 = 2;
pub(crate) const OWN_WORD: u64 = 3;
pub(crate) const QUEUE_HEAD: u64 = 4;
pub(crate) const QUEUE_TAIL: u64 = 5;
pub(crate) const NODE_NEXT: u64 = 6;

/// An access as document 02's No. 1 writes it.
#[derive(Clone, Copy, Default, PartialEq, Eq, Debug)]
pub(crate) struct Access {
    pub(crate) kind: u64,
    pub(crate) word: u64,
    pub(crate) index: u64,
    pub(crate) read: u64,
    pub(crate) stored: u64,
}

/// What a bag holds. Its code is the one of the recorded answers.
#[derive(Clone, Copy, PartialEq, Eq, Debug)]
pub(crate) enum Item {
    Token(u64),
    Node(u64),
    Slot(u64),
}

impl Item {
    pub(crate) fn code(self) -> u64 {
        match self {
            Item::Token(v) => 4 * v + 1,
            Item::Node(v) => 4 * v + 2,
            Item::Slot(v) => 4 * v + 3,
        }
    }
    pub(crate) fn token(self) -> Option<u32> {
        if let Item::Token(v) = self { Some(v as u32) } else { None }
    }
}

/// The bytes of a bag, kept from before the crate moves it.
#[derive(Clone, Copy)]
pub(crate) struct RawBag(pub(crate) [u64; BAG_WORDS]);

impl RawBag {
    pub(crate) const EMPTY: RawBag = RawBag([0; BAG_WORDS]);
}

static COLLECTOR: Single<Option<ManuallyDrop<Collector>>> = Single::new(None);
static LAYOUT: Single<Option<Layout>> = Single::new(None);
static FREED: Single<([u32; MOST_FREED], usize)> = Single::new(([0; MOST_FREED], 0));

pub(crate) fn token_closure(token: usize) -> impl FnOnce() + Send + 'static {
    move || unsafe {
        let freed = FREED.get();
        (*freed).0[(*freed).1] = token as u32;
        (*freed).1 += 1;
    }
}

/// The tokens freed since the last call, in order.
pub(crate) fn take_freed() -> Vec<u32> {
    unsafe {
        let freed = FREED.get();
        let tokens = (&(*freed).0)[..(*freed).1].to_vec();
        (*freed).1 = 0;
        tokens
    }
}

/// A fresh start. The collector kept here keeps the `Global` alive.
pub(crate) fn start() {
    unsafe {
        if (*LAYOUT.get()).is_none() {
            *LAYOUT.get() = Some(Layout::probe());
        }
        ARENA.reset();
        ARENA.enter();
        *COLLECTOR.get() = Some(ManuallyDrop::new(Collector::new()));
        ARENA.leave();
    }
    take_freed();
}

pub(crate) fn collector() -> &'static Collector {
    unsafe { (*COLLECTOR.get()).as_ref().expect("started") }
}

fn layout() -> &'static Layout {
    unsafe { (*LAYOUT.get()).as_ref().expect("started") }
}

// The operations, with handles and guards of the crate. A stepped operation cannot keep them on its stack between two
// operations, so they are forgotten and made again from the address of their `Local`, which is all they hold.

fn local(slot: usize) -> *const Local {
    ARENA.slot_address(slot) as *const Local
}
fn handle(slot: usize) -> LocalHandle {
    LocalHandle { local: local(slot) }
}
fn guard(slot: usize) -> ManuallyDrop<Guard> {
    ManuallyDrop::new(Guard { local: local(slot) })
}

pub(crate) fn register() {
    forget(collector().register());
}
pub(crate) fn acquire(slot: usize) {
    forget(acquired(slot));
}
pub(crate) fn acquired(slot: usize) -> LocalHandle {
    unsafe { (*local(slot)).acquire_handle() };
    handle(slot)
}
pub(crate) fn release(slot: usize) {
    drop(handle(slot));
}
pub(crate) fn pin(slot: usize) {
    forget(ManuallyDrop::new(handle(slot)).pin());
}
pub(crate) fn unpin(slot: usize) {
    drop(ManuallyDrop::into_inner(guard(slot)));
}
pub(crate) fn repin(slot: usize) {
    guard(slot).repin();
}
pub(crate) fn defer(slot: usize, token: u32) {
    guard(slot).defer(token_closure(token as usize));
}
pub(crate) fn flush(slot: usize) {
    guard(slot).flush();
}

// Reading.

pub(crate) fn epoch() -> u64 {
    word_at(layout().epoch)
}
pub(crate) fn list_head() -> u64 {
    slot_link(word_at(layout().list_head))
}
pub(crate) fn queue_head() -> u64 {
    node_link(word_at(layout().queue_head))
}
pub(crate) fn queue_tail() -> u64 {
    node_link(word_at(layout().queue_tail))
}
fn slot_word(slot: usize, at: usize) -> u64 {
    word_at(ARENA.slot_address(slot) + at)
}
pub(crate) fn own_word(slot: usize) -> u64 {
    slot_word(slot, layout().word)
}
pub(crate) fn entry_next(slot: usize) -> u64 {
    slot_link(slot_word(slot, layout().entry_next))
}
pub(crate) fn guards(slot: usize) -> u64 {
    slot_word(slot, layout().guards)
}
pub(crate) fn handles(slot: usize) -> u64 {
    slot_word(slot, layout().handles)
}
pub(crate) fn pins(slot: usize) -> u64 {
    slot_word(slot, layout().pins)
}
pub(crate) fn bag_len(slot: usize) -> usize {
    slot_word(slot, layout().bag + layout().in_bag.len) as usize
}
pub(crate) fn node_next(node: usize) -> u64 {
    node_link(word_at(ARENA.node_address(node) + layout().node_next))
}
pub(crate) fn sealed(node: usize) -> u64 {
    word_at(ARENA.node_address(node) + layout().sealed)
}

fn raw_bag(address: usize) -> RawBag {
    RawBag(unsafe { core::ptr::read_volatile(address as *const [u64; BAG_WORDS]) })
}
pub(crate) fn slot_bag(slot: usize) -> RawBag {
    raw_bag(ARENA.slot_address(slot) + layout().bag)
}
pub(crate) fn node_bag(node: usize) -> RawBag {
    raw_bag(ARENA.node_address(node) + layout().node_bag)
}

impl RawBag {
    pub(crate) fn len(&self) -> usize {
        self.0[layout().in_bag.len / 8] as usize
    }

    pub(crate) fn item(&self, k: usize) -> Item {
        let of = &layout().in_bag;
        let at = of.deferreds + k * size_of::<Deferred>();
        let (call, data) = (self.0[(at + of.call) / 8] as usize, self.0[(at + of.data) / 8]);
        if call == layout().token_call {
            return Item::Token(data);
        }
        match (ARENA.slot_at(data as usize), ARENA.node_at(data as usize)) {
            (Some((slot, 0)), _) => Item::Slot(slot as u64),
            (_, Some((node, 0))) => Item::Node(node as u64),
            _ => panic!("an item that is neither token nor slot nor node"),
        }
    }

    pub(crate) fn items(&self) -> Vec<Item> {
        assert!(self.len() <= MAX_OBJECTS, "length of a bag");
        (0..self.len()).map(|k| self.item(k)).collect()
    }
}

/// Null 0, index i with tag t is 2(i+1)+t; so a tagged null is 1.
fn slot_link(raw: u64) -> u64 {
    let tag = raw & 7;
    assert!(tag <= 1, "tag of a link");
    match raw - tag {
        0 => tag,
        pointer => match ARENA.slot_at(pointer as usize) {
            Some((slot, 0)) => 2 * (slot as u64 + 1) + tag,
            _ => panic!("a link of the list to no slot: {raw:#x}"),
        },
    }
}

fn node_link(raw: u64) -> u64 {
    match raw {
        0 => 0,
        pointer => match ARENA.node_at(pointer as usize) {
            Some((node, 0)) => 2 * (node as u64 + 1),
            _ => panic!("a link of the queue to no node: {raw:#x}"),
        },
    }
}

/// Which shared word lies at an address, and its index.
pub(crate) fn shared_word(address: usize) -> (u64, u64) {
    let of = layout();
    if address == of.epoch {
        return (GLOBAL_EPOCH, 0);
    }
    if address == of.list_head {
        return (LIST_HEAD, 0);
    }
    if address == of.queue_head {
        return (QUEUE_HEAD, 0);
    }
    if address == of.queue_tail {
        return (QUEUE_TAIL, 0);
    }
    let (slot, node) = (ARENA.slot_at(address), ARENA.node_at(address));
    let live = slot.is_none_or(|(slot, _)| ARENA.slot_taken(slot)) && node.is_none_or(|(node, _)| ARENA.node_taken(node));
    assert!(live, "an access to a slot or node that was freed");
    match (slot, node) {
        (Some((slot, at)), _) if at == of.entry_next => (ENTRY_NEXT, slot as u64),
        (Some((slot, at)), _) if at == of.word => (OWN_WORD, slot as u64),
        (_, Some((node, at))) if at == of.node_next => (NODE_NEXT, node as u64),
        _ => panic!("an access to no shared word: {address:#x}"),
    }
}

fn value_code(word: u64, raw: u64) -> u64 {
    match word {
        GLOBAL_EPOCH | OWN_WORD => raw,
        LIST_HEAD | ENTRY_NEXT => slot_link(raw),
        _ => node_link(raw),
    }
}

/// The only exchange on a participant's word is pin's, which document 01 takes as the plain store.
pub(crate) fn access(made: Made) -> Access {
    let (word, index) = shared_word(made.address);
    let (read, stored) = (value_code(word, made.read), value_code(word, made.stored));
    if word == OWN_WORD && made.verb == Verb::Exchange {
        assert!(made.won && read == 0, "pin's exchange is on an unpinned word");
        return Access { kind: 2, word, index, read: 0, stored };
    }
    let kind = match (made.verb, made.won) {
        (Verb::Load, _) => 1,
        (Verb::Store, _) => 2,
        (Verb::Exchange, true) => 3,
        (Verb::Exchange, false) => 4,
        (Verb::FetchOr, _) => 5,
    };
    Access { kind, word, index, read, stored: if kind == 4 { 0 } else { stored } }
}

/// Nodes reachable behind the sentinel: where the bags are when no operation runs.
pub(crate) fn queued() -> [bool; NODES] {
    let mut holds = [false; NODES];
    let mut link = node_next(queue_head() as usize / 2 - 1);
    while link != 0 {
        let node = link as usize / 2 - 1;
        holds[node] = true;
        link = node_next(node);
    }
    holds
}
