//! Where things lie, found out at start-up by looking: the crate's structs keep the compiler's own layout, and their
//! fields are private. Known operations are run and their accesses and memory looked at.

use crate::arena::ARENA;
use crate::collector::Collector;
use crate::deferred::Deferred;
use crate::internal::{Bag, Local};
use crate::primitive::{Made, TURN};
use crate::world::token_closure;
use core::mem::{offset_of, size_of, MaybeUninit};

const DEFERRED: usize = size_of::<Deferred>();
const KNOWN: usize = 0x5EED_F00D;

#[derive(Clone, Copy, Default)]
pub(crate) struct BagLayout {
    pub(crate) len: usize,
    pub(crate) deferreds: usize,
    /// Offsets in a `Deferred`.
    pub(crate) call: usize,
    pub(crate) data: usize,
}

#[derive(Clone, Copy, Default)]
pub(crate) struct Layout {
    pub(crate) epoch: usize,
    pub(crate) list_head: usize,
    pub(crate) queue_head: usize,
    pub(crate) queue_tail: usize,
    /// Offsets in a `Local`.
    pub(crate) entry_next: usize,
    pub(crate) word: usize,
    pub(crate) bag: usize,
    pub(crate) guards: usize,
    pub(crate) handles: usize,
    pub(crate) pins: usize,
    /// Offsets in a `Node`.
    pub(crate) node_next: usize,
    pub(crate) node_bag: usize,
    pub(crate) sealed: usize,
    pub(crate) in_bag: BagLayout,
    /// The `call` of a deferred token.
    pub(crate) token_call: usize,
}

pub(crate) fn word_at(address: usize) -> u64 {
    unsafe { core::ptr::read_volatile(address as *const u64) }
}

impl Layout {
    pub(crate) fn probe() -> Layout {
        let sizes = ARENA.observed(|| {
            let collector = Collector::new();
            drop(collector.register());
        });
        assert_eq!(sizes[2], size_of::<Local>(), "Collector::new allocates a node and the global, register a Local");
        ARENA.lay_out(sizes[2], sizes[0], sizes[1]);
        let mut found = Layout { in_bag: probe_bag(), ..Layout::default() };
        found.probe_operations();
        ARENA.reset();
        found
    }

    /// Register, first pin, two defers and a flush of a sole participant, whose accesses document 01 lists.
    fn probe_operations(&mut self) {
        ARENA.enter();
        let collector = Collector::new();
        let (handle, register) = traced(|| collector.register());
        let (guard, pin) = traced(|| handle.pin());
        guard.defer(token_closure(KNOWN));
        guard.defer(token_closure(KNOWN + 1));
        let slot = ARENA.slot_address(0);
        self.bag = offset_of!(Local, bag);
        let item = slot + self.bag + self.in_bag.deferreds;
        self.token_call = word_at(item + self.in_bag.call) as usize;
        let ((), flush) = traced(|| guard.flush());
        self.epoch = pin[0].address;
        self.list_head = register[0].address;
        self.queue_head = pin[7].address;
        self.queue_tail = flush[1].address;
        self.entry_next = register[1].address - slot;
        self.word = pin[1].address - slot;
        self.node_next = pin[8].address - ARENA.node_address(0);
        assert_eq!(self.epoch, core::ptr::from_ref(&collector.global.epoch) as usize);
        // Not dropped: the arena is reset instead.
        core::mem::forget((collector, handle, guard));
        ARENA.leave();
        self.probe_counts(slot);
        self.probe_node();
    }

    /// `Local` is `repr(C)`: guard, handle and pin count follow the bag.
    fn probe_counts(&mut self, slot: usize) {
        self.guards = self.bag + size_of::<Bag>();
        self.handles = self.guards + 8;
        self.pins = self.handles + 8;
        let counts = [self.guards, self.handles, self.pins].map(|at| word_at(slot + at));
        assert_eq!(counts, [1, 1, 1], "guard, handle and pin count after one pin");
        assert_eq!(word_at(slot + self.word), 1, "own word after the first pin");
    }

    /// Node 1 holds the bag that was flushed at epoch word 2.
    fn probe_node(&mut self) {
        let node = ARENA.node_address(1);
        let size = ARENA.node_address(2) - node;
        let at = (0..size).step_by(8).find(|at| word_at(node + at) == KNOWN as u64).expect("the known token lies in the node");
        self.node_bag = at - self.in_bag.deferreds - self.in_bag.data;
        let outside = |at: &usize| (*at < self.node_bag || *at >= self.node_bag + size_of::<Bag>()) && *at != self.node_next;
        let left: Vec<usize> = (0..size).step_by(8).filter(outside).collect();
        assert_eq!(left.len(), 1, "one word is left for the sealed epoch");
        self.sealed = left[0];
        assert_eq!(word_at(node + self.sealed), 2, "sealed with word 2");
    }
}

/// Accesses of a whole operation.
fn traced<R>(work: impl FnOnce() -> R) -> (R, [Made; 12]) {
    unsafe { (*TURN.get()).count = 0 };
    let result = work();
    let trace = unsafe { (*TURN.get()).trace };
    (result, core::array::from_fn(|i| trace[i]))
}

fn probe_bag() -> BagLayout {
    let mut bag = MaybeUninit::<Bag>::zeroed();
    let address = bag.as_mut_ptr() as usize;
    let deferred = Deferred::new(token_closure(KNOWN));
    let known = core::ptr::from_ref(&deferred) as usize;
    let data = (0..DEFERRED).step_by(8).find(|at| word_at(known + at) == KNOWN as u64).expect("the token lies inline");
    unsafe { bag.as_mut_ptr().write(Bag::new()) };
    // Either the length stands first or the items do.
    let ends = [0, size_of::<Bag>() - 8];
    let before = ends.map(|at| word_at(address + at));
    let pushed = unsafe { (*bag.as_mut_ptr()).try_push(deferred) };
    assert!(pushed.is_ok());
    let len = (0..2).find(|i| before[*i] == 0 && word_at(address + ends[*i]) == 1).map(|i| ends[i]).expect("a length");
    let deferreds = if len == 0 { 8 } else { 0 };
    assert_eq!(word_at(address + deferreds + data), KNOWN as u64);
    // Data is three words in one piece; the pointer to the function stands before or behind it.
    BagLayout { len, deferreds, call: if data == 0 { DEFERRED - 8 } else { 0 }, data }
}
