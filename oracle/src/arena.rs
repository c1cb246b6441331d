//! Allocations of the crate. While the crate runs, a `Local`, a `Node` and the one `Global` lie in numbered blocks, told
//! apart by their size; the smallest free index is taken, as document 01 says. Resetting the arena forgets a whole run.

use core::alloc::{GlobalAlloc, Layout};
use core::cell::Cell;
use std::alloc::System;

pub(crate) const SLOTS: usize = 32;
pub(crate) const NODES: usize = 128;
const SEEN: usize = 8;
/// Freed blocks are filled with it, so that a late look at one is noticed.
const POISON: u8 = 0xDD;

#[derive(Clone, Copy, PartialEq, Eq)]
enum Mode {
    Outside,
    /// Sizes are noted, memory is the system's.
    Observe,
    Inside,
}

pub(crate) struct Arena {
    mode: Cell<Mode>,
    seen: Cell<usize>,
    sizes: [Cell<usize>; SEEN],
    local: Cell<usize>,
    node: Cell<usize>,
    global: Cell<usize>,
    base: Cell<usize>,
    slots: Cell<u32>,
    nodes: Cell<u128>,
    /// Allocations inside that are none of the three; there must be none.
    strays: Cell<usize>,
    /// Index of the last node taken.
    newest: Cell<usize>,
}

unsafe impl Sync for Arena {}

#[global_allocator]
pub(crate) static ARENA: Arena = Arena {
    mode: Cell::new(Mode::Outside),
    seen: Cell::new(0),
    sizes: [const { Cell::new(0) }; SEEN],
    local: Cell::new(0),
    node: Cell::new(0),
    global: Cell::new(0),
    base: Cell::new(0),
    slots: Cell::new(0),
    nodes: Cell::new(0),
    strays: Cell::new(0),
    newest: Cell::new(0),
};

unsafe impl GlobalAlloc for Arena {
    unsafe fn alloc(&self, layout: Layout) -> *mut u8 {
        match self.mode.get() {
            Mode::Outside => System.alloc(layout),
            Mode::Observe => self.observe(layout),
            Mode::Inside => self.take(layout),
        }
    }

    unsafe fn dealloc(&self, block: *mut u8, layout: Layout) {
        let offset = (block as usize).wrapping_sub(self.base.get());
        if self.base.get() == 0 || offset >= self.bytes() {
            return System.dealloc(block, layout);
        }
        self.give_back(block, offset, layout.size());
    }
}

impl Arena {
    pub(crate) fn enter(&self) {
        self.mode.set(Mode::Inside);
    }
    pub(crate) fn leave(&self) {
        self.mode.set(Mode::Outside);
        assert_eq!(self.strays.get(), 0, "the crate allocated something unknown");
    }

    /// Sizes allocated by `work`, in order.
    pub(crate) fn observed(&self, work: impl FnOnce()) -> Vec<usize> {
        self.mode.set(Mode::Observe);
        work();
        self.mode.set(Mode::Outside);
        self.sizes[..self.seen.get()].iter().map(Cell::get).collect()
    }

    /// Lays out the blocks: all slots, all nodes, the global.
    pub(crate) fn lay_out(&self, local: usize, node: usize, global: usize) {
        assert!(local != node && node != global && local != global, "sizes do not tell allocations apart");
        self.local.set(local);
        self.node.set(node);
        self.global.set(global);
        let memory = vec![0u64; self.bytes().div_ceil(8)].into_boxed_slice();
        self.base.set(Box::leak(memory).as_mut_ptr() as usize);
    }

    /// Forgets every block. What lay there is never looked at again.
    pub(crate) fn reset(&self) {
        self.slots.set(0);
        self.nodes.set(0);
    }

    unsafe fn observe(&self, layout: Layout) -> *mut u8 {
        let seen = self.seen.get();
        if seen < SEEN {
            self.sizes[seen].set(layout.size());
            self.seen.set(seen + 1);
        }
        System.alloc(layout)
    }

    unsafe fn take(&self, layout: Layout) -> *mut u8 {
        let size = layout.size();
        if size == self.local.get() && self.slots.get() != u32::MAX {
            let index = self.slots.get().trailing_ones() as usize;
            self.slots.set(self.slots.get() | 1 << index);
            return self.slot_address(index) as *mut u8;
        }
        if size == self.node.get() && self.nodes.get() != u128::MAX {
            let index = self.nodes.get().trailing_ones() as usize;
            self.nodes.set(self.nodes.get() | 1 << index);
            self.newest.set(index);
            return self.node_address(index) as *mut u8;
        }
        if size == self.global.get() {
            return self.global_address() as *mut u8;
        }
        self.strays.set(self.strays.get() + 1);
        System.alloc(layout)
    }

    unsafe fn give_back(&self, block: *mut u8, offset: usize, size: usize) {
        if let Some((index, 0)) = self.slot_at(block as usize) {
            assert!(self.slot_taken(index), "slot {index} freed twice");
            self.slots.set(self.slots.get() & !(1 << index));
        } else if let Some((index, 0)) = self.node_at(block as usize) {
            assert!(self.node_taken(index), "node {index} freed twice");
            self.nodes.set(self.nodes.get() & !(1 << index));
        } else {
            assert_eq!(offset, self.global_address() - self.base.get(), "a block freed in its middle");
        }
        block.write_bytes(POISON, size);
    }

    fn bytes(&self) -> usize {
        SLOTS * self.local.get() + NODES * self.node.get() + self.global.get()
    }
    pub(crate) fn slot_address(&self, index: usize) -> usize {
        self.base.get() + index * self.local.get()
    }
    pub(crate) fn node_address(&self, index: usize) -> usize {
        self.slot_address(SLOTS) + index * self.node.get()
    }
    fn global_address(&self) -> usize {
        self.node_address(NODES)
    }
    /// Slot and offset in it of an address.
    pub(crate) fn slot_at(&self, address: usize) -> Option<(usize, usize)> {
        split(address, self.slot_address(0), self.local.get(), SLOTS)
    }
    /// Node and offset in it of an address.
    pub(crate) fn node_at(&self, address: usize) -> Option<(usize, usize)> {
        split(address, self.node_address(0), self.node.get(), NODES)
    }
    pub(crate) fn slot_taken(&self, index: usize) -> bool {
        self.slots.get() >> index & 1 == 1
    }
    pub(crate) fn node_taken(&self, index: usize) -> bool {
        self.nodes.get() >> index & 1 == 1
    }
    pub(crate) fn smallest_free_slot(&self) -> usize {
        self.slots.get().trailing_ones() as usize
    }
    pub(crate) fn nodes_taken(&self) -> usize {
        self.nodes.get().count_ones() as usize
    }
    pub(crate) fn newest_node(&self) -> usize {
        self.newest.get()
    }
}

fn split(address: usize, start: usize, size: usize, count: usize) -> Option<(usize, usize)> {
    let offset = address.checked_sub(start)?;
    (size > 0 && offset < size * count).then(|| (offset / size, offset % size))
}
